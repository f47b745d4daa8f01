"""OLA's source, fetched from the distribution: it has the device tests, which no package of Debian has."""
import pathlib
import re
import subprocess

SECONDS_TO_FETCH = 100
# What apt says of where a package comes from: its name, its version, and the place, as in
#   ola | 0.10.9.nojsmin-2 | http://deb.debian.org/debian bookworm/main amd64 Packages
PLACE = re.compile(r"^ *ola \| \S+ \| (\S+) (\S+)/(\S+) \S+ Packages$", re.M)


class Unfetched(Exception):
    """Why the source isn't there."""


def told(*command, **options):
    """What a command writes on standard output."""
    ran = subprocess.run(command, stdin=subprocess.DEVNULL, stdout=subprocess.PIPE, stderr=subprocess.STDOUT, text=True,
                         timeout=SECONDS_TO_FETCH, check=False, **options)
    if ran.returncode:
        raise Unfetched(f"{command[0]}: {(ran.stdout.splitlines() or [ran.returncode])[-1]}")
    return ran.stdout


def fetch(room):
    """Fetches the source of the installed version into this folder, and returns the folder that it is in.

    apt is given folders of its own, so that the lists of this machine stay as they are.
    """
    room = pathlib.Path(room)
    try:
        places = set(PLACE.findall(told("apt-cache", "madison", "ola")))
        if not places:
            raise Unfetched("apt knows no place from which ola comes")
        (room / "sources").write_text("".join(f"deb-src {site} {suite} {part}\n" for site, suite, part in sorted(places)))
        for folder in ("lists/partial", "cache/archives/partial"):
            (room / folder).mkdir(parents=True)
        apt = ("apt-get", "-q", *(word for setting in (
            f"Dir::Etc::SourceList={room}/sources", "Dir::Etc::SourceParts=/dev/null", f"Dir::State::Lists={room}/lists",
            f"Dir::Cache={room}/cache", "APT::Sandbox::User=root", "APT::Update::Error-Mode=any") for word in ("-o", setting)))
        told(*apt, "update")
        version = told("dpkg-query", "--show", "--showformat", "${source:Version}", "ola")
        told(*apt, "source", "--download-only", "--tar-only", f"ola={version}", cwd=room)
        told("tar", "--extract", "--file", str(next(room.glob("ola_*.orig.tar.*"))), cwd=room)
        return next(room.glob("ola-*/tools/rdm")).parents[1]
    except (OSError, subprocess.TimeoutExpired, StopIteration) as error:
        raise Unfetched(str(error) or "there are no tests in it") from error
