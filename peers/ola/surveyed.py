"""Surveys devices that others wrote by the commands of `felosumay line` that are for all of a line: each prints what the others read."""
import json
import re

# What `find` prints of a device: its UID, its model and its label.
FOUND = re.compile(r'(\S+) "(.*)" "(.*)"$')


class Survey:
    """The commands for a whole line, on a console."""

    def __init__(self, console, devices):
        self.console = console
        self.found = [FOUND.match(device.found).groups() for device in devices]
        self.uids = [uid for uid, _, _ in self.found]

    def told(self, *words, status=0):
        """The lines that a command prints. It ends with this status, and has nothing to say on standard error but on a fault."""
        ended, printed, errors, _ = self.console.run(*words)
        self.console.expect(f"line {' '.join(words)}: the status", ended, status)
        if status == 0:
            self.console.expect(f"line {' '.join(words)}: standard error", errors, "")
        return printed.splitlines()

    def rows(self):
        """The list, by UID."""
        return {row["uid"]: row for row in json.loads("".join(self.told("list", "--format", "json")))}

    def check_list(self):
        """The list has each device that was found, with what `find` prints of it, and what `get` reads."""
        rows = self.rows()
        self.console.expect("what the list has", [(uid, row["model"], row["label"]) for uid, row in rows.items()], self.found)
        plain = self.told("get", "all", "DEVICE_INFO", "--format", "plain")
        listed = [f"{uid} {row['footprint']} {row['sub_devices']} {row['sensors']}" for uid, row in rows.items()]
        # The footprint is the sixth field behind the UID, the sub-devices the tenth, and the sensors the last.
        self.console.expect("what DEVICE_INFO says", [" ".join(line.split()[at] for at in (0, 6, 10, 11)) for line in plain], listed)

    def check_sensors(self):
        """Each sensor of the list has a line."""
        counted = {uid: row["sensors"] for uid, row in self.rows().items() if row["sensors"]}
        lines = [line.split()[0] for line in self.told("sensors")[1:]]
        self.console.expect("whose sensors are listed", {uid: lines.count(uid) for uid in dict.fromkeys(lines)}, counted)

    def check_addresses(self):
        """Once the addresses of the proposal are set, nothing clashes, and the next proposal is the same."""
        proposed = [line.split()[:3] for line in self.told("address", "--gap", "1")[1:-1]]
        self.told("address", "--gap", "1", "--yes")
        self.console.expect("what clashes", [row["clashes"] for row in self.rows().values() if row["clashes"]], [])
        again = [line.split()[:3] for line in self.told("address", "--gap", "1")[1:-1]]
        self.console.expect("the addresses proposed again", again, proposed)

    def check_identify(self):
        """All identify themselves, and no longer."""
        for word, value in (("on", "1"), ("off", "0")):
            self.told("identify", "all", word)
            self.console.expect(f"who identifies itself, {word}", self.told("get", "all", "identify_device", "--format", "plain"),
                                [f"{uid} {value}" for uid in self.uids])

    def differences(self, kept):
        """What differs from a survey that was kept, but for the hours: OLA's moving light counts one more each time that it is asked."""
        ended, printed, _, _ = self.console.run("compare", kept)
        lines = [line for line in printed.splitlines() if line != "nothing has changed"]
        self.console.expect("the status of compare", ended, 1 if lines else 0)
        return [line for line in lines if " has run " not in line]

    def check_kept(self):
        """Nothing differs from a survey that was kept; a label that was set does, and is set back."""
        kept = str(self.console.trace.with_name("kept.json"))
        uid, label = next((uid, label) for uid, model, label in self.found if model == "OLA Moving Light")
        self.console.run("save", kept)
        self.console.expect("what differs", self.differences(kept), [])
        self.told("set", uid, "device_label", "Other")
        self.console.expect("what differs by a label", self.differences(kept), [f'{uid} label: "{label}" then, "Other" now'])
        self.told("restore", kept, "--yes")
        self.console.expect("the label set back", self.told("get", uid, "device_label", "--format", "plain"), [label])

    def check(self):
        """All of them."""
        self.check_list()
        self.check_sensors()
        self.console.expect("what is wrong", len(self.told("status")), 1)
        self.check_addresses()
        self.check_identify()
        self.check_kept()
