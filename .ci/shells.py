"""What bash, zsh and fish complete of felosumay's command line, made from its pages of help (.ci/completions).

Each shell knows at which subcommand or command of `line` the command line is, since options and their values are left out of account, and
offers what the help of that one has and nothing else. UIDs come from the file that FELOSUMAY_LIST names, or else from the newest list or
survey in the current folder: felosumay keeps no files of its own.
"""
# The UIDs of a file that `line list --format csv`, `--format json` or `line save` has written: for sh, which all three shells call.
UIDS = r"""{ if [ -n "${FELOSUMAY_LIST-}" ]; then printf "%s\n" "$FELOSUMAY_LIST"; else ls -t -- *.csv *.json; fi; } 2>/dev/null |
while IFS= read -r file; do
    if head -c 4096 -- "$file" | grep -qE "^uid,|\"uid\""; then grep -oE "[0-9A-F]{4}:[0-9A-F]{8}" -- "$file" | sort -u; break; fi
done 2>/dev/null"""
# What the demonstration fixture has: also for sh, since fish says of a program that isn't there whatever it is told.
NAMED = "sh -c 'felosumay parameters 2>/dev/null | cut -d, -f1 | cut -d\" \" -f2'"


def with_values(commands):
    """The names of all options that take a value."""
    options = [it for command in commands for it in command.options]
    values, flags = ({n for it in options if bool(it.value) == takes for n in it.names} for takes in (True, False))
    if values & flags:
        raise SystemExit(f"completions: with a value here and without one there: {values & flags}")
    return sorted(values)


def names_in(options):
    return [name for option in options for name in option.names]


def each_place(command):
    """The arguments of a command, each with its place. What may come several times has all later places."""
    return enumerate(command.arguments)


# ---- bash

BASH = r"""# bash completion of felosumay, made by .ci/completions

# The UIDs of the newest list or survey in this folder, or in the file that FELOSUMAY_LIST names.
_felosumay_uids() {
    sh -c '@UIDS@'
}

# Those of these words that go on from the word.
_felosumay_among() {
    mapfile -t COMPREPLY < <(compgen -W "$1" -- "$word")
}

# The same of UIDs: several may stand in one word, with commas between. Words beside them stand for all.
_felosumay_devices() {
    local before=
    [[ $word != *,* ]] || { before=${word%,*}, && set --; }
    mapfile -t COMPREPLY < <(compgen -P "$before" -W "$(_felosumay_uids) $*" -- "${word#"$before"}")
}

# Files are completed by bash itself, which knows of quotes and of ~.
_felosumay_files() {
    compopt -o default
}

_felosumay() {
    local words=() given=() word piece key glued='' option=''
    # Bash splits words at : and =, which UIDs and options have.
    for piece in "${COMP_WORDS[@]:0:COMP_CWORD+1}"; do
        if [[ -n $glued || $piece == [:=]* ]]; then words[-1]+=$piece; else words+=("$piece"); fi
        glued=''
        [[ $piece != *[:=] ]] || glued=yes
    done
    # felosumay-line PORT is felosumay line --port PORT.
    [[ ${words[0]##*/} != felosumay-line ]] || words=(felosumay line --port "${words[@]:1}")
    word=${words[-1]}
    for piece in "${words[@]:1:${#words[@]}-2}"; do
        if [[ -n $option ]]; then
            option=''
            continue
        fi
        case $piece in
            @VALUES@) option=$piece ;;
            -*) ;;
            *) given+=("$piece") ;;
        esac
    done
    [[ $word != --*=* ]] || { option=${word%%=*} word=${word#*=}; }
    # The subcommand, and the command of one that has some.
    key=${given[0]:-} given=("${given[@]:1}")
    case $key:${given[0]:-} in
        @ERRANDS@) key+=" ${given[0]}" given=("${given[@]:1}") ;;
    esac
    COMPREPLY=()
    if [[ -n $option ]]; then
        case $key:$option in
@OPTION_VALUES@
        esac
    elif [[ $word == -* ]]; then
        case $key in
@OPTIONS@
        esac
    else
        case $key:${#given[@]} in
@PLACES@
        esac
    fi
    # It puts what is left in the place of what comes behind the last : alone.
    [[ $word == "${COMP_WORDS[COMP_CWORD]}" || $word != *:* ]] || COMPREPLY=("${COMPREPLY[@]#"${word%"${word##*:}"}"}")
}
complete -F _felosumay felosumay felosumay-line
"""


def bash_values(value, parameters):
    """What completes a value, if anything does."""
    return {"choices": lambda: f"_felosumay_among '{' '.join(value.choices)}'", "file": lambda: "_felosumay_files",
            "uid": lambda: "_felosumay_devices", "uids": lambda: "_felosumay_devices all",
            "parameter": lambda: f"_felosumay_among '{' '.join(parameters)}'",
            "named": lambda: f'_felosumay_among "$({NAMED})"'}.get(value.kind, lambda: None)()


def bash(top, commands, parameters):
    option_values, options, places = [], [], []
    for command in commands:
        options.append((f"'{command.key}'", f"_felosumay_among '{' '.join(names_in(command.options))}'"))
        option_values += [(" | ".join(f"'{command.key}:{name}'" for name in option.names), bash_values(option, parameters))
                          for option in command.options if option.value]
        places += [(f"'{command.key}':{'*' if argument.several else place}", bash_values(argument, parameters))
                   for place, argument in each_place(command)]
        if command.commands:
            places.append((f"'{command.key}:0'", f"_felosumay_among '{' '.join(command.commands)}'"))
    options.append(("''", f"_felosumay_among '{' '.join(names_in(top.options))}'"))
    places += [("':0'", f"_felosumay_among '{' '.join([*top.commands, 'help'])}'"),
               ("'help:0'", f"_felosumay_among '{' '.join(top.commands)}'")]
    text = BASH.replace("@UIDS@", UIDS).replace("@VALUES@", " | ".join(with_values(commands)))
    text = text.replace("@ERRANDS@", " | ".join(f"{c.key.replace(' ', ':')}" for c in commands if " " in c.key))
    for mark, rows in (("@OPTION_VALUES@", option_values), ("@OPTIONS@", options), ("@PLACES@", places)):
        text = text.replace(mark, "\n".join(f"            {case}) {what} ;;" for case, what in rows if what))
    return text


# ---- zsh

ZSH = r"""#compdef felosumay felosumay-line
# zsh completion of felosumay, made by .ci/completions

# The UIDs of the newest list or survey in this folder, or in the file that FELOSUMAY_LIST names; several with commas between. Words beside
# them stand for all.
_felosumay_devices() {
    local -a uids
    uids=(${(f)"$(sh -c '@UIDS@')"})
    compset -P '*,' || uids+=("$@")
    compadd -a uids
}

_felosumay_device() { _felosumay_devices }
_felosumay_device_or_all() { _felosumay_devices all }

_felosumay_parameters() {
    compadd @PARAMETERS@
}

_felosumay_named() {
    local -a names
    names=(${(f)"$(@NAMED@)"})
    compadd -a names
}
"""
# Where the subcommand stands the state is `command`, and behind it `argument`, with the words from the subcommand on.
ZSH_ABOVE = r"""
@FUNCTION@() {
    local -a commands
    local context state state_descr line curcontext=$curcontext
    typeset -A opt_args
    _arguments -C \
@OPTIONS@        '1:command:->command' '*::argument:->argument' && return
    case $state in
        command)
            commands=(
@COMMANDS@
            )
            _describe command commands ;;
        argument)
            (( ! $+functions[@BELOW@_$words[1]] )) || @BELOW@_$words[1] ;;
    esac
}
"""
# felosumay-line PORT is felosumay line --port PORT.
ZSH_END = r"""
_felosumay() {
    if [[ $service == felosumay-line ]]; then
        words=(felosumay line --port "${words[@]:1}")
        (( CURRENT += 2 ))
    fi
    _felosumay_program
}

if [[ $funcstack[1] == _felosumay ]]; then _felosumay "$@"; else compdef _felosumay felosumay felosumay-line; fi
"""


def zsh_text(text):
    return text.replace("'", "'\\''").replace("[", "\\[").replace("]", "\\]").replace(":", "\\:")


def zsh_values(value):
    return {"choices": f"({' '.join(value.choices)})", "file": "_files", "uid": "_felosumay_device", "uids": "_felosumay_device_or_all",
            "parameter": "_felosumay_parameters", "named": "_felosumay_named"}.get(value.kind, "")


def zsh_option(option):
    """An option in each of its spellings, of which one excludes the others, unless it may be given again."""
    rest = f"[{zsh_text(option.text)}]" + (f":{option.value}:{zsh_values(option)}" if option.value else "")
    before = "*" if option.several else f"({' '.join(option.names)})"
    return [f"        '{before}{name}{'=' if option.value and name.startswith('--') else ''}{rest}' \\\n" for name in option.names]


def zsh_function(command):
    name = "_".join(["_felosumay", *command.key.split()])
    options = "".join(line for option in command.options for line in zsh_option(option))
    if command.commands:
        rows = [*command.commands.items(), *([] if command.key else [("help", "Print the help of a subcommand")])]
        commands = "\n".join(f"                '{it}:{zsh_text(text)}'" for it, text in rows)
        above = ZSH_ABOVE.replace("@BELOW@", name).replace("@FUNCTION@", name if command.key else f"{name}_program")
        return above.replace("@OPTIONS@", options).replace("@COMMANDS@", commands)
    places = [f"'{'*' if argument.several else place + 1}:{argument.value}:{zsh_values(argument)}'" for place, argument in each_place(command)]
    return f"\n{name}() {{\n    _arguments \\\n{options}        {' '.join(places)}\n}}\n"


def zsh(top, commands, parameters):
    text = ZSH.replace("@UIDS@", UIDS).replace("@NAMED@", NAMED).replace("@PARAMETERS@", " ".join(parameters))
    helps = f"\n_felosumay_help() {{\n    _arguments '1:command:({' '.join(top.commands)})'\n}}\n"
    return text + "".join(map(zsh_function, [top, *commands])) + helps + ZSH_END


# ---- fish

FISH = r"""# fish completion of felosumay, made by .ci/completions

# The words before the cursor that are neither options nor values of options. If a value is to come, the status is 1.
function __felosumay_given
    set -l is_value no
    for word in (commandline -opc)[2..-1]
        if test $is_value = yes
            set is_value no
            continue
        end
        switch $word
            case @VALUES@
                set is_value yes
            case '-*'
            case '*'
                echo $word
        end
    end
    test $is_value = no
end

# Whether the command line is at this subcommand, and, with a number, whether so many words stand behind it.
function __felosumay_at
    set -l given (__felosumay_given)
    or not set -q argv[2]
    or return 1
    set -l key $given[1]
    switch "$given[1] $given[2]"
        case @ERRANDS@
            set key "$given[1] $given[2]"
    end
    test "$key" = "$argv[1]"; or return 1
    set -l behind (math (count $given) - (count (string split -n ' ' -- "$key")))
    not set -q argv[2]; or test $argv[2] = '*' -o "$argv[2]" = $behind
end

# The UIDs of the newest list or survey in this folder, or in the file that FELOSUMAY_LIST names; several may stand in one word, with commas
# between. Words beside them stand for all.
function __felosumay_devices
    set -l before (string match -r '.*,' -- (commandline -ct))
    test -n "$before"; or printf '%s\n' $argv
    sh -c '@UIDS@' | string replace -r '^' -- "$before"
end

complete -c felosumay -f
"""


def fish_text(text):
    return "'" + text.replace("\\", "\\\\").replace("'", "\\'") + "'"


def fish_values(value, parameters):
    return {"choices": f" -a '{' '.join(value.choices)}'", "uid": " -a '(__felosumay_devices)'", "uids": " -a '(__felosumay_devices all)'",
            "parameter": f" -a '{' '.join(parameters)}'", "named": f" -a {fish_text('(' + NAMED + ')')}"}.get(value.kind, "")


def fish_option(key, option, parameters):
    names = " ".join(f"-l {n[2:]}" if n.startswith("--") else f"-s {n[1:]}" for n in option.names)
    takes = "" if not option.value else " -r -F" if option.kind == "file" else " -x" + fish_values(option, parameters)
    return f"complete -c felosumay -n '__felosumay_at \"{key}\"' {names}{takes} -d {fish_text(option.text)}"


def fish_places(command, parameters):
    for place, argument in each_place(command):
        offered = " -F" if argument.kind == "file" else fish_values(argument, parameters)
        if offered:
            yield f"complete -c felosumay -n '__felosumay_at \"{command.key}\" {chr(92) + '*' if argument.several else place}'{offered}"
    for name, text in command.commands.items():
        yield f"complete -c felosumay -n '__felosumay_at \"{command.key}\" 0' -a {name} -d {fish_text(text)}"


def fish(top, commands, parameters):
    # UIDS has a backslash before a double quote, which fish's single quotes leave alone.
    text = FISH.replace("@UIDS@", UIDS.replace("\\", "\\\\")).replace("@VALUES@", " ".join(with_values(commands)))
    out = [text.replace("@ERRANDS@", " ".join(f"'{c.key}'" for c in commands if " " in c.key)).rstrip("\n")]
    for command in [top, *commands]:
        out += fish_places(command, parameters)
        out += [fish_option(command.key, option, parameters) for option in command.options]
    out += ["complete -c felosumay -n '__felosumay_at \"\" 0' -a help -d 'Print the help of a subcommand'",
            f"complete -c felosumay -n '__felosumay_at help 0' -a '{' '.join(top.commands)}'"]
    return "\n".join(out) + "\n"


def fish_line():
    """What fish looks for by the name of felosumay-line."""
    return ("# fish completion of felosumay-line, made by .ci/completions\n"
            "complete -c felosumay-line -n 'test (count (commandline -opc)) = 1' -a '(__fish_complete_path)'\n"
            "complete -c felosumay-line --wraps 'felosumay line --port'\n")
