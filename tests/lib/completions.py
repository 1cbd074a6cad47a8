"""The completions of the program for bash, zsh and fish, from its help."""
import re

# Arguments and values of options that name files, and arguments that may name one behind an @.
FILES, LISTS = ("CERT", "OBJECT", "FILE"), ("INPUTS", "SCHEDULE", "EVENTS", "CALLS")

BASH_HEAD = """\
# Completions of cnum for bash. Written by tests/texts/manual from the help of the program.
_cnum() {
    local current=${COMP_WORDS[COMP_CWORD]} previous=${COMP_WORDS[COMP_CWORD - 1]}
    local options values= arguments at words=()
    COMPREPLY=()
    case ${COMP_WORDS[1]} in
"""
# Behind these: the values of an option, the options, a file behind < or >, or the argument at this place. bash parts a word at
# its @: the @ is the word before, and yet a part of what is replaced.
BASH_TAIL = """\
    esac
    if ((COMP_CWORD == 1)); then
        arguments=COMMAND options='TOP_OPTIONS'
    elif [[ $values ]]; then
        mapfile -t COMPREPLY < <(compgen -W "$values" -- "$current")
        return
    fi
    if [[ $current == -* ]]; then
        mapfile -t COMPREPLY < <(compgen -W "$options" -- "$current")
        return
    fi
    if [[ $previous == [\\<\\>]*FILED ]]; then
        mapfile -t COMPREPLY < <(compgen -f -- "$current")
        compopt -o filenames 2>/dev/null
        return
    fi
    for ((at = 2; at < COMP_CWORD; at++)); do
        case ${COMP_WORDS[at]} in
        VALUED) ((at++)) ;;
        [\\<\\>]*) ((at++)) ;;
        -* | @) ;;
        *) words+=("${COMP_WORDS[at]}") ;;
        esac
    done
    read -r -a arguments <<<"$arguments"
    at=${#words[@]}
    if ((at >= ${#arguments[@]})) && [[ ${arguments[*]} == *... ]]; then
        at=$((${#arguments[@]} - 1))
    fi
    case ${arguments[at]} in
    COMMAND*)
        mapfile -t COMPREPLY < <(compgen -W 'NAMES' -- "$current")
        ;;
    FILES)
        mapfile -t COMPREPLY < <(compgen -f -- "$current")
        compopt -o filenames 2>/dev/null
        ;;
    LISTS)
        if [[ $current == @* ]]; then
            mapfile -t COMPREPLY < <(compgen -f -P @ -- "${current#@}")
        elif [[ $previous == @ ]]; then
            mapfile -t COMPREPLY < <(compgen -f -P @ -- "$current")
        fi
        ;;
    esac
}
complete -F _cnum cnum
"""


def bash(top, helps):
    """The completions for bash."""
    text, valued, filed = BASH_HEAD, set(), set()
    for name, one in helps.items():
        options = list(one.options())
        valued |= {names[-1] for names, value, _ in options if value}
        filed |= {names[-1] for names, value, _ in options if value in FILES}
        text += f"    {name})\n        options='{' '.join(word for names, _, _ in options for word in names)}'"
        text += f" arguments='{' '.join(one.arguments())}'\n"
        for names, value, values in options:
            if value and value not in FILES:
                text += f"        [[ $previous == {names[-1]} ]] && values='{' '.join(values) or ' '}'\n"
        text += "        ;;\n"
    names = {"NAMES": " ".join(top.commands()), "TOP_OPTIONS": " ".join(word for words, _, _ in top.options() for word in words)}
    names |= {"FILED": "".join(f" || $previous == {it}" for it in sorted(filed))}
    names |= {"VALUED": " | ".join(sorted(valued)), "FILES": " | ".join(f"{it}*" for it in FILES), "LISTS": " | ".join(LISTS)}
    return text + re.sub("|".join(names), lambda found: names[found[0]], BASH_TAIL)


ZSH_HEAD = """\
#compdef cnum
# Completions of cnum for zsh. Written by tests/texts/manual from the help of the program.
_cnum_commands() {
    local -a commands=(
COMMANDS
    )
    _describe command commands
}
_cnum_list() {
    if compset -P @; then
        _files
    else
        _message "$1"
    fi
}
_cnum() {
    local curcontext=$curcontext state line
    typeset -A opt_args
    _arguments -C \\
OPTIONS        '1:command:_cnum_commands' \\
        '*:: :->words' && return
    [[ $state == words ]] || return 1
    case $words[1] in
"""
ZSH_TAIL = """\
    esac
}
if [[ $funcstack[1] == _cnum ]]; then
    _cnum "$@"
else
    compdef _cnum cnum
fi
"""


def quoted(text):
    """A text as bash and zsh read it."""
    return "'" + text.replace("'", "'\\''") + "'"


def note(about):
    """What the help says of an option or an argument, without its values."""
    return re.sub(r" \[.*", "", about)


def zsh_options(one):
    """The options as `_arguments` takes them. No other word stands behind -h and -V."""
    for (names, value, values), (_, about) in zip(one.options(), one.parts["Options"], strict=True):
        offered = "_files" if value in FILES else f"({' '.join(values)})"
        tail = f"[{note(about)}]" + (f":{value}:{offered}" if value else "")
        yield f"{quoted('(- *)')}{{{','.join(names)}}}{quoted(tail)}" if len(names) > 1 else quoted(names[0] + tail)


def zsh_arguments(one):
    """The arguments as `_arguments` takes them."""
    for place, (argument, (_, about)) in enumerate(zip(one.arguments(), one.parts["Arguments"], strict=True), 1):
        named = argument.removesuffix("...")
        lists = {it: f" _cnum_list {it}" for it in LISTS}
        action = {**dict.fromkeys(FILES, "_files"), **lists, "COMMAND": "_cnum_commands"}.get(named, " ")
        message = note(about).replace(":", "\\:")
        yield quoted(f"{place if named == argument else '*'}:{message}:{action}")


def zsh(top, helps):
    """The completions for zsh."""
    names = {
        "COMMANDS": "\n".join(f"        {quoted(f'{name}:{about}')}" for name, about in top.parts["Commands"]),
        "OPTIONS": "".join(f"        {it} \\\n" for it in zsh_options(top)),
    }
    text = re.sub("COMMANDS|OPTIONS", lambda found: names[found[0]], ZSH_HEAD)
    for name, one in helps.items():
        words = "".join(f" \\\n            {it}" for it in [*zsh_options(one), *zsh_arguments(one)])
        text += f"    {name})\n        _arguments{words}\n        ;;\n"
    return text + ZSH_TAIL


FISH_HEAD = """\
# Completions of cnum for fish. Written by tests/texts/manual from the help of the program.
# The words before the cursor, without options and their values.
function __cnum_words
    set -l is_value no
    for word in (commandline -opc)[2..]
        if test $is_value = yes
            set is_value no
        else
            switch $word
                case VALUED
                    set is_value yes
                case '-*'
                case '*'
                    echo $word
            end
        end
    end
end
# Whether this is the command.
function __cnum_is
    set -l words (__cnum_words)
    test "$words[1]" = "$argv[1]"
end
# How many words stand before the cursor. fish counts the files behind < and > among them.
function __cnum_count
    math (count (__cnum_words)) - (count (string match -ar '[<>]+' -- (commandline -pc)))
end
function __cnum_at
    __cnum_is $argv[1]; and test (__cnum_count) -eq $argv[2]
end
function __cnum_from
    __cnum_is $argv[1]; and test (__cnum_count) -ge $argv[2]
end
# The files behind an @.
function __cnum_list
    set -l word (commandline -ct)
    if string match -q '@*' -- $word
        printf '@%s\\n' (__fish_complete_path (string sub -s 2 -- $word))
    end
end
complete -c cnum -f
"""


def fish_quoted(text):
    """A text as fish reads it."""
    return "'" + text.replace("\\", "\\\\").replace("'", "\\'") + "'"


def fish_options(name, one):
    """A line for each option of a command."""
    for (names, value, values), (_, about) in zip(one.options(), one.parts["Options"], strict=True):
        words = " ".join(f"-l {it[2:]}" if it.startswith("--") else f"-s {it[1:]}" for it in names)
        taken = " -r -F" if value in FILES else f" -x -a {fish_quoted(' '.join(values))}" if value else ""
        yield f"complete -c cnum -n {fish_quoted(f'__cnum_is {name}'.rstrip())} {words}{taken} -d {fish_quoted(note(about))}"


def fish_arguments(name, one, commands):
    """A line for each argument of a command."""
    for place, (argument, (_, about)) in enumerate(zip(one.arguments(), one.parts["Arguments"], strict=True), 1):
        named = argument.removesuffix("...")
        where = f"complete -c cnum -n '{'__cnum_at' if named == argument else '__cnum_from'} {name} {place}'"
        if named in FILES:
            yield f"{where} -F"
        elif named in LISTS:
            yield f"{where} -a '(__cnum_list)'"
        elif named == "COMMAND":
            yield f"{where} -a {fish_quoted(' '.join(commands))}"


def fish(top, helps):
    """The completions for fish."""
    valued = sorted({names[-1] for one in helps.values() for names, value, _ in one.options() if value})
    lines = list(fish_options("", top))
    lines += [f"complete -c cnum -n '__cnum_is' -a {name} -d {fish_quoted(about)}" for name, about in top.parts["Commands"]]
    for name, one in helps.items():
        lines += [*fish_options(name, one), *fish_arguments(name, one, helps)]
    return FISH_HEAD.replace("VALUED", " ".join(valued)) + "\n".join(lines) + "\n"
