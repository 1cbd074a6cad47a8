"""What bash, zsh and fish offer to complete a line, by given completions."""
import os
import pathlib
import pty
import re
import signal
import subprocess

BASH = """\
source "$1"
shift
for line; do
    echo "= $line"
    read -r -a COMP_WORDS <<<"$line"
    [[ $line != *' ' ]] || COMP_WORDS+=('')
    COMP_CWORD=$((${#COMP_WORDS[@]} - 1))
    _cnum
    ((${#COMPREPLY[@]} == 0)) || printf '%s\\n' "${COMPREPLY[@]}"
done
"""
FISH = """\
source $argv[1]
for line in $argv[2..]
    echo "= $line"
    complete -C $line | string replace -r '\\t.*' ''
end
"""
# zsh looks for completions first in the folder of this file. It asks as a person does, with no key pressed.
ZSH = """\
fpath=(${ZDOTDIR} $fpath)
autoload -Uz compinit
compinit -u -D
PROMPT= LISTMAX=-1
compadd() {
    if [[ ${@[1,(i)(-|--)]} == *-(O|A|D)\\ * ]]; then
        builtin compadd "$@"
        return
    fi
    local -a hits
    builtin compadd -A hits "$@"
    [[ -z $hits ]] || print -rl -- $IPREFIX$^hits >>$ZDOTDIR/offers
    builtin compadd "$@"
}
zle-line-init() {
    local line
    for line in "${(@f)$(<$ZDOTDIR/lines)}"; do
        print -r -- "= $line" >>$ZDOTDIR/offers
        BUFFER=$line CURSOR=$#line
        zle list-choices
    done
    BUFFER=exit
    zle accept-line
}
zle -N zle-line-init
"""
LONGEST = 60  # seconds


def in_bash(script, lines, room):
    return offers(plainly(["bash", "-c", BASH, "bash", script, *lines], room))


def in_fish(script, lines, room):
    return offers(plainly(["fish", "--no-config", "-c", FISH, script, *lines], room))


def in_zsh(script, lines, room):
    """Completes in zsh. It does so on a terminal alone, and gets one."""
    home = pathlib.Path(room).parent / "zsh"
    home.mkdir()
    (home / ".zshrc").write_text(ZSH)
    (home / "_cnum").write_text(script.read_text())
    (home / "lines").write_text("\n".join(lines) + "\n")
    process, terminal = pty.fork()
    if not process:
        os.chdir(room)
        os.execvpe("zsh", ["zsh", "-d", "-i"], {**os.environ, "ZDOTDIR": str(home), "TERM": "xterm"})
    signal.signal(signal.SIGALRM, lambda *_: os.kill(process, signal.SIGKILL))
    signal.alarm(LONGEST)
    try:
        while os.read(terminal, 65536):
            pass
    except OSError:
        pass
    os.waitpid(process, 0)
    signal.alarm(0)
    os.close(terminal)
    found = home / "offers"
    return offers(found.read_text() if found.exists() else "")


def plainly(words, room):
    """What a shell prints and tells. Its home is the room, so nobody's own settings count."""
    ran = subprocess.run(words, cwd=room, env={**os.environ, "HOME": str(room)}, capture_output=True, text=True)
    return ran.stdout + ran.stderr


def offers(text):
    """The words offered for each line, in order of their bytes."""
    return {line: sorted(set(words.splitlines())) for line, words in re.findall(r"^= (.*)\n((?:(?!= ).*\n)*)", text, re.M)}


SHELLS = {"bash": in_bash, "zsh": in_zsh, "fish": in_fish}
