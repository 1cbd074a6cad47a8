"""The crates of the repository, by release/crates, which reads crates.txt."""
import functools
import subprocess

from built import TOP


@functools.cache
def named():
    """Each crate in the order of crates.txt, with what its line names: crates of the repository and libraries of the kit."""
    told = subprocess.run([TOP / "release/crates", "--edges"], check=True, stdout=subprocess.PIPE, text=True).stdout
    lines = (line.split(":") for line in told.splitlines())
    return {name: words.split() for name, words in lines}


@functools.cache
def below(name):
    """The crates of the repository that a crate stands on, directly or not, in the order of crates.txt."""
    crates = named()
    met = {it for it in crates[name] if it in crates}.union(*(below(it) for it in crates[name] if it in crates))
    return tuple(it for it in crates if it in met)


def line(name):
    """The line of a crate in a file as crates.txt."""
    return f"{name}: {' '.join(named()[name])}\n"
