"""Copies of crates with few of their laws, and with the proofs and definitions that these cite."""
import re
import shutil

# A law with its text: its name is the first group. A law that it calls, and the laws and the definitions that a module imports.
LAW = re.compile(r"^(?:///[^\n]*\n)+pub fn (\w+).*?^\{(?:\}|.*?^\})\n", re.M | re.S)
CALL = re.compile(r"^ +(\w+)(?:::<[^>]*>)?\(\);", re.M)
IMPORT = re.compile(r"^((?:ghost )?use [\w:.]+?(?:::|\.))(\{[^}]*\}|\w+);\n", re.M | re.S)
CITED = re.compile(r"^(?:ghost )?use Rattle\.(\w+)\.(proofs|specs)\.(?!laws\b|declared\b)(\w+)", re.M)


def with_calls(laws, names):
    """The names of these laws, and of those of the same module that they call."""
    called = {it for name in names for it in CALL.findall(laws[name]) if it in laws}
    return names if called <= names else with_calls(laws, names | called)


def narrowed(head, body):
    """The head of a module with those names in its imports that its body has."""

    def of(match):
        names = [it.strip() for it in match[2].strip("{}").split(",") if it.strip()]
        kept = [it for it in names if "◌" in it or re.search(rf"\b{it.split(' as ')[-1]}\b", body)]
        return f"{match[1]}{{{', '.join(kept)}}};\n" if kept else ""

    return IMPORT.sub(of, head)


def only_laws(crate, names):
    """Leaves of the laws of a crate these and those that they call, with what they cite."""
    path = crate / "src/laws.rt"
    text = path.read_text()
    laws = {it[1]: it[0] for it in LAW.finditer(text)}
    kept = with_calls(laws, set(names))
    body = "\n".join(it for name, it in laws.items() if name in kept)
    path.write_text(narrowed(text[: text.index(next(iter(laws.values())))], body) + body)
    for name in laws.keys() - kept:
        shutil.rmtree(crate / "proofs/laws" / name, ignore_errors=True)
    only_cited(crate, ("proofs", "specs"), [path.read_text(), *texts(crate / "proofs/laws")])


def only_cited(crate, folders, begun):
    """Leaves of these folders of a crate the modules that some texts cite, and those that these do."""
    kept, left = set(), list(begun)
    while left:
        for name, folder, module in CITED.findall(left.pop()):
            path = crate / folder / f"{module}.antt"
            if name == crate.name and folder in folders and path not in kept:
                kept.add(path)
                left.append(path.read_text())
    for folder in folders:
        for path in (crate / folder).glob("*.antt"):
            if path not in kept:
                path.unlink()
        (crate / folder / "Lib.antt").write_text("".join(sorted(f"pub mod {it.stem}\n" for it in kept if it.parent.name == folder)))


def texts(*folders):
    """The texts of the proofs and definitions in these folders."""
    return [it.read_text() for folder in folders for it in sorted(folder.rglob("*.antt"))]


def only_needed(room, name):
    """Leaves of the crates of a room, and of its crates.txt, those that the texts of one name, and those that these stand on."""
    lines = dict(it.split(":", 1) for it in (room / "crates.txt").read_text().splitlines())
    crate = room / "crates" / name
    named = "\n".join([*texts(crate / "proofs", crate / "specs"), *(it.read_text() for it in (crate / "src").glob("*.rt"))])
    lines[name] = " ".join(it for it in lines[name].split() if it not in lines or re.search(rf"\b{it}\b", named))
    kept, left = [], [name]
    while left:
        kept.append(left.pop())
        left += [it for it in lines[kept[-1]].split() if it in lines and it not in kept]
    for it in lines.keys() - set(kept):
        shutil.rmtree(room / "crates" / it)
    (room / "crates.txt").write_text("".join(f"{it}: {words}\n" for it, words in lines.items() if it in kept))
