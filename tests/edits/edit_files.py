"""The must-fail edits, crates/CRATE/must-fail and must-fail-long: what each changes, and the law or table that its comment names."""
import pathlib
import re

ROOT = pathlib.Path(__file__).resolve().parents[2]


def edits(root=ROOT):
    """Every edit of the tree."""
    return sorted(root.glob("crates/*/must-fail*/*.edit"))


def name_of(edit):
    """CRATE/EDIT."""
    return f"{edit.parents[1].name}/{edit.stem}"


def applied(edit, crate=None):
    """The edited files as (path, text), and the faults: `old:` texts that do not stand exactly once, as the pairs before them leave the file."""
    crate, text, faults, name, old = crate or edit.parents[1], {}, [], None, None
    for line in edit.read_text(encoding="utf-8").splitlines():
        field, _, value = line.partition(": ")
        if field == "file":
            name = value
            text.setdefault(name, (crate / name).read_text(encoding="utf-8"))
        elif field == "old":
            old = value
            if text[name].count(old) != 1:
                faults.append(f"{name} has it {text[name].count(old)} times: {old}")
        elif field.rstrip(":") == "new":
            text[name] = text[name].replace(old, value)
    return text, faults


def falls_to(edit):
    """The laws and tables that the edit must make false: those that its comment names behind "Falls to"."""
    return re.findall(r"^#.* Falls to ([\w-]+)", edit.read_text(encoding="utf-8"), re.M)


def states(crate, fact):
    """Whether a file of the crate's proofs states the law or table."""
    stated = re.compile(rf"^ *(?:(?:pub|abbrev|unfoldable) )*{re.escape(fact)} :", re.M)
    return any(stated.search(file.read_text(encoding="utf-8")) for file in crate.glob("proofs/**/*.antt"))
