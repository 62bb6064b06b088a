"""docs/MAP.md against crates.txt and the code."""
import glob
import re


class Tree:
    """The crates, what each may rely on (crates.txt), and which others its code names."""

    def __init__(self, crates_txt, code):
        self.relies = {}
        for line in crates_txt.splitlines():
            line = line.split("#")[0].strip()
            if line:
                # NAME or, of a static library, NAME staticlib
                name, _, others = line.partition(":")
                self.relies[name.split()[0]] = others.split()
        self.crates = set(self.relies)
        self.uses = {name: {other for other in self.crates - {name} if re.search(rf"\b{other}::", code.get(name, ""))} for name in self.crates}
        self.has_code = {name for name in self.crates if re.search(r"\bfn ", code.get(name, ""))}


def code_of(root):
    """The code of each crate, without its comments and without what its contracts and tactics cite."""
    code = {}
    for path in glob.glob(f"{root}/crates/*/src/*.rt"):
        with open(path, encoding="utf-8") as file:
            text = re.sub(r"//.*|ghost use .*|#!?\[tactic\(.*\)\]", "", file.read())
        name = path.split("/")[-3]
        code[name] = code.get(name, "") + text
    return code


def picture(page):
    """The line of each crate in the first code block, counted from above; crates stand in brackets."""
    rows = []
    block = re.search(r"^```text\n(.*?)^```$", page, re.M | re.S)
    for row, line in enumerate(block.group(1).splitlines() if block else []):
        rows += [(name, row) for name in re.findall(r"\[(\w+)\]", line)]
    return rows


def paragraphs(page):
    """The paragraphs that start with a crate's name in bold, on one line each."""
    return [(name, " ".join(text.split())) for name, text in re.findall(r"^\*\*(\w+)\*\*(.*?)(?=\n\n|\Z)", page, re.M | re.S)]


def tail(name, tree):
    """How the paragraph of a crate has to end."""
    def listed(crates):
        return ", ".join(sorted(crates)) or "none"
    if name in tree.has_code:
        return f"Uses: {listed(tree.uses[name])}. Used by: {listed(other for other in tree.crates if name in tree.uses[other])}."
    users = {other for other in tree.crates if name in tree.relies[other]}
    others = tree.crates - users - {name}
    # where nearly all rely on it, the paragraph says which do not
    if 0 < len(others) < len(users):
        return f"No code. Relied on by every crate but {listed(others)}."
    return f"No code. Relied on by {listed(users)}."


def faults(page, tree):
    """What is wrong with the map."""
    drawn, written = picture(page), paragraphs(page)
    for kind, found in (("picture", [name for name, _ in drawn]), ("paragraphs", [name for name, _ in written])):
        for name in sorted(tree.crates - set(found)):
            yield f"MAP.md, {kind}: crate {name} is missing"
        for name in sorted(set(found) - tree.crates):
            yield f"MAP.md, {kind}: there is no crate {name}"
        for name in sorted({name for name in found if found.count(name) > 1}):
            yield f"MAP.md, {kind}: crate {name} stands there twice"
    row = dict(drawn)
    for name in sorted(tree.crates & set(row)):
        for other in tree.relies[name]:
            if other in row and row[other] <= row[name]:
                yield f"MAP.md, picture: {name} relies on {other}, which is not below it"
    for name, text in written:
        if name in tree.crates and not text.endswith(tail(name, tree)):
            yield f"MAP.md: the paragraph of {name} has to end with: {tail(name, tree)}"
