"""The excerpts of docs/CONTRACTS.md against the files that they name.

An excerpt is a code block behind a line that ends with the file's path in backticks and a colon; a line `..` in it stands for lines left out. Blocks marked
`sh` and `text` are commands and what they print, and no excerpts."""
import re

BLOCK = re.compile(r"^(?P<before>[^\n]*)\n+```(?P<kind>\w*)\n(?P<text>.*?)^```$", re.M | re.S)
NAMED = re.compile(r"`([^`]+)`:$")


def plain(text):
    """The text with every run of white space as one blank."""
    return " ".join(text.split())


def blocks(page):
    """Each excerpt with the file that it names, or None."""
    for block in BLOCK.finditer(page):
        if block["kind"] not in ("sh", "text"):
            named = NAMED.search(block["before"].rstrip())
            yield (named.group(1) if named else None), block["text"]


def count(page):
    """How many excerpts there are."""
    return len(list(blocks(page)))


def faults(page, read):
    """The excerpts that do not stand, piece after piece, in the file they name."""
    if not count(page):
        yield "CONTRACTS.md has no excerpt"
    for name, text in blocks(page):
        start = plain(text)[:60]
        if name is None:
            yield f"CONTRACTS.md: no file is named before the excerpt '{start}'"
            continue
        try:
            whole = plain(read(name))
        except OSError:
            yield f"CONTRACTS.md: there is no file {name}"
            continue
        at = 0
        for piece in re.split(r"^\s*\.\.\s*$", text, flags=re.M):
            at = whole.find(plain(piece), at)
            if at < 0:
                yield f"CONTRACTS.md: not in {name}: '{plain(piece)[:120]}'"
                break
            at += len(plain(piece))
