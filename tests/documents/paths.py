"""Relative links and paths in backticks of the documents: each names something that is there.

In backticks, the first word is a path if it has a slash inside or at its end, or a file's usual ending. It is looked for from the root, from the document's own folder and
in every crate (`specs/Order`, `src/lib.rt`), with .antt behind it where that is left out. A word in capitals stands for any name. What a build makes,
below build/ or a crate's out/, is not looked for."""
import glob
import os
import re

PATH = re.compile(r"\.?[A-Za-z0-9_*-][A-Za-z0-9_.*-]*(?:/[A-Za-z0-9_.*-]+)*/?")
ENDING = re.compile(r"\.(md|antt|rt|rs|h|c|txt|edit)$|^[A-Za-z]\w*\.1$")


def documents(root):
    """The documents, by their paths from the root."""
    return ["README.md", "tests/README.md"] + sorted(os.path.relpath(path, root) for path in glob.glob(f"{root}/docs/*.md"))


def outside_blocks(text):
    """A document without its code blocks."""
    return re.sub(r"^```.*?^```$", "", text, flags=re.M | re.S)


def quoted(text):
    """The paths in backticks."""
    for quote in re.findall(r"`([^`\n]+)`", outside_blocks(text)):
        word = quote.split()[0]
        looks = "/" in word or ENDING.search(word)
        # 18/0 and the like are sectors, and a word that begins with a slash is no relative path
        if looks and PATH.fullmatch(word) and not re.match(r"\d+/", word) and not re.match(r"build/|(?:crates/[\w*]+/)?out/", word):
            yield word


def linked(text):
    """The targets of relative links, without what follows a #."""
    text = outside_blocks(text)
    for target in re.findall(r"\]\(([^)\s]+)\)", text) + re.findall(r"^\[[^\]]+\]:\s+(\S+)", text, re.M):
        if not re.match(r"[a-z]+:|#", target):
            yield target.split("#")[0]


def is_there(word, name, root):
    """Whether a path in backticks names something."""
    pattern = "/".join("*" if re.fullmatch(r"[A-Z]+", part) else part for part in word.rstrip("/").split("/"))
    places = [root, os.path.join(root, os.path.dirname(name)), f"{root}/crates/*", f"{root}/crates/*/*"]
    return any(glob.glob(f"{place}/{pattern}{ending}") for place in places for ending in ("", ".antt"))


def faults(name, text, root):
    """The paths of a document that name nothing."""
    for word in sorted(set(quoted(text))):
        if not is_there(word, name, root):
            yield f"{name}: not there: {word}"
    for target in sorted(set(linked(text))):
        if not os.path.exists(os.path.join(root, os.path.dirname(name), target)):
            yield f"{name}: the link leads nowhere: {target}"
