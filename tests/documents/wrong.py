"""Documents that are wrong: each test must find a fault in each of its own, and none in the right one beside them."""
import crate_map
import excerpts
import paths
import program

CRATES = "spec:\nleaf: spec\nother: spec\ntop staticlib: spec leaf other\n"
CODE = {"leaf": "pub fn a() {}", "other": "pub fn b() {}", "top": "fn c() { leaf::a(); }"}
MAP = """```text
  [top]
  [leaf]  [other]
  [spec]
```

**spec** holds the definitions. No code. Relied on by leaf, other, top.

**leaf** is one thing. Uses: none. Used by: top.

**other** is another. Uses: none. Used by: none.

**top** is above them. Uses: leaf. Used by: none.
"""
WRONG_MAPS = {
    "a crate without a paragraph": ("**leaf** is", "A leaf is"),
    "a paragraph of no crate": ("**top** is above", "**gone** was above. Uses: none. Used by: none.\n\n**top** is above"),
    "two paragraphs of one crate": ("**top** is above", "**leaf** again. Uses: none. Used by: top.\n\n**top** is above"),
    "a crate that is not in the picture": ("  [leaf]  [other]", "  [leaf]  other"),
    "no crate in the picture": ("[other]", "[other]  [gone]"),
    "a crate below one that it relies on": ("  [top]\n  [leaf]  [other]", "  [leaf]  [other]\n  [top]"),
    "a crate beside one that it relies on": ("  [top]\n  [leaf]  [other]", "  [top]  [leaf]  [other]"),
    "a use that is not in the code": ("Uses: leaf.", "Uses: leaf, other."),
    "a user left out": ("Used by: top.", "Used by: none."),
    "code that is not there": ("No code. Relied on by leaf, other, top.", "Uses: none. Used by: leaf, other, top."),
}

FILES = {"a.antt": "one : Type\none =  two three\n\nfour = five\n"}
EXCERPT = "What stands in `a.antt`:\n\n```\none = two\n  three\n..\nfour = five\n```\n"
WRONG_EXCERPTS = {
    "a word changed": ("two", "too"),
    "the pieces in another order": ("one = two\n  three\n..\nfour = five", "four = five\n..\none = two three"),
    "a file that is not there": ("`a.antt`", "`b.antt`"),
    "no file named": ("`a.antt`:", "a file:"),
    "no excerpt at all": ("```\none", "```sh\none"),
}

PATHS = ("`include/d64.h`, `crates/CRATE/src`, `crates/*/must-fail`, `specs/Order`, `tests/documents/run DIR`, `18/0`, `build/libd64.a`, `crates/CRATE/out/rlib`, `docs/`, `MAP.md`\n"
         "[the map](MAP.md#x), [far](https://example.org/x), [Order][Order]\n\n[Order]: ../crates/d64spec/specs/Order.antt\n\n```\n`gone/there`\n```\n")
WRONG_PATHS = {
    "a file that is not there": ("`include/d64.h`", "`include/d65.h`"),
    "a folder that is not there": ("`docs/`", "`doc/`"),
    "a module that is not there": ("`specs/Order`", "`specs/Orders`"),
    "a command that is not there": ("`tests/documents/run DIR`", "`tests/document/run DIR`"),
    "a pattern that nothing meets": ("`crates/*/must-fail`", "`crates/*/may-fail`"),
    "a file's name alone": ("`MAP.md`", "`MAPS.md`"),
    "a link to nowhere": ("(MAP.md#x)", "(MAPS.md#x)"),
    "a link's definition to nowhere": ("specs/Order.antt", "specs/Orders.antt"),
}
README = """```c
#include <stdio.h>
#include "d64.h"
int main(void)
{
    static uint8_t image[D64_IMAGE_BYTES], answer[D64_BLOCK_BYTES];
    unsigned number = d64_check(0, image, sizeof image, answer, sizeof answer);
    printf("%u, track %u\\n", number, answer[0]);
    return 0;
}
```

It prints:

```text
8, track 1
```
"""
WRONG_READMES = {
    "another output": ("8, track 1", "0, track 0"),
    "a part of a program": ("int main(void)\n{", ""),
    "a call that the header does not have": ("d64_check(", "d64_verify("),
    "a warning": ("static uint8_t", "int unused; static uint8_t"),
    "a status that is not 0": ("return 0;", "return 8;"),
    "no output behind it": ("```text", "```"),
    "no C block": ("```c", "```"),
}
COUNT = len(WRONG_MAPS) + len(WRONG_EXCERPTS) + len(WRONG_PATHS) + len(WRONG_READMES)


def read(name):
    """One of the files of the excerpts."""
    if name not in FILES:
        raise FileNotFoundError(name)
    return FILES[name]


def judge(kind, right, wrongs, faults):
    """The wrong documents of a kind in which no fault is found, and faults of the right one."""
    for fault in faults(right):
        yield f"self-test: a right {kind} is refused: {fault}"
    for what, (old, new) in wrongs.items():
        if right.count(old) < 1:
            yield f"self-test: {kind}, {what}: nothing to change"
        elif not list(faults(right.replace(old, new, 1))):
            yield f"self-test: {kind}, {what}: not found"


def missed(root, archive, scratch):
    """What these tests do not find."""
    tree = crate_map.Tree(CRATES, CODE)
    return [
        *judge("map", MAP, WRONG_MAPS, lambda page: list(crate_map.faults(page, tree))),
        *judge("excerpt", EXCERPT, WRONG_EXCERPTS, lambda page: list(excerpts.faults(page, read))),
        *judge("path", PATHS, WRONG_PATHS, lambda page: list(paths.faults("docs/MAP.md", page, root))),
        *judge("program", README, WRONG_READMES, lambda page: list(program.faults(page, root, archive, scratch))),
    ]
