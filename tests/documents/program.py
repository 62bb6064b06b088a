"""README's first program: its C block is a whole program, and the text block behind it is what it prints."""
import os
import re
import subprocess
import tempfile

BLOCKS = re.compile(r"^```c\n(?P<program>.*?)^```$(?P<between>.*?)^```text\n(?P<output>.*?)^```$", re.M | re.S)


def faults(readme, root, archive, scratch):
    """Compiles the first C block against include/d64.h and the archive, runs it in an empty folder, and compares what it prints."""
    blocks = BLOCKS.search(readme)
    if not blocks or "```" in blocks["between"]:
        yield "README.md: no C block with a text block right behind it"
        return
    folder = tempfile.mkdtemp(dir=scratch)
    source, binary = f"{folder}.c", f"{folder}.out"
    with open(source, "w", encoding="utf-8") as file:
        file.write(blocks["program"])
    options = ["-std=c11", "-Wall", "-Wextra", "-Werror", f"-I{root}/include", source, f"-L{archive}", "-ld64", "-o", binary]
    built = subprocess.run(["gcc", *options], capture_output=True, text=True, check=False)
    if built.returncode != 0:
        yield f"README.md: the C block does not compile as a program: {built.stderr.strip()[:400]}"
        return
    try:
        ran = subprocess.run([binary], cwd=folder, stdin=subprocess.DEVNULL, capture_output=True, text=True, timeout=60, check=False)
    except subprocess.TimeoutExpired:
        yield "README.md: the C block does not end"
        return
    if ran.returncode != 0:
        yield f"README.md: the C block ends with status {ran.returncode}"
    if ran.stdout != blocks["output"]:
        yield f"README.md: the C block prints '{ran.stdout.strip()[:200]}', and not what stands behind it"
    os.remove(binary)
