"""The programs that are compared, each behind the same few calls: d64, and its peers cc1541, cbmconvert, floptool and c1541.

A program runs in a folder of its own with a time limit, and cannot write a file or use memory without bound; its output goes to
files, so that an endless listing is noticed as well. None of them takes a tenth of a second for a sound disk.
"""

import os
import re
import resource
import shlex
import shutil
import signal
import subprocess

import disks
from disks import DOLPHIN, OTHER_KIND, PLAIN, SPEEDDOS

SECONDS = 10
CPU_SECONDS = 4
FILE_BYTES = 4 << 20
MEMORY_BYTES = 1 << 30


class Outcome:
    """How a program ended: "exit N", "hangs", or "killed by SIGNAL"; and what it printed."""

    def __init__(self, ending, out, err):
        self.ending, self.out, self.err = ending, out, err
        self.done = ending == "exit 0"

    def lines(self):
        return {line.strip() for line in (self.out + b"\n" + self.err).split(b"\n") if line.strip()}

    def words(self):
        if self.ending == f"killed by {signal.Signals.SIGXFSZ.name}":
            return "writes without end"
        return self.ending.replace("killed by", "crashes:")


def together(outcomes):
    """Several calls as one, which ends as the last of them that was not done."""
    endings = ["exit 0"] + [outcome.ending for outcome in outcomes if not outcome.done]
    return Outcome(endings[-1], *(b"\n".join(getattr(outcome, what) for outcome in outcomes) for what in ("out", "err")))


def limit():
    resource.setrlimit(resource.RLIMIT_FSIZE, (FILE_BYTES, FILE_BYTES))
    resource.setrlimit(resource.RLIMIT_AS, (MEMORY_BYTES, MEMORY_BYTES))
    resource.setrlimit(resource.RLIMIT_CPU, (CPU_SECONDS, CPU_SECONDS + 1))
    resource.setrlimit(resource.RLIMIT_CORE, (0, 0))


def run(command, folder):
    """Runs a command in the folder, whose files .out and .err take what it prints."""
    paths = [os.path.join(folder, name) for name in (".out", ".err")]
    with open(paths[0], "wb") as out, open(paths[1], "wb") as err:
        process = subprocess.Popen(command, cwd=folder, stdin=subprocess.DEVNULL, stdout=out, stderr=err,
                                   preexec_fn=limit, start_new_session=True)
        try:
            status = process.wait(SECONDS)
            ending = "hangs" if status == -signal.SIGXCPU else f"exit {status}" if status >= 0 else f"killed by {signal.Signals(-status).name}"
        except subprocess.TimeoutExpired:
            os.killpg(process.pid, signal.SIGKILL)
            process.wait()
            ending = "hangs"
    texts = []
    for path in paths:
        with open(path, "rb") as printed:
            texts.append(printed.read())
        os.remove(path)
    return Outcome(ending, *texts)


def read_file(path):
    try:
        with open(path, "rb") as source:
            return source.read()
    except FileNotFoundError:
        return None


def write_file(path, data):
    with open(path, "wb") as target:
        target.write(data)


def empty_folder(folder):
    shutil.rmtree(folder, ignore_errors=True)
    os.makedirs(folder)
    return folder


class D64:
    """The program under test, through man/d64.1 alone. Names go in as \\xNN, which can write every byte."""

    map_line = re.compile(r"refused, 8: map entry wrong: track (\d+), (?:sector (\d+) is marked (?:free but owned|used but owned by nobody)"
                          r"|the count is \d+, (?:1 sector is|\d+ sectors are) marked free)(; layout .*)?")

    def __init__(self, path, work, layout=PLAIN):
        self.path, self.work, self.layout = os.path.abspath(path), work, layout

    def within(self, layout):
        return D64(self.path, self.work, layout)

    def call(self, command, *words):
        """The layout is named in every command but those on 35 tracks, where it need not be."""
        return run([self.path, command, *([] if self.layout is PLAIN else ["--layout", self.layout.word]), *words], self.work)

    @staticmethod
    def text(name):
        return "".join(f"\\x{byte:02X}" for byte in name)

    def is_map_line(self, line):
        """From track 36 on the line names the other layout, and only there."""
        said, other = self.map_line.fullmatch(line), OTHER_KIND.get(self.layout)
        beyond = said and int(said[1]) > 35 and f"; layout {other.word} ({other.number}) has this entry elsewhere"
        return said and (said[3] or "") == (beyond or "")

    def refusal(self, outcome):
        """A refusal's number and place, as its one line says them: "3 at 17/4 slot 2"; of the map "8 at 17/4", and "8 at track 17" for a count."""
        line = outcome.err.decode("latin-1").strip()
        said = re.match(r"refused, (\d+): ", line)
        if not said or "\n" in line or outcome.ending != f"exit {said[1]}" or said[1] == "8" and not self.is_map_line(line):
            return f"no refusal: {outcome.ending}, {line!r}"
        track, sector, slot = (re.search(rf"\b{word} (\d+)", line) for word in ("track", "sector", "slot"))
        if not track or not 2 <= int(said[1]) <= 8:
            return said[1]
        place = f"track {track[1]}" if not sector else f"{track[1]}/{sector[1]}"
        return f"{said[1]} at {place}" + (f" slot {slot[1]}" if slot else "")

    def answer(self, *words):
        """"done", or the refusal."""
        outcome = self.call(*words)
        return "done" if outcome.done else self.refusal(outcome)

    def read(self, image, name):
        """A file's bytes, or the refusal as text."""
        target = os.path.join(self.work, "read-by-d64")
        if os.path.exists(target):
            os.remove(target)
        answer = self.answer("read", "--quiet", image, self.text(name), target)
        return read_file(target) if answer == "done" else answer

    def entries(self, image):
        """(kind, name, blocks) of each file, from the listing in hexadecimal."""
        found = []
        for line in self.call("listing", image).out.split(b"\n")[1:-2]:
            entry = bytes.fromhex(line.decode())
            found.append((entry[0] & 0x0F, entry[3:19].rstrip(b"\xa0"), entry[19] + 256 * entry[20]))
        return found


class Peer:
    """What a peer can do is what its class defines of list, blocks_free, extract, make, add, replace and validate."""

    layouts = (PLAIN,)  # those whose map it knows

    def __init__(self, command, layout=PLAIN):
        self.command, self.layout = command, layout

    def can(self, what):
        return hasattr(self, what)

    def maps(self):
        """Does it know the map of all tracks?"""
        return self.layout in self.layouts

    progress = re.compile(rb"\Z")

    def complaints(self, outcome):
        """The lines that say something is wrong: all on standard error but those of progress, and errors on standard output."""
        errors = {line.strip() for line in outcome.err.split(b"\n") if line.strip() and not self.progress.match(line.strip())}
        return errors | {line for line in outcome.out.split(b"\n") if re.match(rb"(?i)err(or)?\b", line)}

    def map_place(self, outcome):
        """The place of the map that its check says is wrong: "17/4", or "track 17" for a count; None if it names none."""
        return None


class Cc1541(Peer):
    """It cannot extract a file. -m lets two names have the same hash, which matters to one loader for the C64 only. 40 tracks are asked for with -4 or -5."""

    name = "cc1541"
    layouts = disks.LAYOUTS
    flags = {PLAIN: ["-m"], SPEEDDOS: ["-m", "-4"], DOLPHIN: ["-m", "-5"]}

    def call(self, words, folder):
        return run([self.command, "-q", *self.flags[self.layout], *words], folder)

    def version(self, folder):
        return re.search(rb"version (\S+)", run([self.command, "-h"], folder).out)[1].decode()

    def list(self, image, folder):
        """Its -a prints the directory as options, in which # and two digits stand for a byte."""
        outcome = self.call(["-a", image], folder)
        art = re.search(rb"directory art: (.*)", outcome.out)
        found, kind, blocks, words = [], disks.PRG, 0, iter(shlex.split(art[1].decode("latin-1")) if art else [])
        for word in words:
            if word == "-T":
                kind = int(next(words)) & 0x0F
            elif word == "-B":
                blocks = int(next(words))
            elif word == "-f":
                found.append((kind, self.bytes_of(next(words)), blocks))
                kind = disks.PRG
        return outcome, found

    def blocks_free(self, image, folder):
        """Without a file to write it prints the directory and leaves the image as it is."""
        return int(re.search(rb"(\d+) blocks free", run([self.command, *self.flags[self.layout], image], folder).out)[1])

    @staticmethod
    def bytes_of(text):
        out, at = bytearray(), 0
        while at < len(text):
            if text[at] == "#":
                out.append(int(text[at + 1:at + 3], 16))
                at += 3
            else:
                out += text[at].swapcase().encode("latin-1") if "a" <= text[at] <= "z" else \
                    bytes([ord(text[at]) + 0x20]) if "A" <= text[at] <= "Z" else text[at].encode("latin-1")
                at += 1
        return bytes(out)

    def options(self, name, path, kind=disks.PRG):
        return ["-T", disks.KIND_WORD[kind].upper(), "-f", "".join(f"#{byte:02x}" for byte in name), "-w", path]

    def add(self, image, name, path, folder, kind=disks.PRG):
        return self.call([*self.options(name, path, kind), image], folder)

    def make(self, image, entries, folder, options=()):
        words = [word for kind, name, path in entries for word in self.options(name, path, kind)]
        return self.call(["-n", "peers", "-i", "01", *options, *words, image], folder)

    replace = add

    def validate(self, image, folder):
        """-V is its check; with a file to write it would stand before the writing."""
        return self.call(["-V", image], folder)

    def map_place(self, outcome):
        said = re.search(r"BAM .* for track (\d+)(?: sector (\d+))?\n", outcome.err.decode("latin-1"))
        return None if not said else f"{said[1]}/{said[2]}" if said[2] else f"track {said[1]}"


class Cbmconvert(Peer):
    """Files go in and out in PC64 format, whose header has the name as it is on the disk and whose suffix has the kind."""

    name = "cbmconvert"
    letters = {disks.SEQ: "s", disks.PRG: "p", disks.USR: "u"}
    progress = re.compile(rb"`|Writing|Wrote|Archive extracted|cbmconvert: all done")

    def version(self, folder):
        return re.search(rb"cbmconvert (\S+)", run([self.command, "--help"], folder).err)[1].decode()

    def extract(self, image, wanted, folder):
        out = empty_folder(os.path.join(folder, "out"))
        outcome = run([self.command, "-v2", "-P", "-d", image], out)
        kinds, found, others = {letter: kind for kind, letter in self.letters.items()}, {}, {}
        for file in sorted(os.listdir(out)):
            data = read_file(os.path.join(out, file))
            if data[:8] == b"C64File\0":
                name, kind = data[8:24].rstrip(b"\xa0"), kinds.get(file[-3:-2])
                (found.setdefault((kind, name), data[26:]) if kind else others.setdefault(name, data[26:]))
        return outcome, {(kind, name): found.get((kind, name), others.get(name)) for kind, name in wanted}

    def pc64(self, entries, folder):
        paths = []
        inner = empty_folder(os.path.join(folder, "in"))
        for number, (kind, name, path) in enumerate(entries):
            paths.append(os.path.join(inner, f"f{number}.{self.letters[kind]}00"))
            write_file(paths[-1], b"C64File\0" + disks.padded(name) + b"\0\0" + read_file(os.path.join(folder, path)))
        return paths

    def make(self, image, entries, folder, options=("-D4",)):
        return run([self.command, "-v2", "-i0", *options, image, "-p", *self.pc64(entries, folder)], folder)

    def add(self, image, name, path, folder, kind=disks.PRG):
        return self.make(image, [(kind, name, path)], folder)

    def replace(self, image, name, path, folder, kind=disks.PRG):
        return self.make(image, [(kind, name, path)], folder, ("-D4o",))


class Floptool(Peer):
    """mame-tools' floptool reads a CBM DOS disk and cannot write files to one."""

    name = "floptool"
    kinds = {b"SEQ": disks.SEQ, b"PRG": disks.PRG, b"USR": disks.USR}

    def version(self, folder):
        return run([self.command, "version"], folder).out.decode().split()[-2]

    def list(self, image, folder):
        outcome = run([self.command, "flopdir", "d64", "cbmdos", image], folder)
        found = []
        for line in outcome.out.split(b"\n"):
            entry = re.match(rb"file (.*?) +(SEQ|PRG|USR) +0x[0-9a-f]+ *$", line, re.S)
            if entry:
                found.append((self.kinds[entry[2]], entry[1], None))
        return outcome, found

    def extract(self, image, wanted, folder):
        out = empty_folder(os.path.join(folder, "out"))
        outcomes, found = [], {}
        for number, (kind, name) in enumerate(wanted):
            found[kind, name] = None
            if 0 in name:
                continue
            target = os.path.join(out, f"f{number}")
            outcome = run([self.command.encode(), b"flopread", b"d64", b"cbmdos", image.encode(), name, target.encode()], folder)
            outcomes.append(outcome)
            if outcome.done:
                found[kind, name] = read_file(target)
        return together(outcomes), found


class C1541(Peer):
    """VICE's c1541. A byte that cannot be typed in a name is asked for as "?", its wildcard, if that leaves one file only.

    It has no word for 40 tracks; it is given an image of that size to format."""

    name = "c1541"
    suffix = {disks.SEQ: ",s", disks.PRG: ",p", disks.USR: ",u"}

    def version(self, folder):
        return re.search(rb"VICE ([0-9.]+)", run([self.command, "-version"], folder).out)[1].decode()

    @staticmethod
    def typed(name):
        """a to z are 41 to 5A, A to Z are C1 to DA."""
        return "".join(chr(byte + 0x20) if 0x41 <= byte <= 0x5A else chr(byte - 0x80) if 0xC1 <= byte <= 0xDA
                       else chr(byte) if 0x30 <= byte <= 0x39 else "?" for byte in name)

    def list(self, image, folder):
        outcome = run([self.command, image, "-list"], folder)
        kinds = {word.encode(): kind for kind, word in disks.KIND_WORD.items()}
        pattern = re.compile(rb"^(\d+) +\"(.*)\" +(seq|prg|usr) ", re.M)
        return outcome, [(kinds[kind], name, int(blocks)) for blocks, name, kind in pattern.findall(outcome.out)]

    def blocks_free(self, image, folder):
        return int(re.search(rb"(\d+) blocks free", run([self.command, image, "-list"], folder).out)[1])

    def extract(self, image, wanted, folder):
        out = empty_folder(os.path.join(folder, "out"))
        outcomes, found = [], {}
        asked = [self.typed(name) for _, name in wanted]
        for number, (kind, name) in enumerate(wanted):
            found[kind, name] = None
            pattern = re.compile(asked[number].replace("?", "."), re.S)
            if sum(bool(pattern.fullmatch(other)) for other in asked) > 1:
                continue
            target = f"f{number}"
            outcomes.append(run([self.command, image, "-read", asked[number] + self.suffix[kind], target], out))
            found[kind, name] = read_file(os.path.join(out, target))
        return together(outcomes), found

    def writes(self, entries):
        return [word for kind, name, path in entries for word in ("-write", path, self.typed(name) + self.suffix[kind])]

    def make(self, image, entries, folder):
        words = ["-format", "peers,01", "d64", image]
        if self.layout is not PLAIN:
            write_file(image, bytes(self.layout.image_bytes))
            words = [image, "-format", "peers,01"]
        return run([self.command, *words, *self.writes(entries)], folder)

    def add(self, image, name, path, folder, kind=disks.PRG):
        return run([self.command, image, *self.writes([(kind, name, path)])], folder)

    def replace(self, image, name, path, folder, kind=disks.PRG):
        return run([self.command, image, "-delete", self.typed(name), *self.writes([(kind, name, path)])], folder)

    def validate(self, image, folder):
        """As a drive does it: the map is made anew from the files' chains."""
        return run([self.command, image, "-validate"], folder)


ALL = (Cc1541, Cbmconvert, Floptool, C1541)


def found(layout=PLAIN):
    """The peers that are there; the environment can name another c1541, for one unpacked beside the system."""
    commands = {peer.name: os.environ.get(peer.name.upper(), peer.name) for peer in ALL}
    return [peer(shutil.which(commands[peer.name]), layout) for peer in ALL if shutil.which(commands[peer.name])]
