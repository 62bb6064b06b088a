//! Words and lists that make little sense: the tool ends with a status that the manual has, changes nothing where that is not 0, and leaves no
//! temporary file. With the tool built with sanitizers this looks for what the other cases do not think of.

use crate::tool::{Said, Tool};
use independent::check::check;
use independent::generate::sound;
use independent::geometry::LAYOUTS;
use independent::rng::Rng;

const STATUSES: &[i32] = &[64, 66, 71, 73, 74, 75];

/// No word begins with a point or leads out of the folder.
const WORDS: &[&str] = &[
    "format",
    "check",
    "dir",
    "read",
    "store",
    "scratch",
    "listing",
    "run",
    "image",
    "image",
    "image",
    "file",
    "jobs",
    "nowhere",
    "no/where",
    "-",
    "--",
    "--quiet",
    "--keep-going",
    "--layout",
    "--layout",
    "--layout=",
    "--layout=1",
    "--layout=dolphin",
    "--layout=3",
    "speeddos",
    "--help",
    "--version",
    "-k",
    "-q",
    "-h",
    "-x",
    "--frob",
    "",
    "CODE",
    "A",
    "b",
    "\\xA0",
    "\\x",
    "\\x4",
    "\\x41\\xC1",
    "{",
    "\u{e4}",
    "\u{1}",
    "ABCDEFGHIJKLMNOPQ",
    "01",
    "1",
    "2",
    "3",
    "4",
    "seq",
    "usr",
    "PRG",
    "99999999999999999999",
    " ",
    "\t",
    "a b",
    "'",
    "\"",
    "#",
    "\n",
];

fn sensible(said: &Said, context: &str) {
    let known = (0..16).contains(&said.status) || STATUSES.contains(&said.status);
    assert!(
        known,
        "{context}: no status of the manual:\n{}",
        said.shown()
    );
    assert!(
        said.status == 0 || !said.err.is_empty(),
        "{context}: a status without a word:\n{}",
        said.shown()
    );
    let refused = said.err.lines().any(|line| line.contains("refused, "));
    assert!(
        !refused || said.status != 0,
        "{context}: a refusal with status 0:\n{}",
        said.shown()
    );
}

/// The image is as it was unless the status is 0; an accepted image stays accepted, in the layout of what was done to it.
fn unharmed(tool: &Tool, before: &[u8], said: &Said, context: &str) {
    let now = tool.read("image").expect("the image");
    assert!(
        said.status == 0 || now == before,
        "{context}: the image is changed:\n{}",
        said.shown()
    );
    assert!(
        LAYOUTS
            .iter()
            .any(|&layout| check(layout, &now).number == 0),
        "{context}: no accepted image:\n{}",
        said.shown()
    );
    tool.nothing_hidden(context);
}

/// Now and then of another layout than the one that a command has where none is named.
fn image(rng: &mut Rng, tool: &Tool) -> Vec<u8> {
    let layout = if rng.one_in(3) { rng.pick(&LAYOUTS) } else { 0 };
    let image = sound(layout, "few", rng).expect("a kind").image;
    tool.write("image", &image);
    tool.write("file", &rng.bytes(600));
    tool.write("jobs", b"check\nstore X file\n");
    image
}

/// Commands of random words.
pub fn words(tool: &Tool, rounds: u64) {
    for seed in 0..rounds {
        let rng = &mut Rng::new(seed ^ 0x60D5);
        let before = image(rng, tool);
        let mut words: Vec<&str> = (0..rng.below(6)).map(|_| rng.pick(WORDS)).collect();
        if !rng.one_in(8) {
            words.insert(0, rng.pick(&WORDS[..8]));
        }
        if words.len() > 1 && rng.one_in(2) {
            words[1] = "image";
        }
        let context = format!("words, round {seed}");
        let said = tool.run(&words);
        sensible(&said, &context);
        // A file read may be asked for under the image's own name only to be refused; a format of it is no fault.
        unharmed(tool, &before, &said, &context);
    }
}

/// A list of jobs with bytes changed, left out and put in.
fn spoilt(rng: &mut Rng) -> Vec<u8> {
    let mut list = Vec::new();
    for _ in 0..rng.range(1, 12) {
        let line = rng.pick(&[
            "store A file\n",
            "store 'B C' file seq\r\n",
            "scratch A\n",
            "check\n",
            "# x\n",
            "format \"N\" 01\n",
            "store \\x41\\x42 file 3\n",
        ]);
        list.extend_from_slice(line.as_bytes());
    }
    for _ in 0..rng.below(6) {
        let at = rng.below(list.len());
        match rng.below(4) {
            0 => list[at] = rng.byte(),
            1 => list.insert(at, rng.pick(b"\"'\\ \t\n\r\0#x-\x80\xFF")),
            2 => list.truncate(at.max(1)),
            _ => drop(list.remove(at)),
        }
        if list.is_empty() {
            list.push(b'\n');
        }
    }
    // No path out of the folder.
    list.iter()
        .map(|&byte| if byte == b'/' { b'x' } else { byte })
        .collect()
}

pub fn lists(tool: &Tool, rounds: u64) {
    for seed in 0..rounds {
        let rng = &mut Rng::new(seed ^ 0x5901);
        let before = image(rng, tool);
        tool.write("jobs", &spoilt(rng));
        let context = format!("spoilt list, round {seed}");
        let said = tool.run(&["run", "jobs", "image"]);
        sensible(&said, &context);
        unharmed(tool, &before, &said, &context);
    }
}
