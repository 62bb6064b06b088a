//! Generated images of each layout, sound and damaged: check, dir and listing say what the independent program finds, and every command that checks the image
//! gives the same line for a damaged one. So they do in the other layouts.

use crate::text::{printed, refusal};
use crate::tool::{Layout, Tool};
use independent::answer::{Answer, DONE, MAP_WRONG, NONE, WRONG_SIZE};
use independent::check::check;
use independent::generate::{generate, kinds};
use independent::geometry::{Geometry, LAYOUTS, TRACK_18_OFFSET};
use independent::listing::{listing, LONGEST};
use independent::naive::contents;
use independent::request::track_18_of;
use independent::rng::Rng;

/// How many images were looked at, how many of them were refused, for how many of these a mark of the map was wrong, or only a count, how many of both were on
/// tracks 36 to 40, and how many images were accepted in two layouts.
#[derive(Default)]
pub struct Seen {
    pub made: usize,
    pub refused: usize,
    pub marks: usize,
    pub counts: usize,
    pub extra: usize,
    pub in_two: usize,
}

/// Every command that checks the image, by itself and in a list.
const COMMANDS: [&[&str]; 6] = [
    &["check", "image"],
    &["dir", "image"],
    &["read", "image", "A", "out"],
    &["store", "image", "A", "data"],
    &["scratch", "image", "A"],
    &["run", "--quiet", "jobs", "image"],
];

pub fn compare(tool: &Tool, seeds: u64) -> Seen {
    let mut seen = Seen::default();
    tool.write("data", b"data");
    tool.write("jobs", b"# the job is in line 2\nscratch A\n");
    for made_in in LAYOUTS {
        for kind in kinds() {
            for seed in 0..seeds {
                let image = generate(made_in, &kind, seed).expect("a kind").image;
                tool.write("image", &image);
                let context = format!("generate {made_in} {kind} {seed}");
                seen.add(made_in, &image);
                for number in LAYOUTS {
                    let layout = Layout::named(&mut Rng::new(seed), number);
                    let context = format!("{context}, layout {number}");
                    let commands = match number == made_in {
                        true => &COMMANDS[..],
                        false => &COMMANDS[..1],
                    };
                    one(tool, &layout, commands, &image, &context);
                }
                let now = tool.read("image").expect("the image");
                assert!(now == image, "{context}: the image is changed");
                tool.nothing_hidden(&context);
            }
        }
    }
    seen
}

/// One image in one layout; a refusal by these commands.
fn one(tool: &Tool, layout: &Layout, commands: &[&[&str]], image: &[u8], context: &str) {
    match check(layout.number, image).number {
        DONE => accepted(tool, layout, image, context),
        _ => refused(tool, layout, commands, image, context),
    }
    sleeve(tool, layout, image, context);
}

impl Seen {
    fn add(&mut self, layout: u32, image: &[u8]) {
        let answer = check(layout, image);
        let accepting = LAYOUTS
            .iter()
            .filter(|&&layout| check(layout, image).number == DONE);
        let map = answer.number == MAP_WRONG;
        self.made += 1;
        self.refused += usize::from(answer.number != DONE);
        self.marks += usize::from(map && answer.place.sector != NONE);
        self.counts += usize::from(map && answer.place.sector == NONE);
        self.extra += usize::from(map && answer.place.track > 35);
        self.in_two += usize::from(accepting.count() > 1);
    }
}

fn accepted(tool: &Tool, layout: &Layout, image: &[u8], context: &str) {
    tool.run_in(layout, &["check", "image"])
        .status_is(DONE, context);
    let listed = tool.run_in(layout, &["dir", "image"]);
    listed.status_is(DONE, context);
    let expected = directory(layout.number, image);
    let seen = String::from_utf8_lossy(&listed.out);
    assert!(
        expected == seen,
        "{context}: expected\n{expected}and saw\n{seen}"
    );
}

fn refused(tool: &Tool, layout: &Layout, commands: &[&[&str]], image: &[u8], context: &str) {
    let answer = check(layout.number, image);
    let line = refusal(layout.number, &answer, image);
    for words in commands {
        let said = tool.run_in(layout, words);
        said.status_is(answer.number, context);
        match words[0] {
            "run" => said.says(&format!("line 2: {line}"), context),
            _ => said.says(&line, context),
        }
        assert!(
            said.out.is_empty() && tool.read("out").is_none(),
            "{context}: a refusal prints nothing on standard output and makes no file"
        );
    }
}

fn sleeve(tool: &Tool, layout: &Layout, image: &[u8], context: &str) {
    let mut text = [0; LONGEST];
    let geometry = Geometry::of(layout.number).expect("a layout");
    let answer = match image.len() == geometry.image_bytes() {
        true => listing(layout.number, track_18_of(image), &mut text),
        false => Answer::refusal(WRONG_SIZE),
    };
    let said = tool.run_in(layout, &["listing", "image"]);
    said.status_is(answer.number, context);
    if answer.number == DONE {
        assert!(
            said.out == text[..answer.length as usize],
            "{context}: another listing"
        );
    } else {
        said.says(&refusal(layout.number, &answer, image), context);
    }
}

/// The directory of an accepted image as a drive lists it.
fn directory(layout: u32, image: &[u8]) -> String {
    let contents = contents(layout, image).expect("an accepted image");
    let map = &image[TRACK_18_OFFSET..];
    // In the head, which no rule binds, $A0 is the blank that a drive shows.
    let head = |bytes: &[u8]| -> String {
        let shown = bytes.iter().map(|&byte| {
            if byte == 0xA0 {
                " ".into()
            } else {
                printed(&[byte])
            }
        });
        shown.collect()
    };
    let mut text = format!(
        "0 \"{}\" {}\n",
        head(&map[0x90..0xA0]),
        head(&map[0xA2..0xA7])
    );
    for file in &contents.files {
        let kind = ["SEQ", "PRG", "USR"][usize::from(file.type_byte & 15) - 1];
        let lock = if file.type_byte & 0x40 != 0 { "<" } else { "" };
        let name = format!("\"{}\"", printed(&file.name));
        text += &format!("{:<5}{name:18} {kind}{lock}\n", file.chain.len());
    }
    text + &format!("{} BLOCKS FREE.\n", contents.free_off_track_18())
}
