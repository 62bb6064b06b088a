//! Random lists of calls, once as job lists and once as single commands: images, statuses, lines and files read are those of the independent program.

use crate::text::{refusal, typed, word};
use crate::tool::{Layout, Tool};
use independent::answer::{Answer, Place, DONE};
use independent::generate::sound;
use independent::geometry::{IMAGE_BYTES_40, LAYOUTS};
use independent::lists::{requests, STYLES};
use independent::request::{perform, Call, Independent, Reply, Request};
use independent::rng::Rng;

/// Room for every file that a disk can hold.
const ROOM: usize = IMAGE_BYTES_40;

#[derive(Default)]
pub struct Tally {
    pub jobs: usize,
    pub refused: usize,
}

/// The calls of a list that a job can be; each is lent what the tool lends.
fn calls(layout: u32, rng: &mut Rng, image: &[u8], count: usize) -> Vec<Call> {
    let style = rng.pick(STYLES);
    requests(layout, rng, image, style, count)
        .into_iter()
        .filter_map(|request| match request.call {
            Call::Tell { .. } | Call::Listing { .. } => None,
            Call::Read { name, .. } => Some(Call::Read { name, room: ROOM }),
            call => Some(call),
        })
        .collect()
}

/// The layouts in turn, and an image that is accepted in its layout.
fn start(seed: u64, rng: &mut Rng) -> (Layout, Vec<u8>) {
    let number = LAYOUTS[seed as usize % LAYOUTS.len()];
    let kind = rng.pick(&[
        "fresh",
        "few",
        "scattered",
        "many",
        "full-slots",
        "nearly-full",
        "locked",
        "odd-names",
        "last-tracks",
        "two-maps",
    ]);
    let image = sound(number, kind, rng).expect("a kind").image;
    (Layout::named(rng, number), image)
}

fn answer_of(reply: &Reply) -> Answer {
    Answer {
        number: reply.number as u8,
        place: Place {
            track: reply.block[0],
            sector: reply.block[1],
            slot: reply.block[2],
        },
        length: reply.length(),
        sectors: reply.sectors(),
    }
}

/// The line of a refusal: a name that is not there may have been typed in small letters, and is then told so; so is who asks for a USR file.
fn refusal_of(layout: u32, call: &Call, reply: &Reply, image: &[u8]) -> String {
    let shifted = match call {
        Call::Read { name, .. } | Call::Scratch { name } => {
            name.iter().any(|byte| (0xC1..=0xDA).contains(byte))
        }
        _ => false,
    };
    let hint = match (reply.number, call) {
        (13, _) if shifted => "; small letters are those with shift",
        (10, Call::Store { kind: 3, .. }) => "; USR files can no longer be stored",
        _ => "",
    };
    refusal(layout, &answer_of(reply), image) + hint
}

/// Does a call with the independent program.
fn done_by_oracle(layout: u32, image: &mut [u8], call: &Call) -> Reply {
    let request = Request::of(layout, call.clone());
    perform(&Independent, image, &request).expect("every call is there")
}

/// The words of a call: command, name, then id, or file and type. Data go to the file.
fn words(rng: &mut Rng, tool: &Tool, call: &Call, file: &str) -> Vec<String> {
    let mut words: Vec<String> = Vec::new();
    match call {
        Call::Check => words.push("check".into()),
        Call::Format { name, id1, id2 } => {
            words.extend(["format".into(), typed(rng, name), typed(rng, &[*id1, *id2])])
        }
        Call::Read { name, .. } => words.extend(["read".into(), typed(rng, name), file.into()]),
        Call::Scratch { name } => words.extend(["scratch".into(), typed(rng, name)]),
        Call::Store { name, kind, data } => {
            tool.write(file, data);
            words.extend(["store".into(), typed(rng, name), file.into()]);
            let number = kind.to_string();
            match kind {
                1 => words.push(rng.pick(&["seq".into(), number])),
                2 if rng.one_in(2) => {}
                2 => words.push(rng.pick(&["prg".into(), number])),
                3 => words.push(rng.pick(&["usr".into(), number])),
                _ => words.push(number),
            }
        }
        Call::Tell { .. } | Call::Listing { .. } => unreachable!("no job"),
    }
    words
}

/// A job list on an image, and what is expected of it.
struct List {
    layout: Layout,
    image: Vec<u8>,
    calls: Vec<Call>,
    text: String,
    /// The line of each job.
    lines: Vec<usize>,
}

fn list(seed: u64, tool: &Tool, count: usize) -> List {
    let rng = &mut Rng::new(seed ^ 0x10B5);
    let (layout, image) = start(seed, rng);
    let calls = calls(layout.number, rng, &image, count);
    let (mut text, mut lines, mut line) = (String::new(), Vec::new(), 1);
    for (at, call) in calls.iter().enumerate() {
        while rng.one_in(8) {
            text += rng.pick(&["\n", "  # a comment\n", "\t \n", "#\"\r\n"]);
            line += 1;
        }
        let words = words(rng, tool, call, &format!("file{at}"));
        let words: Vec<String> = words.iter().map(|text| word(rng, text)).collect();
        text += &words.join(rng.pick(&[" ", "  ", "\t"]));
        text += rng.pick(&["\n", "\n", " \n", "\r\n"]);
        lines.push(line);
        line += 1;
    }
    List {
        layout,
        image,
        calls,
        text,
        lines,
    }
}

/// Runs a list with or without --keep-going, and compares all that comes of it.
fn run_list(tool: &Tool, list: &List, keep_going: bool, context: &str, tally: &mut Tally) {
    let (mut expected, mut lines, mut status) = (list.image.clone(), Vec::new(), DONE);
    let mut replies = Vec::new();
    for (call, line) in list.calls.iter().zip(&list.lines) {
        let reply = done_by_oracle(list.layout.number, &mut expected, call);
        let number = reply.number as u8;
        if number != DONE {
            lines.push(format!(
                "line {line}: {}",
                refusal_of(list.layout.number, call, &reply, &expected)
            ));
            status = if status == DONE { number } else { status };
        }
        replies.push(reply);
        if number != DONE && (!keep_going || matches!(call, Call::Format { .. })) {
            expected = list.image.clone();
            break;
        }
    }
    tally.jobs += replies.len();
    tally.refused += lines.len();
    forget_reads(tool, list);
    tool.write("image", &list.image);
    tool.write("jobs", list.text.as_bytes());
    let option = if keep_going { "--keep-going" } else { "--" };
    let said = tool.run_in(&list.layout, &["run", option, "jobs", "image"]);
    said.status_is(status, context);
    let seen: Vec<&str> = said
        .err
        .lines()
        .filter(|line| line.starts_with("line "))
        .collect();
    assert!(
        seen == lines,
        "{context}: expected the lines\n{}\nand saw\n{}",
        lines.join("\n"),
        seen.join("\n")
    );
    assert!(
        said.err.lines().count() == lines.len() + 1,
        "{context}: one more line says what was done"
    );
    assert!(
        tool.read("image").expect("the image") == expected,
        "{context}: another image"
    );
    compare_reads(tool, list, &replies, context);
    tool.nothing_hidden(context);
}

fn forget_reads(tool: &Tool, list: &List) {
    for (at, call) in list.calls.iter().enumerate() {
        if matches!(call, Call::Read { .. }) {
            tool.remove(&format!("file{at}"));
        }
    }
}

/// Each file that was read has its bytes; no refused read, and none after the end, made one.
fn compare_reads(tool: &Tool, list: &List, replies: &[Reply], context: &str) {
    for (at, call) in list.calls.iter().enumerate() {
        if matches!(call, Call::Read { .. }) {
            let done = replies
                .get(at)
                .filter(|reply| reply.number == u32::from(DONE));
            let expected = done.map(|reply| reply.out[..reply.length() as usize].to_vec());
            assert!(
                tool.read(&format!("file{at}")) == expected,
                "{context}: job {at} read other bytes"
            );
        }
    }
}

/// Lists of `count` jobs, with --keep-going and without.
pub fn compare_lists(tool: &Tool, seeds: &[u64], count: usize) -> Tally {
    let mut tally = Tally::default();
    for &seed in seeds {
        let list = list(seed, tool, count);
        run_list(
            tool,
            &list,
            true,
            &format!("job list, SEED={seed}"),
            &mut tally,
        );
        run_list(
            tool,
            &list,
            false,
            &format!("job list that stops, SEED={seed}"),
            &mut tally,
        );
    }
    tally
}

/// The same by single commands, the image compared after each.
pub fn compare_commands(tool: &Tool, seeds: &[u64], count: usize) -> Tally {
    let mut tally = Tally::default();
    for &seed in seeds {
        let rng = &mut Rng::new(seed ^ 0x51);
        let (layout, mut image) = start(seed, rng);
        tool.write("image", &image);
        for (at, call) in calls(layout.number, rng, &image, count).iter().enumerate() {
            single(
                rng,
                tool,
                &layout,
                &mut image,
                call,
                &format!("command {at}, SEED={seed}"),
                &mut tally,
            );
        }
        tool.nothing_hidden(&format!("commands, SEED={seed}"));
    }
    tally
}

fn single(
    rng: &mut Rng,
    tool: &Tool,
    layout: &Layout,
    image: &mut [u8],
    call: &Call,
    context: &str,
    tally: &mut Tally,
) {
    tool.remove("file");
    let words = words(rng, tool, call, "file");
    let mut arguments = vec![&words[0][..], "image", "--"];
    arguments.extend(words[1..].iter().map(|word| &word[..]));
    let said = tool.run_in(layout, &arguments);
    let reply = done_by_oracle(layout.number, image, call);
    let answer = answer_of(&reply);
    said.status_is(answer.number, context);
    tally.jobs += 1;
    if answer.number != DONE {
        tally.refused += 1;
        said.says(&refusal_of(layout.number, call, &reply, image), context);
    }
    assert!(
        tool.read("image").expect("the image") == image,
        "{context}: another image after\n{}",
        said.shown()
    );
    if matches!(call, Call::Read { .. }) {
        let expected =
            (answer.number == DONE).then(|| reply.out[..answer.length as usize].to_vec());
        assert!(
            tool.read("file") == expected,
            "{context}: other bytes read by\n{}",
            said.shown()
        );
    }
}
