//! The two programs, run as programs (01, Sleeve listing: "A small program reads
//! an image from standard input"). This is point 20 of tests/open_points.rs: an
//! input one byte too long gives 01, and a refusal ends with status 0. The
//! listing's first argument is the layout (02, §8).

use independent::generate::{generate, kinds};
use independent::geometry::LAYOUTS;
use independent::listing::sleeve_output;
use std::ffi::OsStr;
use std::io::Write;
use std::os::unix::ffi::OsStrExt;
use std::process::{Child, Command, Output, Stdio};
use std::time::{Duration, Instant};

fn start(arguments: &[&[u8]]) -> Child {
    Command::new(env!("CARGO_BIN_EXE_listing"))
        .args(arguments.iter().map(|argument| OsStr::from_bytes(argument)))
        .stdin(Stdio::piped())
        .stdout(Stdio::piped())
        .stderr(Stdio::piped())
        .spawn()
        .unwrap()
}

fn listing(arguments: &[&[u8]], input: &[u8]) -> Output {
    let mut child = start(arguments);
    // The program may stop reading early; then the pipe closes, which is fine.
    let _ = child.stdin.take().unwrap().write_all(input);
    child.wait_with_output().unwrap()
}

#[test]
fn the_listing_program_prints_the_listing_and_nothing_else() {
    const KINDS: [&str; 7] = [
        "few",
        "many",
        "flips-18",
        "random",
        "zeros",
        "wrong-size",
        "odd-names",
    ];
    for layout in LAYOUTS {
        let argument = layout.to_string();
        let argument = argument.as_bytes();
        for (seed, kind) in KINDS.iter().enumerate() {
            let image = generate(layout, kind, seed as u64).unwrap().image;
            let output = listing(&[argument], &image);
            let owed = sleeve_output(Some(argument), &image);
            assert_eq!(output.stdout, owed, "{kind} in layout {layout}");
            assert!(
                output.status.success() && output.stderr.is_empty(),
                "{kind} in layout {layout}"
            );
        }
    }
}

#[test]
fn the_listing_program_notices_one_byte_too_many() {
    for (layout, arguments) in [(0, &[][..]), (0, &[&b"0"[..]]), (1, &[b"1"]), (2, &[b"2"])] {
        let mut image = generate(layout, "few", 1).unwrap().image;
        assert!(listing(arguments, &image).stdout.len() > 40);
        image.push(0);
        assert_eq!(listing(arguments, &image).stdout, b"01\n");
        image.truncate(image.len() - 2);
        assert_eq!(listing(arguments, &image).stdout, b"01\n");
        assert_eq!(listing(arguments, &[]).stdout, b"01\n");
    }
    let (small, large) = (
        generate(0, "few", 1).unwrap(),
        generate(1, "few", 1).unwrap(),
    );
    assert_eq!(listing(&[b"1"], &small.image).stdout, b"01\n");
    assert_eq!(listing(&[b"0"], &large.image).stdout, b"01\n");
    assert_eq!(listing(&[], &large.image).stdout, b"01\n");
}

/// The first argument alone counts.
#[test]
fn further_arguments_are_ignored() {
    let image = generate(1, "last-tracks", 1).unwrap().image;
    let owed = sleeve_output(Some(b"1"), &image);
    assert_eq!(listing(&[b"1"], &image).stdout, owed);
    for further in [&b"2"[..], b"", b"3", b"x"] {
        assert_eq!(listing(&[b"1", further], &image).stdout, owed);
        assert_eq!(listing(&[b"1", further, b"0"], &image).stdout, owed);
    }
    assert_eq!(listing(&[b"", b"1"], &image).stdout, b"17\n");
}

/// The line is 17 before the input is looked at: the program ends though its
/// input is still open.
#[test]
fn an_unknown_layout_gives_the_line_17() {
    for argument in [
        &b""[..],
        b"00",
        b"3",
        b"1 ",
        b" 1",
        b"01",
        b"one",
        b"\xB1",
        b"-1",
    ] {
        let image = generate(1, "few", 1).unwrap().image;
        assert_eq!(listing(&[argument], &image).stdout, b"17\n", "{argument:?}");
        let mut child = start(&[argument]);
        let input = child.stdin.take();
        let started = Instant::now();
        while child.try_wait().unwrap().is_none() {
            if started.elapsed() > Duration::from_secs(20) {
                child.kill().unwrap();
                panic!("{argument:?}: the program waits for its input");
            }
            std::thread::sleep(Duration::from_millis(5));
        }
        let output = child.wait_with_output().unwrap();
        assert_eq!(output.stdout, b"17\n", "{argument:?}");
        assert!(output.status.success() && output.stderr.is_empty());
        drop(input);
    }
}

#[test]
fn the_generate_program_writes_the_same_image() {
    let program = env!("CARGO_BIN_EXE_generate");
    let listed = Command::new(program).arg("--list").output().unwrap();
    assert_eq!(
        String::from_utf8(listed.stdout).unwrap().lines().count(),
        kinds().len()
    );
    let run = |arguments: &[&str]| Command::new(program).args(arguments).output().unwrap();
    for layout in LAYOUTS {
        let made = run(&[&layout.to_string(), "pair", "77"]);
        assert_eq!(made.stdout, generate(layout, "pair", 77).unwrap().image);
    }
    let made = run(&["pair", "77"]);
    assert_eq!(made.stdout, generate(0, "pair", 77).unwrap().image);
    for arguments in [
        &["no-such-kind", "1"][..],
        &["3", "pair", "1"],
        &["pair"],
        &[],
    ] {
        let wrong = run(arguments);
        assert_eq!((wrong.status.code(), wrong.stdout.len()), (Some(2), 0));
    }
}
