//! Damaged images: the check gives the number and the place planted, the
//! naive test agrees on every image, and nothing panics on any bytes.

mod model;

use independent::answer::Answer;
use independent::calls::{tell, Told};
use independent::check::check;
use independent::damage::FAULTS;
use independent::generate::{generate, planted, wrong_sizes, BROKEN};
use independent::geometry::LAYOUTS;
use independent::listing::{listing, sleeve_output, LONGEST};
use independent::naive;
use independent::request::lent;
use independent::rng::for_layouts;

#[test]
fn every_single_fault_is_found_where_it_is() {
    for_layouts(
        "every_single_fault_is_found_where_it_is",
        40,
        |layout, _, rng| {
            for (at, (name, _)) in FAULTS.iter().enumerate() {
                let made = planted(layout, rng, at);
                let answer = check(layout, &made.image);
                assert_eq!(Some(answer), made.expected, "{name}");
                assert!(!naive::accepted(layout, &made.image), "{name}");
                if let Some(digit) = name.chars().next().and_then(|c| c.to_digit(10)) {
                    assert_eq!(u32::from(answer.number), digit, "{name}");
                }
            }
        },
    );
}

#[test]
fn of_two_faults_the_first_is_found() {
    for_layouts(
        "of_two_faults_the_first_is_found",
        800,
        |layout, seed, _| {
            let made = generate(layout, "pair", seed).unwrap();
            assert!(made.expected.is_some());
            assert_eq!(Some(check(layout, &made.image)), made.expected);
            assert!(!naive::accepted(layout, &made.image));
        },
    );
}

#[test]
fn both_tests_agree_on_all_bytes() {
    let (mut accepted, mut refused) = (0, 0);
    for_layouts("both_tests_agree_on_all_bytes", 150, |layout, seed, _| {
        for kind in BROKEN {
            let made = generate(layout, kind, seed).unwrap();
            let answer = check(layout, &made.image);
            assert_eq!(
                answer.number == 0,
                naive::accepted(layout, &made.image),
                "{kind}"
            );
            if let Some(expected) = made.expected {
                assert_eq!(answer, expected, "{kind}");
            }
            assert!(answer.number <= 8, "{kind}");
            assert_eq!((answer.length, answer.sectors), (0, 0), "{kind}");
            if answer.number == 0 {
                accepted += 1;
            } else {
                refused += 1;
            }
        }
    });
    // Random flips must now and then hit an ignored byte, or they prove
    // little; this holds for the default rounds, not for a single seed.
    if independent::rng::seeds(150).len() >= 150 {
        assert!(
            accepted > 150 && refused > 1_500,
            "{accepted} accepted, {refused} refused"
        );
    }
}

fn sizes_of(layout: u32) -> impl Iterator<Item = (u32, usize)> {
    wrong_sizes(layout)
        .into_iter()
        .map(move |size| (layout, size))
}

#[test]
fn sizes_that_are_wrong() {
    for (layout, size) in LAYOUTS.into_iter().flat_map(sizes_of) {
        for fill in [0, 0xFF, 0x12] {
            let image = vec![fill; size];
            assert_eq!(check(layout, &image), Answer::refusal(1), "{size}");
            assert_eq!(
                tell(layout, &image, 0),
                (Answer::refusal(1), Told::default()),
                "{size}"
            );
            let argument = layout.to_string();
            let printed = sleeve_output(Some(argument.as_bytes()), &image);
            assert_eq!(printed, b"01\n", "{size}");
            assert!(!naive::accepted(layout, &image), "{size}");
        }
    }
}

#[test]
fn the_listing_of_any_bytes() {
    for_layouts("the_listing_of_any_bytes", 60, |layout, seed, rng| {
        for kind in independent::generate::kinds() {
            let made = generate(layout, &kind, seed).unwrap();
            let track18 = independent::request::track_18_of(&made.image);
            let expected = model::listing(layout, track18);
            let room = rng.pick(&[LONGEST, LONGEST, 0, 41, 42, 300]);
            let mut text = lent(room);
            let listed = listing(layout, track18, &mut text);
            match &expected {
                Ok(wanted) if wanted.len() <= room => {
                    assert_eq!(listed, Answer::done(wanted.len() as u32, 0), "{kind}");
                    assert_eq!(text[..wanted.len()], *wanted.as_bytes(), "{kind}");
                    assert_eq!(text[wanted.len()..], lent(room)[wanted.len()..], "{kind}");
                }
                _ => {
                    let refusal = expected.clone().err().unwrap_or(Answer::refusal(16));
                    assert_eq!(listed, refusal, "{kind}");
                    assert_eq!(text, lent(room), "{kind}");
                }
            }
            let printed = match expected {
                _ if made.image.len() != model::size(layout) => "01\n".to_string(),
                Ok(text) => text,
                Err(refusal) => format!("{:02}\n", refusal.number),
            };
            let argument = layout.to_string();
            let output = sleeve_output(Some(argument.as_bytes()), &made.image);
            assert_eq!(output, printed.as_bytes(), "{kind}");
        }
    });
}
