//! A run that never met a place of answer 8, a number in one of the layouts, or
//! an unknown layout is told apart from one that did.

use boundary::tally::{Tally, CHECKING, EVERY_NUMBER, LAST_TRACKS};
use independent::request::{Call, Reply, Request};

fn call(word: &str) -> Call {
    let (name, data) = (b"A".to_vec(), Vec::new());
    let (position, room, kind, id1, id2) = (0, 0, 1, 0, 0);
    match word {
        "check" => Call::Check,
        "format" => Call::Format { name, id1, id2 },
        "read" => Call::Read { name, room },
        "store" => Call::Store { name, kind, data },
        "scratch" => Call::Scratch { name },
        "tell" => Call::Tell { position, room },
        _ => Call::Listing { room },
    }
}

/// Counts a call that gave a number with a place.
fn count(tally: &mut Tally, word: &str, layout: u32, number: u32, place: [u8; 3]) {
    let reply = Reply {
        number,
        block: [&place[..], &[0; 6]].concat(),
        out: Vec::new(),
    };
    tally.count(&Request::of(layout, call(word)), &reply);
}

/// A run in which each call gave 8 twice with each sector and 40 times with
/// 255, but for one of these; and 8 on each of the last tracks, but for one.
fn run_without(left_out: Option<(&str, u8)>, track_left_out: Option<(&str, u32, u8)>) -> Tally {
    let mut tally = Tally::default();
    for word in CHECKING {
        for sector in (0..21).chain([255]) {
            let times = if sector == 255 { 30 } else { 2 };
            for _ in 0..times {
                if left_out != Some((word, sector)) {
                    count(&mut tally, word, 0, 8, [1, sector, 255]);
                }
            }
        }
        for (layout, track) in LAST_TRACKS.flat_map(|track| [(1, track), (2, track)]) {
            if track_left_out != Some((word, layout, track)) && left_out != Some((word, 255)) {
                count(&mut tally, word, layout, 8, [track, 255, 255]);
            }
        }
    }
    tally
}

#[test]
fn a_place_that_was_never_met_is_named() {
    assert_eq!(run_without(None, None).thin_places(40), [""; 0]);
    for word in CHECKING {
        for sector in 0..21 {
            let thin = run_without(Some((word, sector)), None).thin_places(40);
            assert_eq!(thin, [format!("{word} never gave 8 with sector {sector}")]);
        }
        let thin = run_without(Some((word, 255)), None).thin_places(40);
        assert_eq!(thin[0], format!("{word} gave 8 with 255 only 0 times"));
        let thin = run_without(None, None).thin_places(43);
        let owed = format!("{word} gave 8 with a sector only 42 times");
        assert!(thin.contains(&owed), "{thin:?}");
    }
}

#[test]
fn a_last_track_that_was_never_met_is_named() {
    for word in CHECKING {
        for (layout, track) in [(1, 36), (2, 36), (1, 40), (2, 40)] {
            let thin = run_without(None, Some((word, layout, track))).thin_places(39);
            let owed = format!("{word} never gave 8 on track {track} of layout {layout}");
            assert_eq!(thin, [owed]);
        }
    }
}

/// A run in which each call gave each number in each layout, and 17, but for
/// one of them.
fn run_but(left_out: (&str, u32, u32)) -> Tally {
    let mut tally = Tally::default();
    for (word, numbers) in EVERY_NUMBER {
        let all = numbers
            .iter()
            .flat_map(|number| [0, 1, 2].map(|layout| (layout, *number)));
        for (layout, number) in all.chain([(3, 17)]) {
            if left_out != (*word, layout, number) {
                count(&mut tally, word, layout, number, [0, 0, 255]);
            }
        }
    }
    tally
}

#[test]
fn a_number_that_was_never_met_in_a_layout_is_named() {
    let all = run_but(("none", 0, 0));
    assert_eq!(
        [all.thin(EVERY_NUMBER, 1), all.thin_unknown(1)],
        [[""; 0]; 2]
    );
    for (word, numbers) in EVERY_NUMBER {
        for number in *numbers {
            for layout in [0, 1, 2] {
                let thin = run_but((word, layout, *number)).thin(EVERY_NUMBER, 1);
                let owed = format!("{word} gave {number} in layout {layout} fewer than 1 times");
                assert_eq!(thin, [owed]);
            }
        }
        let thin = run_but((word, 3, 17)).thin_unknown(1);
        assert_eq!(thin, [format!("{word} gave 17 fewer than 1 times")]);
    }
}
