//! Deliberately wrong libraries, each found by the comparison: a harness that
//! can't fail shows nothing. Each is the independent program with one fault;
//! 01's "Errors we have met before" and "four cheats" come first.

mod wrong;

use boundary::calls::{EntryPoints, Faithful};
use boundary::lists::{compare_list, demand3_over, List, OWN_CHECK};
use boundary::rounds::run_round;
use boundary::tally::{Failure, Tally};
use independent::plain::{
    ACCEPTED, CLAUSES, GIVEN_BACK, OTHER_ENTRIES, PLAIN_LIST, READ_BYTES, READ_SECTORS, REFUSED,
    SPARE_BITS,
};
use wrong::changes::{ScratchEdited, StoreEdited};
use wrong::formatting::FormatEdited;
use wrong::spare::CheckSees;
use wrong::{
    counting, formatting, last_tracks, layouts, masks, place, reading, scratching, spare, stored,
    storing, usr, Row,
};

/// Rounds within which each wrong library is to be found.
const ROUNDS: u64 = 40;

/// Lists within which a cheat is to be found by demand 3.
const LISTS: u64 = 75;

/// The first difference within the rounds, and the images up to it.
fn run(library: &dyn EntryPoints) -> (usize, Result<(), Failure>) {
    let mut tally = Tally::default();
    let run = |round| run_round(library, round, false, &mut tally);
    let result = (0..ROUNDS).try_for_each(run);
    (tally.images, result)
}

fn each_is_found(rows: &[Row]) {
    for (what, library, differs) in rows {
        let (images, result) = run(*library);
        let failure = match result {
            Ok(()) => panic!("not found in {images} images: {what}"),
            Err(failure) => failure,
        };
        println!("after {images} images: {what}");
        let shown = failure.differences.iter().any(|d| d.starts_with(differs));
        assert!(
            shown,
            "{what}: no difference of \"{differs}\" in\n{failure}"
        );
    }
}

#[test]
fn each_wrong_check_read_tell_and_listing_is_found() {
    each_is_found(reading::WRONG);
}

#[test]
fn each_wrong_format_is_found() {
    each_is_found(formatting::WRONG);
}

#[test]
fn each_wrong_store_is_found() {
    each_is_found(storing::WRONG);
    each_is_found(stored::WRONG);
}

#[test]
fn each_wrong_scratch_is_found() {
    each_is_found(scratching::WRONG);
}

#[test]
fn each_wrong_about_usr_files_is_found() {
    each_is_found(usr::WRONG);
}

#[test]
fn each_wrong_about_spare_bits_is_found() {
    each_is_found(spare::WRONG);
}

#[test]
fn each_wrong_about_the_place_of_8_is_found() {
    each_is_found(place::WRONG);
}

#[test]
fn each_wrong_about_masks_is_found() {
    each_is_found(masks::WRONG);
    each_is_found(masks::OTHER_CALLS);
}

#[test]
fn each_wrong_about_counts_is_found() {
    each_is_found(counting::WRONG);
    each_is_found(counting::STORES);
}

#[test]
fn each_wrong_about_layouts_is_found() {
    each_is_found(layouts::WRONG);
    each_is_found(last_tracks::WRONG);
}

/// What demand 3 finds by itself, with no independent program beside the
/// library: the clauses that each breaks, and no others.
const CHEATS: &[(&str, &dyn EntryPoints, &[&str])] = &[
    ("check refuses all", &reading::AllRefused, &[OWN_CHECK]),
    (
        "a read visits one sector",
        &reading::OneSectorReported,
        &[READ_SECTORS],
    ),
    (
        "format leaves codes",
        &FormatEdited(formatting::codes_left),
        &[GIVEN_BACK],
    ),
    (
        "format forgets 18/1",
        &FormatEdited(formatting::directory_marked_free),
        &[ACCEPTED],
    ),
    (
        "a refused format clears",
        &formatting::RefusedYetCleared,
        &[ACCEPTED, REFUSED, SPARE_BITS, OTHER_ENTRIES],
    ),
    (
        "store stores nothing",
        &StoreEdited(stored::nothing_stored),
        &[PLAIN_LIST],
    ),
    (
        "the first sector alone",
        &StoreEdited(stored::first_sector_alone),
        &[PLAIN_LIST],
    ),
    (
        "the last byte is lost",
        &StoreEdited(stored::last_byte_miscounted),
        &[PLAIN_LIST],
    ),
    (
        "the count is invented",
        &StoreEdited(stored::count_invented),
        &[ACCEPTED],
    ),
    (
        "the map before 14",
        &storing::MapMarkedBeforeFull,
        &[ACCEPTED, REFUSED],
    ),
    (
        "not linked on",
        &StoreEdited(stored::old_link_left),
        &[ACCEPTED],
    ),
    ("store replaces", &storing::NameReplaced, &[PLAIN_LIST]),
    (
        "scratch leaves codes",
        &ScratchEdited(scratching::codes_left),
        &[GIVEN_BACK],
    ),
    (
        "scratch leaves slack",
        &ScratchEdited(scratching::slack_left),
        &[GIVEN_BACK],
    ),
    (
        "scratch leaves the slot",
        &ScratchEdited(scratching::slot_left),
        &[ACCEPTED],
    ),
    (
        "scratch leaves the map",
        &ScratchEdited(scratching::map_left),
        &[ACCEPTED],
    ),
    (
        "one too many freed",
        &ScratchEdited(scratching::one_too_many_freed),
        &[ACCEPTED],
    ),
    (
        "the first file goes",
        &scratching::FirstFileScratched,
        &[PLAIN_LIST],
    ),
    (
        "scratch does nothing",
        &ScratchEdited(scratching::nothing_scratched),
        &[PLAIN_LIST],
    ),
    ("check refuses USR files", &usr::CheckRefused, &[OWN_CHECK]),
    (
        "a refused kind 3 is stored",
        &usr::RefusedYetStored,
        &[PLAIN_LIST, REFUSED],
    ),
    (
        "USR files turn into PRG",
        &StoreEdited(usr::turned_into_prg),
        &[PLAIN_LIST],
    ),
    (
        "a store takes USR files off",
        &StoreEdited(usr::taken_off),
        &[PLAIN_LIST],
    ),
    (
        "the last byte of USR files is not read",
        &usr::LastByteUnread,
        &[READ_BYTES],
    ),
    (
        "scratch leaves the codes of USR files",
        &ScratchEdited(usr::usr_codes_left),
        &[GIVEN_BACK],
    ),
    (
        "check still refuses spare bits",
        &CheckSees(spare::refused_as_before),
        &[OWN_CHECK],
    ),
    (
        "check counts spare bits",
        &CheckSees(spare::counted_in),
        &[OWN_CHECK],
    ),
    (
        "check looks at 21 bits of every track",
        &CheckSees(spare::twenty_one_bits),
        &[OWN_CHECK],
    ),
    (
        "store clears spare bits where it writes",
        &StoreEdited(spare::cleared_where_written),
        &[SPARE_BITS],
    ),
    (
        "store clears spare bits",
        &StoreEdited(spare::cleared),
        &[SPARE_BITS],
    ),
    (
        "store sets spare bits where it writes",
        &StoreEdited(spare::set_where_written),
        &[SPARE_BITS],
    ),
    (
        "store sets spare bits",
        &StoreEdited(spare::set),
        &[SPARE_BITS],
    ),
    (
        "store counts spare bits",
        &StoreEdited(spare::counted),
        &[ACCEPTED],
    ),
    (
        "store writes the map anew",
        &StoreEdited(spare::written_anew),
        &[SPARE_BITS],
    ),
    (
        "a growing directory clears spare bits",
        &StoreEdited(spare::cleared_by_growth),
        &[SPARE_BITS],
    ),
    (
        "store goes on past a track's end",
        &StoreEdited(spare::past_the_end),
        &[ACCEPTED, SPARE_BITS],
    ),
    (
        "a spare bit is room",
        &spare::TakenAsRoom,
        &[ACCEPTED, SPARE_BITS],
    ),
    (
        "the directory grows into 18/19",
        &spare::TakenByDirectory,
        &[ACCEPTED, SPARE_BITS],
    ),
    (
        "a refused store clears spare bits",
        &spare::RefusedStoreClears,
        &[REFUSED, SPARE_BITS],
    ),
    (
        "scratch clears spare bits where it writes",
        &ScratchEdited(spare::cleared_where_written),
        &[SPARE_BITS],
    ),
    (
        "scratch clears spare bits",
        &ScratchEdited(spare::cleared),
        &[SPARE_BITS],
    ),
    (
        "scratch sets spare bits where it writes",
        &ScratchEdited(spare::set_where_written),
        &[SPARE_BITS],
    ),
    (
        "scratch sets spare bits",
        &ScratchEdited(spare::set),
        &[SPARE_BITS],
    ),
    (
        "scratch counts spare bits",
        &ScratchEdited(spare::counted),
        &[ACCEPTED],
    ),
    (
        "scratch writes the map anew",
        &ScratchEdited(spare::written_anew),
        &[SPARE_BITS],
    ),
    (
        "a refused scratch clears spare bits",
        &spare::RefusedScratchClears,
        &[REFUSED, SPARE_BITS],
    ),
    (
        "format keeps spare bits",
        &FormatEdited(spare::kept),
        &[SPARE_BITS],
    ),
    (
        "format sets spare bits",
        &FormatEdited(spare::set_by_format),
        &[SPARE_BITS],
    ),
    (
        "check loses what comes back to a track",
        &masks::LOSES,
        &[OWN_CHECK],
    ),
    (
        "check counts 16 bits of a track",
        &counting::TWO_BYTES,
        &[OWN_CHECK],
    ),
    (
        "store marks the rest of a track used",
        &StoreEdited(counting::rest_marked),
        &[ACCEPTED],
    ),
    (
        "store lowers each count by one",
        &StoreEdited(counting::lowered_by_one),
        &[ACCEPTED],
    ),
    (
        "check refuses links to tracks 36 to 40",
        &last_tracks::LinksRefused(36..=40),
        &[OWN_CHECK],
    ),
    (
        "a read of 749 sectors reports 681",
        &last_tracks::AtMost681,
        &[READ_SECTORS],
    ),
    (
        "store leaves the entries of tracks 36 to 40",
        &StoreEdited(last_tracks::entries_left),
        &[ACCEPTED],
    ),
    (
        "store writes the other layout's entries",
        &StoreEdited(last_tracks::at_the_other),
        &[ACCEPTED, OTHER_ENTRIES],
    ),
    (
        "store writes both layouts' entries",
        &StoreEdited(last_tracks::at_both),
        &[OTHER_ENTRIES],
    ),
    (
        "store clears the other layout's entries",
        &StoreEdited(last_tracks::others_cleared),
        &[OTHER_ENTRIES],
    ),
    (
        "scratch leaves the entries of tracks 36 to 40",
        &ScratchEdited(last_tracks::entries_left),
        &[ACCEPTED],
    ),
    (
        "scratch clears the other layout's entries",
        &ScratchEdited(last_tracks::others_cleared),
        &[OTHER_ENTRIES],
    ),
    (
        "scratch leaves codes on tracks 36 to 40",
        &ScratchEdited(last_tracks::codes_left),
        &[GIVEN_BACK],
    ),
    (
        "format keeps the other layout's entries",
        &FormatEdited(last_tracks::others_kept),
        &[OTHER_ENTRIES],
    ),
    (
        "format writes both layouts' entries",
        &FormatEdited(last_tracks::both_filled),
        &[OTHER_ENTRIES],
    ),
    (
        "format leaves codes on tracks 36 to 40",
        &FormatEdited(last_tracks::tracks_kept),
        &[GIVEN_BACK],
    ),
];

/// The lists on which demand 3 is broken, each with its clauses.
fn broken_by(library: &dyn EntryPoints) -> impl Iterator<Item = (Vec<&'static str>, String)> + '_ {
    let broken = |list| Some(demand3_over(library, &list).err()?.to_string());
    let lists = (0..LISTS).map(List::new).filter_map(broken);
    lists.map(|broken| {
        let all = CLAUSES.iter().chain([&OWN_CHECK]).copied();
        (
            all.filter(|clause| broken.contains(clause)).collect(),
            broken,
        )
    })
}

/// One list shows all the clauses of a cheat; none shows another.
#[test]
fn demand_3_alone_finds_cheats() {
    for (what, library, clauses) in CHEATS {
        let shows_all = |(named, broken): (Vec<&str>, String)| {
            let known = named.iter().all(|clause| clauses.contains(clause));
            assert!(known, "{what}: {broken}");
            named == *clauses
        };
        let found = broken_by(*library).any(shows_all);
        assert!(found, "not found by {clauses:?}: {what}");
    }
}

#[test]
fn the_right_library_passes() {
    // Edits that change nothing are not what is found in the others.
    let edited = StoreEdited(stored::house_order);
    for library in [&Faithful as &dyn EntryPoints, &edited, &masks::RIGHT] {
        if let (_, Err(failure)) = run(library) {
            panic!("{failure}");
        }
    }
    for list in (0..LISTS).map(List::new) {
        let result = compare_list(&Faithful, &list, false, &mut Tally::default());
        if let Err(failure) = result.and_then(|()| demand3_over(&Faithful, &list)) {
            panic!("{failure}");
        }
    }
}
