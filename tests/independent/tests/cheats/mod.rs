//! Libraries that cheat, and what must catch each of them.

use crate::model;
use independent::plain::{demand3, CLAUSES};
use independent::request::{Library, Request};
use std::collections::BTreeSet;
use std::fmt::Debug;

/// A start image, and a list of calls on it, which all name one layout; the
/// list isn't empty.
pub type Run = (Vec<u8>, Vec<Request>);

/// Demand 3 over a run, in its layout.
fn over(library: &dyn Library, (start, list): &Run) -> Result<Vec<u8>, String> {
    demand3(library, list[0].layout, start, list)
}

/// Each is caught by demand 3, and by exactly its own clauses.
pub fn demand3_catches<C: Copy + Debug, L: Library>(
    runs: &[Run],
    cheats: &[(C, &[&str])],
    cheating: fn(C) -> L,
) {
    for (cheat, clauses) in cheats {
        let caught = runs
            .iter()
            .find_map(|run| over(&cheating(*cheat), run).err());
        let what = caught.unwrap_or_else(|| panic!("{cheat:?} was not caught"));
        let broken = CLAUSES.iter().filter(|clause| what.contains(**clause));
        let broken: Vec<&str> = broken.copied().collect();
        assert_eq!(broken, *clauses, "{cheat:?}: {what}");
    }
}

/// Demand 3 lets each pass, and the comparison of calls catches it: the model
/// owes another number on the image that the cheat itself made.
pub fn only_the_model_catches<C: Copy + Debug, L: Library>(
    runs: &[Run],
    cheats: &[(C, u32, u32)],
    cheating: fn(C) -> L,
) {
    for &(cheat, given, owed) in cheats {
        let mut differ = BTreeSet::new();
        for run in runs {
            over(&cheating(cheat), run).unwrap();
            let (start, list) = run;
            differ.extend(model::differences(&cheating(cheat), start, list));
        }
        assert!(differ.contains(&(given, owed)), "{cheat:?}: {differ:?}");
    }
}
