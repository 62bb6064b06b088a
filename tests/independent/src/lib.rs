//! An independent D64 disk-image library, written from the papers alone.
//!
//! "01" in a comment is the paper "Scope of work and exact rules", "02" the
//! paper "Requests for later changes"; what comes after it names the part of
//! that paper.
//!
//! The library proper: `geometry`, `answer`, `disk`, `check`, `calls`,
//! `host`, `listing`. The measuring side: `naive` (a second acceptance test
//! that shares no code with the library proper), `request`, `plain`
//! (demand 3), and the generators `rng`, `sound`, `damage`, `arguments`,
//! `lists`, `generate`.

pub mod answer;
pub mod arguments;
pub mod calls;
pub mod check;
pub mod damage;
pub mod disk;
pub mod generate;
pub mod geometry;
pub mod host;
pub mod listing;
pub mod lists;
pub mod naive;
pub mod plain;
pub mod request;
pub mod rng;
pub mod sound;
