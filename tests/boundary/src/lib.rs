//! Compares a library behind d64.h with the independent program, call by
//! call: the number returned and every byte of the memory lent, with guard
//! bytes around each piece of it.
//!
//! `calls` has the calls as C has them; `archive` is the library itself;
//! `memory` lends guarded bytes; `compare` runs one request on both sides;
//! `rounds` runs some `requests` on each of many images; `lists` runs long
//! lists of them on one image, and demand 3 over what the library makes of
//! it; `tally` is what a run met. To add a call: its prototype in `archive`, a
//! method of `calls::EntryPoints`, its line in `compare::run`, and its
//! requests in `requests`.

pub mod archive;
pub mod calls;
pub mod compare;
pub mod lists;
pub mod memory;
pub mod requests;
pub mod rounds;
pub mod tally;
