//! The independent program behind the C signatures of d64.h, under other
//! names, and what the fuzz harness builds its images from. `c/oracle.h` has
//! the prototypes.

mod calls;
mod repair;
mod starts;
#[cfg(feature = "wrong-libraries")]
mod wrong_libraries;
