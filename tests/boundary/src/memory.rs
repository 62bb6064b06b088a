//! Lent memory in the middle of a larger allocation, so that a write past
//! either end shows.

use crate::calls::Slice;
use independent::rng::Rng;

/// Guard bytes on each side, at the least.
const GUARD: usize = 64;

/// Bytes to lend, with guard bytes around them.
pub struct Guarded {
    whole: Vec<u8>,
    start: usize,
    len: usize,
    /// Lent as a null pointer; only where there is nothing to lend.
    null: bool,
}

/// A guard byte, by its place: no run of equal bytes, and no zero nearby.
fn guard_byte(at: usize) -> u8 {
    (at % 127) as u8 | 0x80
}

impl Guarded {
    /// Guarded bytes that start at any alignment. Empty ones are a null
    /// pointer half of the time.
    pub fn holding(content: &[u8], rng: &mut Rng) -> Guarded {
        let (start, len) = (GUARD + rng.below(16), content.len());
        let mut whole = Vec::with_capacity(start + len + GUARD);
        whole.extend((0..start).map(guard_byte));
        whole.extend_from_slice(content);
        whole.extend((start + len..start + len + GUARD).map(guard_byte));
        Guarded {
            whole,
            start,
            len,
            null: len == 0 && rng.one_in(2),
        }
    }

    pub fn lend(&mut self) -> Slice {
        let start = match self.null {
            true => std::ptr::null_mut(),
            // From the whole allocation, so that a wrong write stays in it.
            false => self.whole.as_mut_ptr().wrapping_add(self.start),
        };
        Slice {
            start,
            len: self.len,
        }
    }

    pub fn content(&self) -> &[u8] {
        &self.whole[self.start..self.start + self.len]
    }

    /// What differs from the expected content and from untouched guards, each
    /// headed by `what` was lent.
    pub fn differences(&self, what: &str, expected: &[u8]) -> Vec<String> {
        let mut found = Vec::new();
        let touched = |range: std::ops::Range<usize>| {
            let mut range = range;
            range.find(|&at| self.whole[at] != guard_byte(at))
        };
        if let Some(at) = touched(0..self.start) {
            found.push(format!("before {what}: byte -{} changed", self.start - at));
        }
        let end = self.start + self.len;
        if let Some(at) = touched(end..self.whole.len()) {
            found.push(format!("after {what}: byte {} changed", at - self.start));
        }
        if self.content() != expected {
            found.push(format!(
                "{what}: {}",
                first_difference(self.content(), expected)
            ));
        }
        found
    }
}

fn first_difference(actual: &[u8], expected: &[u8]) -> String {
    let differ = |(at, (a, b)): (usize, (&u8, &u8))| (a != b).then_some((at, *a, *b));
    let pairs = actual.iter().zip(expected).enumerate();
    match pairs.map(differ).find(Option::is_some).flatten() {
        Some((at, actual, expected)) => format!("byte {at} is ${actual:02X}, not ${expected:02X}"),
        None => format!("{} bytes, not {}", actual.len(), expected.len()),
    }
}
