//! A small seeded generator (splitmix64), and the seeds and layouts a test runs
//! over.

use crate::geometry::LAYOUTS;

/// The same seed always gives the same numbers.
pub struct Rng {
    state: u64,
}

impl Rng {
    pub fn new(seed: u64) -> Rng {
        Rng { state: seed }
    }

    pub fn draw(&mut self) -> u64 {
        self.state = self.state.wrapping_add(0x9E37_79B9_7F4A_7C15);
        let mut z = self.state;
        z = (z ^ (z >> 30)).wrapping_mul(0xBF58_476D_1CE4_E5B9);
        z = (z ^ (z >> 27)).wrapping_mul(0x94D0_49BB_1331_11EB);
        z ^ (z >> 31)
    }

    /// A number below `limit`; 0 if `limit` is 0.
    pub fn below(&mut self, limit: usize) -> usize {
        if limit == 0 {
            return 0;
        }
        (self.draw() % limit as u64) as usize
    }

    /// A number from `low` to `high`, both included.
    pub fn range(&mut self, low: usize, high: usize) -> usize {
        low + self.below(high.saturating_sub(low) + 1)
    }

    pub fn byte(&mut self) -> u8 {
        self.draw() as u8
    }

    /// True once in `n` times.
    pub fn one_in(&mut self, n: usize) -> bool {
        self.below(n) == 0
    }

    /// One of the values; the list isn't empty.
    pub fn pick<T: Clone>(&mut self, values: &[T]) -> T {
        values[self.below(values.len())].clone()
    }

    pub fn fill(&mut self, bytes: &mut [u8]) {
        for part in bytes.chunks_mut(8) {
            let random = self.draw().to_le_bytes();
            part.copy_from_slice(&random[..part.len()]);
        }
    }

    pub fn bytes(&mut self, length: usize) -> Vec<u8> {
        let mut bytes = vec![0; length];
        self.fill(&mut bytes);
        bytes
    }

    pub fn shuffle<T>(&mut self, values: &mut [T]) {
        for i in (1..values.len()).rev() {
            values.swap(i, self.below(i + 1));
        }
    }
}

/// A number from the environment. A wrong one, or 0 rounds, would run other
/// things than asked for, so it ends the test.
fn asked(name: &str) -> Option<u64> {
    let value = std::env::var(name).ok()?;
    match value.trim().parse() {
        Ok(number) if number > 0 || name == "SEED" => Some(number),
        _ => panic!("{name}={value} can't be run"),
    }
}

/// The seeds of one test: 0 to `rounds` - 1, or as many as ROUNDS says, or
/// the single one that SEED says.
pub fn seeds(rounds: u64) -> Vec<u64> {
    seeds_by("ROUNDS", rounds)
}

/// The same, with another name than ROUNDS for how many.
pub fn seeds_by(many: &str, usual: u64) -> Vec<u64> {
    match asked("SEED") {
        Some(seed) => vec![seed],
        None => (0..asked(many).unwrap_or(usual)).collect(),
    }
}

/// Prints the seed if the test fails while this is alive.
pub struct Trial {
    pub what: &'static str,
    pub seed: u64,
}

impl Drop for Trial {
    fn drop(&mut self) {
        if std::thread::panicking() {
            eprintln!("{} failed; run again with SEED={}", self.what, self.seed);
        }
    }
}

/// Runs `body` over the test's seeds, each with a generator of its own.
pub fn for_seeds(what: &'static str, rounds: u64, mut body: impl FnMut(u64, &mut Rng)) {
    for seed in seeds(rounds) {
        let _trial = Trial { what, seed };
        // The test's name is mixed in, so that two tests differ on one seed.
        let salt = what.bytes().fold(seed, |sum, byte| {
            sum.wrapping_mul(31).wrapping_add(u64::from(byte))
        });
        body(seed, &mut Rng::new(salt));
    }
}

/// Prints the layout if the test fails while this is alive.
struct InLayout(u32);

impl Drop for InLayout {
    fn drop(&mut self) {
        if std::thread::panicking() {
            eprintln!("in layout {}", self.0);
        }
    }
}

/// The same for each layout in turn; a seed has one generator for all three.
pub fn for_layouts(what: &'static str, rounds: u64, mut body: impl FnMut(u32, u64, &mut Rng)) {
    for_seeds(what, rounds, |seed, rng| {
        for layout in LAYOUTS {
            let _shown = InLayout(layout);
            body(layout, seed, rng);
        }
    });
}
