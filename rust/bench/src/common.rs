//! What the programs use: images, chance, and kinds that are measured in turn.
use std::time::{Duration, Instant};

pub const RECORD: usize = proved::codes::LONGEST_RECORD;

/// An image with the given entries and body length; bytes that nothing wrote follow a pattern.
pub fn image(capacity: usize, lens: &[usize], body: usize) -> Vec<u8> {
    let mut words = vec![1, capacity, lens.len(), lens.iter().sum()];
    let mut start = 0;
    for len in lens {
        words.extend([*len, start]);
        start += len;
    }
    let words: Vec<u32> = words.into_iter().map(|w| w as u32).collect();
    let mut v = wire::words(&words);
    let n = 16 + capacity * 8 + body;
    v.extend((v.len()..n).map(|i| (i * 7 + i / 251) as u8));
    v
}

pub struct Random(pub u64);

impl Random {
    pub fn below(&mut self, n: usize) -> usize {
        self.0 ^= self.0 << 13;
        self.0 ^= self.0 >> 7;
        self.0 ^= self.0 << 17;
        (self.0 >> 16) as usize % n
    }

    pub fn one<T: Copy>(&mut self, of: &[T]) -> T {
        of[self.below(of.len())]
    }

    /// Damages an image with so many entries: one wrong bit or byte in the header or the table, or an end too soon; or
    /// not at all.
    pub fn damage(&mut self, image: &mut Vec<u8>, entries: usize) {
        match self.below(6) {
            0 => image[self.below(16)] ^= 1,
            1 => image[self.below(16 + 8 * entries)] = self.below(256) as u8,
            2 => image.truncate(self.below(image.len())),
            _ => {}
        }
    }
}

/// Some nanoseconds, of kinds that were measured so often.
pub fn median(times: &mut [f64]) -> f64 {
    times.sort_by(f64::total_cmp);
    times[times.len() / 2]
}

/// The kind whose turn it is: all of them in each round, in changing order.
pub fn turn(round: usize, k: usize, kinds: usize) -> usize {
    if round / kinds % 2 == 0 { (round + k) % kinds } else { (round + kinds - k) % kinds }
}

/// The kinds in turn, after a warm-up: the median time of each, in nanoseconds. `run` makes ready for a kind and times
/// it.
pub fn medians(kinds: usize, rounds: usize, mut run: impl FnMut(usize) -> Duration) -> Vec<f64> {
    let begun = Instant::now();
    while begun.elapsed() < Duration::from_millis(300) {
        (0..kinds).for_each(|k| _ = run(k));
    }
    let mut times = vec![Vec::new(); kinds];
    for round in 0..rounds {
        for k in 0..kinds {
            let k = turn(round, k, kinds);
            times[k].push(run(k).as_nanos() as f64);
        }
    }
    times.iter_mut().map(|t| median(t)).collect()
}

pub fn timed(work: impl FnOnce()) -> Duration {
    let begun = Instant::now();
    work();
    begun.elapsed()
}

pub fn head() {
    println!(
        "{:50}{:>8}{:>8}{:>8}{:>14}{:>15}",
        "microseconds a call, medians", "proved", "plain", "memcpy", "proved/plain", "proved/memcpy"
    );
}

pub fn row(what: &str, calls: usize, proved: f64, plain: f64, copy: f64) {
    let each = |t: f64| t / calls as f64 / 1000.0;
    println!(
        "{what:50}{:8.2}{:8.2}{:8.2}{:14.2}{:15.2}",
        each(proved),
        each(plain),
        each(copy),
        proved / plain,
        proved / copy
    );
}
