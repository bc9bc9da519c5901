//! The shortest times of programs that alternate.

use std::fs::File;
use std::os::unix::fs::FileExt;
use std::time::{Duration, Instant};

/// A sample takes at least this long, so that the clock does not matter.
const SAMPLE: Duration = Duration::from_millis(3);

/// A row is measured for this long.
const ROW: Duration = Duration::from_millis(1500);

/// Fewer rounds are not enough for a shortest time.
const ROUNDS: usize = 7;

/// A clock that does not count the time in which another process has the processor.
#[derive(Debug)]
pub struct Clock {
    /// Where Linux reports how long this thread has waited for a processor.
    waits: Option<File>,
    begin: Instant,
}

impl Clock {
    /// A clock that starts now.
    pub fn new() -> Self {
        let waits = File::open("/proc/thread-self/schedstat").ok();
        Self { waits, begin: Instant::now() }
    }

    /// The part of the time since the start in which another process had the processor.
    pub fn waited(&self) -> f64 {
        self.wait().as_secs_f64() / self.begin.elapsed().as_secs_f64()
    }

    /// How long this thread has waited in all; the second of three numbers, in nanoseconds.
    fn wait(&self) -> Duration {
        let mut line = [0; 96];
        let length = match &self.waits {
            Some(file) => file.read_at(&mut line, 0).unwrap_or(0),
            None => 0,
        };
        let line = String::from_utf8_lossy(&line[..length]);
        let number = line.split(' ').nth(1).and_then(|word| word.parse().ok());
        Duration::from_nanos(number.unwrap_or(0))
    }

    /// The nanoseconds that one run of each of some programs takes: the shortest of several rounds, in which they take turns
    /// in being first. A run answers whether it went well.
    ///
    /// # Panics
    ///
    /// Panics if a run did not go well.
    pub fn race<const N: usize>(&self, mut programs: [&mut dyn FnMut() -> bool; N]) -> [f64; N] {
        let runs = programs.each_mut().map(|run| self.repeats(run));
        let mut best = [f64::MAX; N];
        let begin = Instant::now();
        let mut round = 0;
        while round < ROUNDS || begin.elapsed() < ROW {
            for turn in 0..N {
                let program = (turn + round) % N;
                let time = self.time(programs[program], runs[program]);
                best[program] = best[program].min(time);
            }
            round += 1;
        }
        best
    }

    /// How many runs make a sample.
    fn repeats(&self, run: &mut dyn FnMut() -> bool) -> u32 {
        let mut runs = 1;
        while self.time(run, runs) * f64::from(runs) < SAMPLE.as_nanos() as f64 {
            runs *= 2;
        }
        runs
    }

    /// The nanoseconds of a run, on the average of that many.
    fn time(&self, run: &mut dyn FnMut() -> bool, runs: u32) -> f64 {
        // The waits are asked for within the time that is taken, so that no wait from without makes it shorter.
        let begin = Instant::now();
        let wait = self.wait();
        let mut is_well = true;
        for _ in 0..runs {
            is_well &= run();
        }
        let wait = self.wait() - wait;
        let time = begin.elapsed() - wait;
        assert!(is_well, "a file that was made to be good is refused");
        time.as_nanos() as f64 / f64::from(runs)
    }
}
