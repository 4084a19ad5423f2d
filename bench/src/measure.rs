//! Measuring: the sides of a row in turn, round after round.
use crate::callgrind;
use crate::clock::Clock;
use std::time::{Duration, Instant};

/// Work of one side. `go` makes `calls` calls; `prepare` puts things back before it and is not measured.
pub trait Work {
    fn calls(&self) -> usize;
    fn prepare(&mut self) {}
    fn go(&mut self);
}

#[derive(Clone, Copy, PartialEq, Eq, Debug)]
pub enum Side {
    Port,
    Gilrs,
    /// A sum over the bytes of both buffers.
    Sum,
    /// A copy of both buffers.
    Copy,
    /// The port's own call, on the same number of random UUIDs.
    Random,
}

impl Side {
    pub const ALL: [Side; 5] = [Side::Port, Side::Gilrs, Side::Sum, Side::Copy, Side::Random];

    pub fn name(self) -> &'static str {
        match self {
            Side::Port => "port",
            Side::Gilrs => "gilrs",
            Side::Sum => "sum",
            Side::Copy => "memcpy",
            Side::Random => "random",
        }
    }
}

/// The same input for each side. Cases of one family differ in size alone.
pub struct Case {
    pub family: String,
    pub label: String,
    pub works: Vec<(Side, Box<dyn Work>)>,
}

impl Case {
    fn costs(&self, sides: impl Iterator<Item = (Side, Vec<f64>)>) -> Costs {
        Costs { family: self.family.clone(), label: self.label.clone(), sides: sides.collect() }
    }
}

/// What was measured of a case: the cost of a call on each side, a number for each round.
pub struct Costs {
    pub family: String,
    pub label: String,
    pub sides: Vec<(Side, Vec<f64>)>,
}

impl Costs {
    pub fn of(&self, side: Side) -> Option<&[f64]> {
        self.sides.iter().find(|s| s.0 == side).map(|s| &s.1[..])
    }
}

pub enum How {
    /// Nanoseconds of the processor's time: so many rounds, within about so long.
    Time { rounds: usize, budget: Duration },
    /// Instructions that callgrind counts. They are the same in each round, so there is one.
    Instructions(callgrind::Counter),
}

/// The time of a call: the median of the goes.
fn timed(work: &mut dyn Work, goes: usize, clock: &Clock) -> f64 {
    let mut times = Vec::with_capacity(goes);
    for _ in 0..goes {
        work.prepare();
        let time = clock.time(&mut || work.go());
        times.push(time / work.calls() as f64);
    }
    spread(&times).median
}

/// Warms up, and says how many goes fill a share of the budget.
fn goes_within(work: &mut dyn Work, share: Duration, clock: &Clock) -> usize {
    let start = Instant::now();
    let mut goes = 0;
    while goes < 1 || start.elapsed() < share && goes < 1 << 20 {
        timed(work, 1, clock);
        goes += 1;
    }
    let one = start.elapsed().as_secs_f64() / goes as f64;
    ((share.as_secs_f64() / one) as usize).max(1)
}

fn by_time(cases: &mut [Case], rounds: usize, budget: Duration) -> Vec<Costs> {
    let clock = Clock::new();
    let works: usize = cases.iter().map(|c| c.works.len()).sum();
    let share = budget / (works * (rounds + 1)) as u32;
    let mut goes: Vec<Vec<usize>> = Vec::new();
    for c in cases.iter_mut() {
        goes.push(c.works.iter_mut().map(|(_, w)| goes_within(&mut **w, share, &clock)).collect());
    }
    let mut costs: Vec<Costs> = cases.iter().map(|c| c.costs(c.works.iter().map(|(s, _)| (*s, Vec::new())))).collect();
    for round in 0..rounds {
        for (c, case) in cases.iter_mut().enumerate() {
            let n = case.works.len();
            // each side is first in its turn
            for i in (0..n).map(|i| (i + round) % n) {
                costs[c].sides[i].1.push(timed(&mut *case.works[i].1, goes[c][i], &clock));
            }
        }
    }
    costs
}

fn by_instructions(cases: &mut [Case], counter: &mut callgrind::Counter) -> Vec<Costs> {
    let mut count = |work: &mut dyn Work| {
        // once before, so that what is set up at the first call is not counted
        work.prepare();
        work.go();
        work.prepare();
        counter.start();
        work.go();
        counter.stop() as f64 / work.calls() as f64
    };
    let mut costs = Vec::new();
    for c in cases.iter_mut() {
        // a copy is one instruction that is repeated: its count says nothing
        c.works.retain(|(s, _)| *s != Side::Copy);
        let sides: Vec<_> = c.works.iter_mut().map(|(s, w)| (*s, vec![count(&mut **w)])).collect();
        costs.push(c.costs(sides.into_iter()));
    }
    costs
}

pub fn measure(cases: &mut [Case], how: &mut How) -> Vec<Costs> {
    match how {
        How::Time { rounds, budget } => by_time(cases, *rounds, *budget),
        How::Instructions(counter) => by_instructions(cases, counter),
    }
}

/// A median and what lies about it.
#[derive(Clone, Copy)]
pub struct Spread {
    pub median: f64,
    pub quartiles: (f64, f64),
    pub ends: (f64, f64),
}

/// The value that a share of the sorted numbers lies below.
fn at(sorted: &[f64], share: f64) -> f64 {
    let x = share * (sorted.len() - 1) as f64;
    let (low, high) = (sorted[x.floor() as usize], sorted[x.ceil() as usize]);
    low + (high - low) * (x - x.floor())
}

pub fn spread(numbers: &[f64]) -> Spread {
    let mut s = numbers.to_vec();
    s.sort_by(f64::total_cmp);
    Spread { median: at(&s, 0.5), quartiles: (at(&s, 0.25), at(&s, 0.75)), ends: (s[0], s[s.len() - 1]) }
}

/// The ratios of two series, round by round.
pub fn ratio(a: &[f64], b: &[f64]) -> Spread {
    spread(&a.iter().zip(b).map(|(x, y)| x / y).collect::<Vec<_>>())
}
