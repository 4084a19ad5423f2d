//! The report as a test: each growth is held to a bound, and constructed lists have to cost more than ordinary ones, so
//! that they are known to reach what they aim at.
use crate::measure::{spread, Costs, Side};
use crate::report::{families, growths, Report};
use crate::rows::{Goal, Row};

pub struct Hold {
    most: f64,
    passed: usize,
    failed: usize,
    /// The highest cost of each row.
    highest: Vec<(&'static str, f64)>,
}

/// Rows of ordinary lists, and those of constructed ones beside them.
const AIMS: [[&str; 2]; 3] = [
    ["found-growth", "found-worst-growth"],
    ["found-large-growth", "found-large-worst-growth"],
    ["insert-growth", "insert-tree-growth"],
];

/// How many times as much as ordinary lists the worst of the constructed ones has to cost.
const AIMED: f64 = 1.5;

impl Hold {
    pub fn new(most: f64) -> Self {
        Hold { most, passed: 0, failed: 0, highest: Vec::new() }
    }

    fn highest(&self, row: &str) -> Option<f64> {
        self.highest.iter().find(|h| h.0 == row).map(|h| h.1)
    }

    fn check(&mut self, holds: bool, what: String) {
        if holds {
            self.passed += 1;
        } else {
            self.failed += 1;
        }
        println!("{}: {what}", if holds { "passed" } else { "FAILED" });
    }
}

impl Report for Hold {
    fn row(&mut self, row: &Row, costs: &[Costs]) {
        let Goal::Growth(_) = row.goal else { return };
        let costs_here = costs.iter().filter_map(|c| c.of(Side::Port)).map(|s| spread(s).median);
        self.highest.push((row.name, costs_here.fold(0.0, f64::max)));
        for family in families(costs) {
            let growths = growths(family);
            let texts: Vec<String> = growths.iter().map(|g| format!("{:.2}", g.median)).collect();
            let sizes: Vec<&str> = family.iter().map(|c| &c.label[..]).collect();
            let (name, sizes, times) = (&family[0].family, sizes.join(", "), texts.join(", "));
            let what = format!("{} ({name}), {sizes} records: {times} times, at most {}", row.title, self.most);
            self.check(growths.iter().all(|g| g.median <= self.most), what);
        }
    }

    fn end(&mut self) -> bool {
        for [ordinary, worst] in AIMS {
            let (Some(least), Some(most)) = (self.highest(ordinary), self.highest(worst)) else { continue };
            let times = most / least;
            let what = format!("{worst} costs {times:.2} times what {ordinary} does, at least {AIMED}");
            self.check(times >= AIMED, what);
        }
        println!("{} passed, {} failed", self.passed, self.failed);
        self.failed == 0
    }
}
