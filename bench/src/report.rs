//! What the costs come to: ratios, growths and goals; and what a report of them is.
use crate::measure::{ratio, spread, Costs, Side, Spread};
use crate::rows::{Goal, Row};

/// Something that is told each row as it is measured. At the end it says whether all is well.
pub trait Report {
    fn row(&mut self, row: &Row, costs: &[Costs]);
    fn end(&mut self) -> bool;
}

/// The ratios of the port to another side, round by round.
pub fn to(c: &Costs, side: Side) -> Option<Spread> {
    Some(ratio(c.of(Side::Port)?, c.of(side)?))
}

/// The ratio that a goal is about; of several that which is the largest.
pub fn compared(goal: Goal, c: &Costs) -> Option<Spread> {
    match goal {
        Goal::AtMost(_, side) => to(c, side),
        Goal::AtMostEach(_, sides) => {
            sides.iter().filter_map(|s| to(c, *s)).max_by(|a, b| a.median.total_cmp(&b.median))
        }
        Goal::Beyond(_, [side, once]) => {
            let rest: Vec<f64> = c.of(Side::Port)?.iter().zip(c.of(once)?).map(|(x, y)| x - y).collect();
            Some(ratio(&rest, c.of(side)?))
        }
        _ => None,
    }
}

/// Families of cases, each in order of size.
pub fn families(costs: &[Costs]) -> Vec<&[Costs]> {
    costs.chunk_by(|a, b| a.family == b.family).collect()
}

/// What a goal is judged on: families for a growth, else each case for itself.
pub fn judged(goal: Goal, costs: &[Costs]) -> Vec<&[Costs]> {
    match goal {
        Goal::Growth(_) => families(costs),
        _ => costs.chunks(1).collect(),
    }
}

/// The growths of a family, from each size to the next.
pub fn growths(family: &[Costs]) -> Vec<Spread> {
    family.windows(2).filter_map(|w| Some(ratio(w[1].of(Side::Port)?, w[0].of(Side::Port)?))).collect()
}

/// The median of several rounds; a count of instructions is one number, and no time.
fn time(rounds: &[f64]) -> Option<f64> {
    (rounds.len() > 1).then(|| spread(rounds).median)
}

/// The most that a goal allows.
fn allowed(goal: Goal) -> Option<f64> {
    match goal {
        Goal::AtMost(most, _) | Goal::AtMostEach(most, _) | Goal::Beyond(most, _) => Some(most),
        Goal::Growth(most) | Goal::Nanoseconds(most) => Some(most),
        Goal::Stated => None,
    }
}

/// The largest ratio or time that a goal is about.
pub fn worst(goal: Goal, costs: &[Costs]) -> Option<f64> {
    let all: Vec<f64> = match goal {
        Goal::AtMost(..) | Goal::AtMostEach(..) | Goal::Beyond(..) => {
            costs.iter().filter_map(|c| compared(goal, c)).map(|s| s.median).collect()
        }
        Goal::Growth(_) => families(costs).into_iter().flat_map(growths).map(|s| s.median).collect(),
        Goal::Nanoseconds(_) => costs.iter().filter_map(|c| c.of(Side::Port)).filter_map(time).collect(),
        Goal::Stated => return None,
    };
    all.into_iter().reduce(f64::max)
}

pub fn verdict(goal: Goal, costs: &[Costs]) -> &'static str {
    match (allowed(goal), worst(goal, costs)) {
        (Some(most), Some(w)) if w > most => "missed",
        (_, Some(_)) => "met",
        _ => "stated",
    }
}

pub fn goal_text(goal: Goal) -> String {
    match goal {
        Goal::AtMost(most, side) => format!("at most {most} × {}", side.name()),
        Goal::AtMostEach(most, [a, b]) => format!("at most {most} × {} and {}", a.name(), b.name()),
        Goal::Beyond(most, [side, once]) => format!("at most {most} × {} and once {}", side.name(), once.name()),
        Goal::Growth(most) => format!("at most {most} per doubling"),
        Goal::Nanoseconds(most) => format!("at most {most} ns"),
        Goal::Stated => "none".to_string(),
    }
}

/// How many goals are met and missed.
#[derive(Default)]
pub struct Tally {
    pub met: usize,
    pub missed: usize,
}

impl Tally {
    pub fn count(&mut self, verdict: &str) {
        self.met += (verdict == "met") as usize;
        self.missed += (verdict == "missed") as usize;
    }
}

/// Three digits that matter.
pub fn short(x: f64) -> String {
    match x {
        x if x >= 100.0 => format!("{x:.0}"),
        x if x >= 10.0 => format!("{x:.1}"),
        _ => format!("{x:.2}"),
    }
}
