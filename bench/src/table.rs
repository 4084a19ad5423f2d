//! The report as a table in Markdown, printed row by row.
use crate::measure::{spread, Costs, Side, Spread};
use crate::report::{compared, goal_text, growths, judged, short, to, verdict, worst, Report, Tally};
use crate::rows::{Goal, Row};

pub struct Table {
    pub instructions: bool,
    /// Only the worst case of each row is printed.
    pub worst_alone: bool,
    pub tally: Tally,
}

fn with_quartiles(s: Spread) -> String {
    if s.ends.0 == s.ends.1 {
        return short(s.median);
    }
    format!("{} ({} to {})", short(s.median), short(s.quartiles.0), short(s.quartiles.1))
}

pub fn start(notes: &[String]) {
    notes.iter().for_each(|n| println!("- {n}"));
    println!("\n| Row | Work | Case | Port | gilrs | Ratio (quartiles) | Other ratios | Goal | |");
    println!("|---|---|---|---|---|---|---|---|---|");
}

impl Table {
    fn cost(&self, x: f64) -> String {
        let units = if self.instructions { ["", " thousand", " million"] } else { [" ns", " µs", " ms"] };
        match x {
            x if x >= 1e6 => short(x / 1e6) + units[2],
            x if x >= 1e3 => short(x / 1e3) + units[1],
            x => short(x) + units[0],
        }
    }

    /// The medians of a side, one for each case, or nothing where the side was not measured.
    fn medians(&self, cases: &[Costs], side: Side) -> String {
        let medians = cases.iter().filter_map(|c| c.of(side)).map(|s| self.cost(spread(s).median));
        medians.collect::<Vec<_>>().join(", ")
    }

    /// A case against its yardsticks: the goal's first.
    fn compared(&self, row: &Row, c: &Costs) -> [String; 3] {
        let (yardstick, said) = match row.goal {
            Goal::AtMost(_, side) => (Some(side), side.name().to_string()),
            Goal::AtMostEach(_, [a, b]) => (None, format!("the larger of {} and {}", a.name(), b.name())),
            Goal::Beyond(_, [side, once]) => (None, format!("{}, {} taken off", side.name(), once.name())),
            _ => (Some(Side::Gilrs), Side::Gilrs.name().to_string()),
        };
        let ratio = compared(row.goal, c).or_else(|| to(c, Side::Gilrs));
        let own = ratio.map(|s| format!("{} × {said}", with_quartiles(s)));
        let others = Side::ALL[1..].iter().filter(|s| Some(**s) != yardstick);
        let others = others.filter_map(|s| Some(format!("{} × {}", short(to(c, *s)?.median), s.name())));
        [c.label.clone(), own.unwrap_or_default(), others.collect::<Vec<_>>().join(", ")]
    }

    /// A family of cases, each against the one before.
    fn grown(&self, family: &[Costs]) -> [String; 3] {
        let sizes: Vec<&str> = family.iter().map(|c| &c.label[..]).collect();
        let case = [&family[0].family[..], &sizes.join(", ")].join(": ");
        let growths: Vec<String> = growths(family).into_iter().map(with_quartiles).collect();
        [case.trim_start_matches(": ").to_string(), growths.join(", "), String::new()]
    }
}

impl Report for Table {
    fn row(&mut self, row: &Row, costs: &[Costs]) {
        self.tally.count(verdict(row.goal, costs));
        let mut lines = judged(row.goal, costs);
        if self.worst_alone {
            let by = |cases: &&[Costs]| worst(row.goal, cases).unwrap_or_default();
            lines.sort_by(|a, b| by(b).total_cmp(&by(a)));
            lines.truncate(1);
        }
        for cases in lines {
            let [case, ratio, others] = match row.goal {
                Goal::Growth(_) => self.grown(cases),
                _ => self.compared(row, &cases[0]),
            };
            let (port, gilrs) = (self.medians(cases, Side::Port), self.medians(cases, Side::Gilrs));
            let (goal, verdict) = (goal_text(row.goal), verdict(row.goal, cases));
            println!(
                "| {} | {} | {case} | {port} | {gilrs} | {ratio} | {others} | {goal} | {verdict} |",
                row.name, row.title
            );
        }
    }

    fn end(&mut self) -> bool {
        let by = if self.instructions { ", by instruction counts" } else { "" };
        println!("\n{} goals met, {} missed{by}", self.tally.met, self.tally.missed);
        true
    }
}
