//! The report as one JSON value, printed at the end.
use crate::measure::{spread, Costs, Side, Spread};
use crate::report::{families, goal_text, growths, to, verdict, worst, Report, Tally};
use crate::rows::{Goal, Row};

pub struct Json {
    unit: &'static str,
    notes: Vec<String>,
    rows: Vec<String>,
    tally: Tally,
}

fn quoted(s: &str) -> String {
    format!("\"{}\"", s.replace('\\', "\\\\").replace('"', "\\\""))
}

fn list(items: impl Iterator<Item = String>) -> String {
    format!("[{}]", items.collect::<Vec<_>>().join(","))
}

fn object(fields: &[(&str, String)]) -> String {
    let fields: Vec<String> = fields.iter().map(|(k, v)| format!("{}:{v}", quoted(k))).collect();
    format!("{{{}}}", fields.join(","))
}

fn number(s: Spread) -> String {
    let names = ["median", "q1", "q3", "min", "max"];
    let values = [s.median, s.quartiles.0, s.quartiles.1, s.ends.0, s.ends.1];
    object(&names.into_iter().zip(values.map(|v| v.to_string())).collect::<Vec<_>>())
}

fn case(c: &Costs) -> String {
    let costs: Vec<(&str, String)> = c.sides.iter().map(|(s, x)| (s.name(), number(spread(x)))).collect();
    let ratios = Side::ALL[1..].iter().filter_map(|s| Some((s.name(), number(to(c, *s)?))));
    object(&[
        ("family", quoted(&c.family)),
        ("case", quoted(&c.label)),
        ("costs", object(&costs)),
        ("ratios", object(&ratios.collect::<Vec<_>>())),
    ])
}

impl Json {
    pub fn new(instructions: bool, notes: &[String]) -> Self {
        let unit = if instructions { "instructions" } else { "ns" };
        Json { unit, notes: notes.to_vec(), rows: Vec::new(), tally: Tally::default() }
    }
}

impl Report for Json {
    fn row(&mut self, row: &Row, costs: &[Costs]) {
        let verdict = verdict(row.goal, costs);
        self.tally.count(verdict);
        let growths: Vec<Spread> = match row.goal {
            Goal::Growth(_) => families(costs).into_iter().flat_map(growths).collect(),
            _ => Vec::new(),
        };
        self.rows.push(object(&[
            ("row", quoted(row.name)),
            ("work", quoted(row.title)),
            ("goal", quoted(&goal_text(row.goal))),
            ("verdict", quoted(verdict)),
            ("worst", worst(row.goal, costs).map_or("null".to_string(), |w| w.to_string())),
            ("growths", list(growths.into_iter().map(number))),
            ("cases", list(costs.iter().map(case))),
        ]));
    }

    fn end(&mut self) -> bool {
        let all = object(&[
            ("notes", list(self.notes.iter().map(|n| quoted(n)))),
            ("unit", quoted(self.unit)),
            ("rows", list(self.rows.drain(..))),
            ("met", self.tally.met.to_string()),
            ("missed", self.tally.missed.to_string()),
        ]);
        println!("{all}");
        true
    }
}
