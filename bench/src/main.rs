//! Measures the proved library and gilrs in one process, in turn. bench/run starts it and says what it needs.
mod callgrind;
mod clock;
mod here;
mod hold;
mod inputs;
mod json;
mod large;
mod measure;
mod pads;
mod passes;
mod report;
mod rows;
mod rust;
mod table;
mod uuids;

use harness::lent::with_room;
use measure::{measure, How};
use report::Report;
use rows::Row;
use std::time::Duration;

#[derive(Default)]
struct Options {
    rounds: usize,
    seconds: f64,
    rows: Vec<String>,
    callgrind: Option<String>,
    json: bool,
    worst: bool,
    hold: Option<f64>,
    notes: Vec<String>,
    files: Vec<String>,
}

fn number<T: std::str::FromStr>(s: String) -> Result<T, String> {
    s.parse().map_err(|_| format!("{s} is no number"))
}

/// The options, as bench/run passes them.
fn options() -> Result<Options, String> {
    let mut o = Options { rounds: 15, seconds: 60.0, ..Options::default() };
    let mut args = std::env::args().skip(1);
    while let Some(a) = args.next() {
        let mut value = || args.next().ok_or(format!("{a} wants a value"));
        match a.as_str() {
            "--rounds" => o.rounds = number(value()?)?,
            "--seconds" => o.seconds = number(value()?)?,
            "--rows" => o.rows = value()?.split(',').map(str::to_string).collect(),
            "--callgrind" => o.callgrind = Some(value()?),
            "--hold" => o.hold = Some(number(value()?)?),
            "--note" => o.notes.push(value()?),
            "--json" => o.json = true,
            "--worst" => o.worst = true,
            _ => o.files.push(a),
        }
    }
    let names: Vec<&str> = rows::all().iter().map(|r| r.name).collect();
    match o.rows.iter().find(|name| !names.contains(&name.as_str())) {
        Some(name) => Err(format!("no row {name}; the rows are {}", names.join(", "))),
        None => Ok(o),
    }
}

fn report(o: &Options) -> Box<dyn Report> {
    let instructions = o.callgrind.is_some();
    let mut notes = o.notes.clone();
    notes.push(if instructions {
        "instructions of a call, counted by callgrind".to_string()
    } else {
        format!("processor time of a call, medians of {} rounds; ratios of each round, median and quartiles", o.rounds)
    });
    match o.hold {
        Some(most) => Box::new(hold::Hold::new(most)),
        None if o.json => Box::new(json::Json::new(instructions, &notes)),
        None => {
            table::start(&notes);
            Box::new(table::Table { instructions, worst_alone: o.worst, tally: Default::default() })
        }
    }
}

/// Whether all is well.
fn run(o: Options) -> Result<bool, String> {
    let lists = inputs::lists(&o.files)?;
    let asked = |r: &Row| o.rows.is_empty() || o.rows.iter().any(|n| n == r.name);
    let rows: Vec<Row> = rows::all().into_iter().filter(asked).collect();
    let mut how = match &o.callgrind {
        Some(file) => How::Instructions(callgrind::Counter { file: file.into(), dumps: 0 }),
        None => How::Time { rounds: o.rounds.max(1), budget: Duration::from_secs_f64(o.seconds / rows.len() as f64) },
    };
    let mut report = report(&o);
    for (k, row) in rows.iter().enumerate() {
        eprintln!("row {} of {}: {}", k + 1, rows.len(), row.name);
        report.row(row, &measure(&mut (row.cases)(&lists), &mut how));
    }
    Ok(report.end())
}

fn main() {
    match with_room(|| options().and_then(run)) {
        Ok(well) => std::process::exit(!well as i32),
        Err(message) => {
            eprintln!("{message}");
            std::process::exit(2);
        }
    }
}
