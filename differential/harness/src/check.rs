//! The tally of the comparison: groups of calls, their cases, answers and differences.
use std::fmt::Debug;
use std::time::Instant;

#[derive(Clone, Copy, PartialEq, Eq)]
#[repr(usize)]
pub enum Group {
    Utf8,
    Uuid,
    Forms,
    Index,
    Writers,
    Elements,
    Keys,
    Walker,
    Reading,
    Map,
    MapRev,
    Regrouped,
    Puts,
    Default,
    East,
    Slots,
    Build,
    Insert,
    LookUp,
    Near,
    Save,
    Remove,
    Clear,
    Buffers,
    Walks,
    Apart,
    Shares,
    Values,
    Events,
    Pads,
    Reader,
    TwoPads,
}

pub const GROUPS: [(&str, &str); 32] = [
    ("utf8", "the longest valid run of UTF-8, with Rust's own reader"),
    ("uuid", "UUID texts, with the crate uuid"),
    ("forms", "how a UUID is spelled, by the reader and in the walker's first token (document 02, P11, alone)"),
    ("index", "index numbers, with Rust's own reader"),
    ("writers", "UUID and index writers, with Rust's own formatting"),
    ("elements", "to_nec, is_stick, is_dpad, second_axis, is_button, every number"),
    ("keys", "key names and idents"),
    ("walker", "Parser::next_token, token by token"),
    ("reading", "Mapping::parse_sdl_mapping: map, name, hats, refusal and place"),
    ("map", "Mapping::map"),
    ("map_rev", "Mapping::map_rev (the Rust's code is one of the element's, ours the least)"),
    ("regrouped", "a line's pairs in another order, no code being put with two unlike entries: its map (document 02, P8)"),
    ("puts", "puts, map and map_rev on maps of any content (document 01 alone)"),
    ("default", "Mapping::default, mended by request P1"),
    ("east", "Mapping::default as published: East in every map, and no other difference"),
    ("slots", "MappingData: button, axis, insert, remove"),
    ("build", "Mapping::from_data: line, map, refusal, carried code, output"),
    ("insert", "MappingDb::insert: count and refusal by the book"),
    ("look-up", "MappingDb::get, and the book"),
    ("near", "MappingDb::get twice, the second time without the UUID's checksum, and the book (document 02, P5)"),
    ("save", "from_data filed: map and refusal by the book"),
    ("remove", "a party's line taken out, by the book (gilrs and the documents have no such call)"),
    ("clear", "clear (document 01 alone)"),
    ("buffers", "both buffers after each call, byte by byte, by the book (document 01 alone)"),
    ("walks", "the records of a store and the lines of a text, one after the other (document 02, P9 to P12, alone)"),
    ("apart", "a party's look-ups, beside those after its own calls and the clears alone (document 02, P9, alone)"),
    ("shares", "a share is set; each party's share and use (document 02, P10, alone)"),
    ("values", "what every raw value gives to every kind of entry (document 02, P3, alone)"),
    ("events", "raw values of codes by maps of any content (document 02, P3, alone)"),
    ("pads", "a pad's raw events and changes of map: refusal, events, state and values (document 02, P13, alone)"),
    ("reader", "what an outside reader of a pad's events holds, beside the values worked out afresh (P13 alone)"),
    ("two-pads", "two pads for one player: refusal, events, state and values; all interleavings (document 02, P14, alone)"),
];

/// How many kinds of answer are told apart: 0 for an answer, else the refusal's number.
const ANSWERS: usize = 32;

#[derive(Clone, Copy, Default)]
pub struct Stage {
    pub cases: u64,
    pub rust: u64,
    pub differences: u64,
    pub answers: [u64; ANSWERS],
}

pub struct Tally {
    pub stages: [Stage; GROUPS.len()],
    pub panics: u64,
    pub start: Instant,
    said: u64,
}

/// Differences of one group that are printed.
const SHOWN: u64 = 3;

impl Tally {
    pub fn new() -> Self {
        Tally { stages: [Stage::default(); GROUPS.len()], panics: 0, start: Instant::now(), said: 0 }
    }

    /// One case: what the Rust answers (None: it has no answer, or not in document 01's domain), document 01 and the port.
    pub fn case<T: PartialEq + Debug>(
        &mut self, g: Group, number: u8, rust: Option<&T>, doc: &T, port: &T, input: &dyn Fn() -> String,
    ) {
        let s = &mut self.stages[g as usize];
        s.cases += 1;
        s.rust += rust.is_some() as u64;
        s.answers[number as usize % ANSWERS] += 1;
        if rust.map_or(true, |r| r == port) && doc == port {
            return;
        }
        s.differences += 1;
        if s.differences <= SHOWN {
            println!("DIFFERENCE in {} at {}", GROUPS[g as usize].0, cut(input()));
            match rust {
                Some(r) => println!("  the Rust     {}", cut(format!("{r:x?}"))),
                None => println!("  the Rust     no answer, or outside its domain"),
            }
            println!("  document 01  {}\n  here         {}", cut(format!("{doc:x?}")), cut(format!("{port:x?}")));
        }
    }

    /// A panic of the Rust within its domain.
    pub fn panic(&mut self, input: &dyn Fn() -> String) {
        self.panics += 1;
        if self.panics <= SHOWN {
            println!("PANIC of the Rust at {}", input());
        }
    }

    pub fn cases(&self) -> u64 {
        self.stages.iter().map(|s| s.cases).sum()
    }

    pub fn differences(&self) -> u64 {
        self.stages.iter().map(|s| s.differences).sum()
    }

    /// Groups without a difference, and the others; a group that had no case is no pass. Panics count as one more.
    pub fn groups(&self) -> (usize, usize) {
        let passed = self.stages.iter().filter(|s| s.cases > 0 && s.differences == 0).count();
        (passed, GROUPS.len() - passed + (self.panics > 0) as usize)
    }

    /// A line of progress at most each five seconds, or at once.
    pub fn progress(&mut self, what: &str, now: bool) {
        let s = self.start.elapsed().as_secs();
        if now || s >= self.said + 5 {
            self.said = s;
            println!("{s:>4} s  {:>10} cases, {} differences  {what}", self.cases(), self.differences());
        }
    }

    /// A line for each group, with its answers by number.
    pub fn table(&self) {
        println!("{:<9} {:>10} {:>10} {:>6}  answers by refusal number (0: none)", "group", "cases", "with Rust", "diff");
        for (s, (name, _)) in self.stages.iter().zip(GROUPS) {
            let seen = s.answers.iter().enumerate().filter(|a| *a.1 > 0);
            let seen: Vec<String> = seen.map(|(k, n)| format!("{k}: {n}")).collect();
            println!("{name:<9} {:>10} {:>10} {:>6}  {}", s.cases, s.rust, s.differences, seen.join(", "));
        }
    }
}

/// A report's text, of which the first 2000 characters are enough.
fn cut(s: String) -> String {
    match s.char_indices().nth(2000) {
        Some((i, _)) => format!("{}.. ({} bytes)", &s[..i], s.len()),
        None => s,
    }
}

/// A text for a report: as it is where it is plain, else with escapes.
pub fn shown(s: &[u8]) -> String {
    let text: String = s.iter().flat_map(|b| std::ascii::escape_default(*b)).map(char::from).collect();
    if text.len() > 600 { format!("\"{}..\" ({} bytes)", &text[..600], s.len()) } else { format!("\"{text}\"") }
}
