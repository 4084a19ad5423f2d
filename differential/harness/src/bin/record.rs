//! A fixed list of gilrs's answers, for crates/replay, which replays it with no Rust at hand. Arguments: the folder to
//! write, and corpus files. Each answer is also document 01's: where the two differ, this stops.
use harness::gen::{self, Rng};
use harness::plain::{placed, Map, Ranges, Refusal, Tok, AXIS, FULL, HALL};
use harness::{book, doc01, plain};
use std::fmt::Write;

/// A file holds at most this many bytes.
const ROOM: usize = 65536;

/// The lines that are drawn for readings, however long their answers are, so that the lists after them stay the same.
const READINGS: usize = 822;

/// Lists of crates/replay: for lines, and for builds.
fn buttons() -> Vec<u32> {
    (0..32).map(|k| 0x10130 + k).collect()
}
fn axes() -> Vec<u32> {
    (0..16).map(|k| 0x30000 + k).collect()
}
const BUILD_BUTTONS: [u32; 24] = [
    100, 101, 102, 101, 103, 104, 100, 105, 106, 107, 108, 109, 110, 111, 112, 113, 114, 115, 116, 117, 118, 119, 120, 200,
];
const BUILD_AXES: [u32; 12] = [200, 201, 200, 202, 203, 204, 205, 206, 207, 208, 100, 209];

struct List {
    text: String,
    cases: usize,
}

impl List {
    fn new(what: &str) -> Self {
        let made = "# Made by differential/record from gilrs 0.11.2 as published, over Debian's crates; it writes the same bytes again.";
        List { text: format!("# {what}\n{made}\n"), cases: 0 }
    }
    /// False: the file is full.
    fn case(&mut self, line: &str) -> bool {
        assert!(!line.contains('\n'));
        if self.text.len() + line.len() + 1 > ROOM {
            return false;
        }
        self.text += line;
        self.text.push('\n');
        self.cases += 1;
        true
    }
    fn write(self, folder: &str, name: &str) {
        std::fs::write(format!("{folder}/{name}"), &self.text).unwrap();
        println!("{name}: {} cases, {} bytes", self.cases, self.text.len());
    }
}

fn element(e: u16) -> String {
    if e >= AXIS { format!("a{}", e - AXIS) } else { format!("b{e}") }
}

fn half(r: u8) -> &'static str {
    ["L", "U", "F"][r as usize]
}

fn halves((input, output, inverted): Ranges) -> String {
    format!("{}{}{}", half(input), half(output), if inverted { "~" } else { "" })
}

fn map(m: &Map) -> String {
    let mut s = format!("{}+{};{};", m.name_start, m.name_len, m.hats);
    for (c, e, r) in &m.entries {
        let ranges = if *r == FULL { String::new() } else { halves(*r) };
        write!(s, "{c:x}={}{ranges},", element(*e)).unwrap();
    }
    if m.default {
        s.push('d');
    }
    s
}

fn refusal(r: &Refusal) -> String {
    let place = r.place.map_or(String::new(), |p| format!("@{p}"));
    let code = r.code.map_or(String::new(), |c| format!(":{c}"));
    format!("!{}{place}{code}", r.number)
}

fn token(t: &Tok) -> String {
    match t {
        Tok::End => "E".into(),
        Tok::Refused(r) => refusal(r),
        Tok::Uuid(u) => format!("U{}", oracle::simple(*u)),
        Tok::Platform { start, len } => format!("P{start}+{len}"),
        Tok::Name { start, len } => format!("N{start}+{len}"),
        Tok::Axis { from, to, input, output, inverted } => {
            format!("A{from}>{}{}", element(*to), halves((*input, *output, *inverted)))
        }
        Tok::Button { from, to, output } => format!("B{from}>{}F{}", element(*to), half(*output)),
        Tok::Hat { hat, direction, to, output } => format!("H{hat}.{direction}>{}F{}", element(*to), half(*output)),
    }
}

/// A line around the grammar without LF: mostly short, so that the list has many.
fn short_line(r: &mut Rng) -> String {
    let most = if r.one_in(12) { 400 } else { 80 };
    loop {
        let l = gen::line(r);
        if !l.contains('\n') && l.len() <= most {
            return l;
        }
    }
}

fn read_case(l: &str) -> String {
    let (b, a) = (buttons(), axes());
    let rust = oracle::read(l, &b, &a).map(|m| plain::read(m, l, &b, &a)).map_err(Refusal::from);
    assert_eq!(rust, doc01::read(l.as_bytes(), &b, &a), "{l}");
    format!("read {} {l}", rust.map_or_else(|e| refusal(&e), |m| map(&m)))
}

/// As many steps as there are fields, and one more: 9 after 1 and 2, the end otherwise.
fn walk_case(l: &str) -> String {
    let steps = l.matches(',').count() + 2;
    let mut doc = doc01::Walker::new(l.as_bytes());
    let mut s = String::new();
    for t in oracle::walk(l, steps).into_iter().map(Tok::from) {
        assert_eq!(t, doc.step(), "{l}");
        s += &token(&t);
        s.push('/');
    }
    format!("walk {s} {l}")
}

fn build_case(r: &mut Rng) -> String {
    let mut rust = oracle::Slots::new();
    let mut doc = std::collections::BTreeMap::new();
    let mut slots = String::new();
    let most = if r.one_in(12) { 26 } else { 6 };
    for _ in 0..r.below(most) {
        let e = if r.one_in(2) { 1 + r.below(19) as u16 } else { AXIS + 1 + r.below(6) as u16 };
        let e = if r.one_in(40) { e & AXIS } else { e };
        let list: &[u32] = if e >= AXIS { &BUILD_AXES } else { &BUILD_BUTTONS };
        let code = if r.one_in(30) { 300 + r.below(9) as u32 } else { r.pick(list) };
        rust.insert(e, code);
        doc.insert(e, code);
        write!(slots, "{}={code},", element(e)).unwrap();
    }
    let name = r.pick(&["Pad", "", "Größe", "a:b1", "Pad,Two", "𝄞", "xinput", "x-y_z"]);
    let mut id = [0; 16];
    id.iter_mut().for_each(|b| *b = r.next() as u8);
    let built = oracle::build(&rust, &BUILD_BUTTONS, &BUILD_AXES, name, id);
    let built = built.map(|(m, l)| (placed(m, l.as_bytes()), l.into_bytes())).map_err(Refusal::from);
    let doc = doc.into_iter().collect();
    assert_eq!(built, doc01::build(&doc, &BUILD_BUTTONS, &BUILD_AXES, name.as_bytes(), id));
    let answer = match built {
        Ok((m, l)) => format!("{}:{}", map(&m), String::from_utf8(l).unwrap()),
        Err(e) => refusal(&e),
    };
    format!("build {answer} {} {slots} {name}", oracle::simple(id))
}

/// A history: clear, inserts, then each UUID that was named. None where the program's store is too small for it.
fn history(r: &mut Rng, corpus: &[&str]) -> Option<Vec<String>> {
    let mut db = oracle::Db::new();
    let mut book = book::Book::new(2100, 16384);
    let mut cases = vec!["clear".to_string()];
    let mut ids = vec![[0; 16], [0xee; 16]];
    for _ in 0..1 + r.below(4) {
        let mut text = String::new();
        for _ in 0..r.below(6) {
            text += &if r.one_in(16) { r.pick(corpus).to_string() } else { short_line(r) };
            text.push_str(r.pick(&["\n", "\n", "\r\n", "\r\r\n", "\r", "\n\n", ""]));
        }
        let (refused, _, _) = book.insert(HALL, text.as_bytes());
        if refused.is_some() || text.contains('|') || text.len() > 8192 {
            return None;
        }
        db.insert(&text);
        ids.extend(book.lines.iter().map(|l| l.0 .1));
        cases.push(format!("insert {}", text.replace('\n', "|")));
    }
    ids.sort();
    ids.dedup();
    assert_eq!(db.len(), book.lines.len());
    for id in ids {
        assert_eq!(Ok(db.get(id).map(|s| s.as_bytes().to_vec())), book.get(HALL, id));
        cases.push(match db.get(id) {
            Some(l) => format!("get {} {l}", oracle::simple(id)),
            None => format!("none {}", oracle::simple(id)),
        });
    }
    Some(cases)
}

fn main() {
    let args: Vec<String> = std::env::args().skip(1).collect();
    let folder = &args[0];
    let corpus: Vec<String> = args[1..].iter().map(|f| std::fs::read_to_string(f).unwrap()).collect();
    let lines: Vec<&str> = corpus.iter().flat_map(|c| c.lines()).collect();

    let mut list = List::new("Real lines (SDL_GameControllerDB), every eighth: `read ANSWER LINE`.");
    let _ = lines.iter().step_by(8).all(|l| list.case(&read_case(l)));
    list.write(folder, "corpus.txt");

    let mut r = Rng::new(1);
    let mut list = List::new("Lines around the grammar: `walk ANSWERS LINE`.");
    while list.case(&walk_case(&short_line(&mut r))) {}
    list.write(folder, "walks.txt");

    let mut list = List::new(
        "Lines around the grammar: `read ANSWER LINE`; default maps, mended by request P1: `default ANSWER BUTTONS`.",
    );
    for n in 0..=32 {
        let d = placed(oracle::default(&buttons()[..n], &axes()), b"");
        assert_eq!(Ok(&d), doc01::default(&buttons()[..n], &axes()).as_ref());
        list.case(&format!("default {} {n}", map(&d)));
    }
    for _ in 0..READINGS {
        list.case(&read_case(&short_line(&mut r)));
    }
    list.write(folder, "readings.txt");

    let mut list = List::new("Builds: `build ANSWER UUID SLOTS NAME`.");
    while list.case(&build_case(&mut r)) {}
    list.write(folder, "builds.txt");

    let mut list = List::new("Store histories: `clear`, `insert TEXT` (| is LF), `get UUID LINE`, `none UUID`.");
    loop {
        let Some(cases) = history(&mut r, &lines) else { continue };
        if !cases.iter().all(|c| list.case(c)) {
            break;
        }
    }
    list.write(folder, "stores.txt");
}
