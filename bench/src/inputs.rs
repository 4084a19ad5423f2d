//! Inputs: mapping lists, pads and full stores.
use harness::book::{self, Key};
use harness::lent::Store;
use harness::plain::{Uuid, HALL};

pub const BUFFER: usize = 65535;
pub const RECORD: usize = 21;

/// The least index of a large store: its work area is a larger one.
pub const LARGE: usize = 65536;

/// A mapping list: the file's name and its text.
pub struct List {
    pub name: String,
    pub text: String,
}

pub fn lists(files: &[String]) -> Result<Vec<List>, String> {
    let read = |f: &String| {
        let bytes = std::fs::read(f).map_err(|e| format!("{f}: {e}"))?;
        let name = f.rsplit('/').next().unwrap_or(f).to_string();
        let text = String::from_utf8(bytes).map_err(|_| format!("{f} is not UTF-8"))?;
        Ok(List { name, text })
    };
    files.iter().map(read).collect()
}

/// The lines that are mappings: no comments, no empty lines.
pub fn mappings(text: &str) -> Vec<&str> {
    text.lines().filter(|l| !l.is_empty() && !l.starts_with('#')).collect()
}

/// The longest front of the text, in whole lines, that a fresh store holds.
pub fn fitting(text: &str) -> String {
    let (refusal, lines, _) = Store::fresh(BUFFER, BUFFER).insert(HALL, text.as_bytes());
    match refusal {
        None => text.to_string(),
        Some(_) => text.split_inclusive('\n').take(lines).collect(),
    }
}

/// Codes as a pad with many buttons has them.
pub fn buttons(n: u32) -> Vec<u32> {
    (0..n).map(|k| 0x10120 + k).collect()
}

pub fn axes(n: u32) -> Vec<u32> {
    (0..n).map(|k| 0x30000 + k).collect()
}

/// The index that the records of lines of that length take under these keys.
pub fn index_of(keys: &[Key], line: usize) -> usize {
    keys.iter().enumerate().map(|(k, key)| book::record(*key, line * k)).sum()
}

/// A store with a line of that length under each key, an owner and a UUID, in buffers of those lengths.
pub fn store(keys: &[Key], line: usize, index: usize, text: usize) -> Store {
    let mut s = Store { index: Vec::with_capacity(index), text: vec![0; text] };
    for (k, key) in keys.iter().enumerate() {
        book::put_record(&mut s.index, *key, line * k, line);
        for (i, b) in s.text[line * k..line * (k + 1)].iter_mut().enumerate() {
            *b = b"dpleft:h0.8,lefttrigger:b8,"[(i + k) % 27];
        }
    }
    s.index.resize(index, 0);
    s
}

/// So many lines that a store files, of the lists in turn, each under another UUID.
pub fn copies(lists: &[List], uuids: &[Uuid]) -> String {
    let wanted: Vec<&str> =
        lists.iter().flat_map(|l| l.text.lines()).filter(|l| book::wanted(l.as_bytes()).is_some()).collect();
    let rest = |l: &str| l.find(',').map_or(String::new(), |at| l[at..].to_string());
    let copy = |(u, l): (&Uuid, &&str)| format!("{}{}\n", oracle::simple(*u), rest(l));
    uuids.iter().zip(wanted.iter().cycle()).map(copy).collect()
}

/// A short line that a store files under the UUID.
pub fn short_line(u: &Uuid) -> String {
    format!("{},\n", oracle::simple(*u))
}
