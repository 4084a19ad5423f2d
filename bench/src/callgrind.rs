//! Instruction counts: the program runs under `valgrind --tool=callgrind` and asks it, by valgrind's client requests,
//! to write what it has counted into a file.
use std::arch::asm;
use std::path::PathBuf;

// VG_USERREQ__ZERO_STATS and VG_USERREQ__DUMP_STATS of valgrind's callgrind.h
const TOOL: usize = (b'C' as usize) << 24 | (b'T' as usize) << 16;
const DUMP: usize = TOOL;
const ZERO: usize = TOOL + 1;

/// Valgrind's client request on x86-64; nothing happens outside valgrind.
#[inline(never)]
fn request(code: usize) {
    let arguments: [usize; 6] = [code, 0, 0, 0, 0, 0];
    unsafe {
        asm!(
            "rol rdi, 3", "rol rdi, 13", "rol rdi, 61", "rol rdi, 51", "xchg rbx, rbx",
            in("rax") &arguments, inout("rdx") 0usize => _, options(nostack)
        );
    }
}

/// Reads the files that callgrind writes: FILE.1, FILE.2 and so on.
pub struct Counter {
    pub file: PathBuf,
    pub dumps: usize,
}

impl Counter {
    pub fn start(&mut self) {
        request(ZERO);
    }

    /// Instructions since `start`.
    pub fn stop(&mut self) -> u64 {
        request(DUMP);
        self.dumps += 1;
        let file = format!("{}.{}", self.file.display(), self.dumps);
        let text = std::fs::read_to_string(&file).unwrap_or_else(|e| panic!("{file}: {e}; is this run by callgrind?"));
        let _ = std::fs::remove_file(&file);
        let total = text.lines().find_map(|l| l.strip_prefix("totals: ").or(l.strip_prefix("summary: ")));
        total.and_then(|n| n.trim().parse().ok()).unwrap_or_else(|| panic!("{file}: no total"))
    }
}
