//! The yardsticks: plain passes over the bytes of a store, compiled with the options of everything else here.
use crate::measure::Work;
use harness::lent::Store;
use std::hint::black_box;
use std::rc::Rc;

/// The sum of the bytes in 64 bits, as the compiler makes it: rustc 1.95 adds one byte at a time, eight in a turn of
/// the loop, and uses no vector instructions.
#[inline(never)]
fn sum(bytes: &[u8]) -> u64 {
    bytes.iter().map(|b| *b as u64).sum()
}

/// Passes in one go: a single copy is short beside a reading of the clock.
const PASSES: usize = 8;

/// Summing passes over both buffers, one store after the other.
pub struct SumPass(pub Rc<Vec<Store>>);

impl Work for SumPass {
    fn calls(&self) -> usize {
        PASSES
    }
    fn go(&mut self) {
        for s in self.0.iter().cycle().take(PASSES) {
            let s = black_box(s);
            black_box(sum(&s.index) + sum(&s.text));
        }
    }
}

/// Copies of both buffers, one store after the other.
pub struct CopyPass {
    from: Rc<Vec<Store>>,
    to: Store,
}

impl CopyPass {
    pub fn of(from: Rc<Vec<Store>>) -> Self {
        CopyPass { to: from[0].clone(), from }
    }
}

impl Work for CopyPass {
    fn calls(&self) -> usize {
        PASSES
    }
    fn go(&mut self) {
        for from in self.from.iter().cycle().take(PASSES) {
            let from = black_box(from);
            self.to.index.copy_from_slice(&from.index);
            self.to.text.copy_from_slice(&from.text);
            black_box(&self.to);
        }
    }
}
