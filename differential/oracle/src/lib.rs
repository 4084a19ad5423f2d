//! gilrs 0.11.2's mapping sources, unchanged, and calls to them on plain data with document 01's numbers.
//! differential/run lays the sources out under target/gilrs (and those of `mended` under target/gilrs-mended); they are
//! not part of this repository.
#![allow(dead_code)]
#[macro_use]
extern crate log;

#[path = "../../../target/gilrs/src/constants.rs"]
pub mod constants;
#[path = "../../../target/gilrs/src/ev/mod.rs"]
pub mod ev;
#[path = "../../../target/gilrs/src/mapping/mod.rs"]
pub mod mapping;
// `mapping` once more, with the one name mended that request P1 names: for `default` alone.
#[path = "../../../target/gilrs-mended/src/mapping/mod.rs"]
pub mod mended;
// `mapping` keeps its parser private: the same file once more, for the walker.
#[path = "../../../target/gilrs/src/mapping/parser.rs"]
pub mod parser;

// What the sources name of the modules that are not compared.
pub mod gamepad {
    #[derive(Copy, Clone, PartialEq, Debug)]
    pub struct GamepadId;
}
pub mod utils {
    pub fn time_now() -> std::time::SystemTime {
        std::time::SystemTime::UNIX_EPOCH
    }
}
pub use ev::{Axis, Button};

mod calls;
pub use calls::*;
