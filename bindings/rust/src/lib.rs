//! Mapping lines, maps and the line store of the hub.
//!
//! The calls are those of a library in which every function is proved: each takes every input, ends, and answers what
//! its definition says (the repository's docs/CALLS.md lists them). This crate makes them safe to call and gives the
//! answers Rust types. It has no dependencies; `build.rs` links the library, `libexports.a`.
//!
//! A pad is known by its [`Uuid`]. What its kernel driver reports are event [`Code`]s; a [`Mapping`] turns a code
//! into a named element, an [`AxisOrBtn`]. A mapping is read from a line by the lists of the pad's button and axis
//! codes. A [`Store`] holds lines under their UUIDs, the hall's and those of league organisers ([`Party`]);
//! [`MappingData`] is what staff have bound, and a save makes a line of it. A [`StoreFile`] is the file of a hub's store.
//!
//! ```
//! use raspteal::{AxisOrBtn, Button, Code, MappingData, Store, Uuid};
//!
//! let pad: Uuid = "03000000de280000ff11000001000000".parse()?;
//! let (buttons, axes) = ([Code(0x10130), Code(0x10131)], [Code(0x30000)]);
//!
//! let mut bound = MappingData::new();
//! bound.insert_btn(Code(0x10131), Button::South);
//!
//! let mut store = Store::new(21 * 100, 65535);
//! let saved = store.save(&bound, &buttons, &axes, "Pad of seat 7", pad)?;
//!
//! let found = store.mapping(pad, &buttons, &axes)?.expect("it was saved");
//! assert_eq!(found, saved);
//! assert_eq!(found.map(Code(0x10131)), Some(AxisOrBtn::Btn(Button::South)));
//! # Ok::<(), Box<dyn std::error::Error>>(())
//! ```
#![deny(unsafe_code, missing_docs)]
#![forbid(unsafe_op_in_unsafe_fn)]

mod data;
mod element;
mod error;
#[doc(hidden)]
pub mod ffi;
mod file;
mod mapping;
mod pad;
mod parser;
mod party;
mod stack;
mod store;
pub mod text;
mod uuid;
mod walk;

pub use data::{Built, MappingData};
pub use element::{Axis, AxisOrBtn, Button, Code};
pub use error::{Error, InsertError, ParseUuidError};
pub use file::StoreFile;
pub use mapping::{Entry, Iter, Lookup, Mapping};
pub use pad::{Event, Events, Pad, Pads, Raw, Which};
pub use parser::{count_tokens, first_form, AxisRange, Parser, Token};
pub use party::{By, Party};
pub use store::{Inserted, Match, Share, Store};
pub use uuid::{Form, Uuid};
pub use walk::{HeldLine, HeldLines};

/// The codes that a map may have.
pub const CODES_MAX: usize = ffi::CODES_MAX;
/// The codes that a list of buttons or axes may have.
pub const LIST_MAX: usize = ffi::LIST_MAX;
/// The bytes that a name may have.
pub const NAME_MAX: usize = ffi::NAME_MAX;
/// The bytes that a stored line may have.
pub const LINE_MAX: usize = ffi::LINE_MAX;
/// The bytes that an index may have.
pub const INDEX_MAX: usize = ffi::INDEX_MAX;
/// The bytes that a text may have.
pub const TEXT_MAX: usize = ffi::TEXT_MAX;
/// The bytes of an index whose calls run on the caller's stack, and of both buffers of a hub's smaller store file.
pub const SMALL_MAX: usize = ffi::SMALL_MAX;
/// The key codes in the table of buttons.
pub const KEYS: usize = ffi::KEYS;
/// The first key code of the table.
pub const KEY_FIRST: Code = Code(0x10100);
/// The codes that a pad holds.
pub const HELD_MAX: usize = ffi::HELD_MAX;
/// The bytes of the index that a line of the hall takes, within the first 65535 bytes of the text.
pub const RECORD_LEN: usize = 21;
/// The bytes of the index that an organiser's line takes there.
pub const ORGANISER_RECORD_LEN: usize = 22;
/// The bytes of the index that a party's share takes, up to 65535.
pub const SHARE_RECORD_LEN: usize = 4;
/// The bytes more that a line takes beyond the first 65535 bytes of the text, and a share over 65535.
pub const LONG_LEN: usize = 2;
