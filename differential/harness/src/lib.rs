//! Shared by the programs of the comparison.
pub mod book;
pub mod check;
pub mod compare;
pub mod doc01;
pub mod doc02;
pub mod far;
pub mod filed;
pub mod games;
pub mod gen;
pub mod largest;
pub mod lent;
pub mod near;
pub mod owners;
pub mod pads;
pub mod plain;
pub mod port;
pub mod stores;

pub use raspteal::ffi;
