//! An independent plain Rust implementation of the meter, generators of its inputs, and what compares two
//! implementations call by call.

pub mod archive;
pub mod boundary;
pub mod cases;
pub mod checker;
pub mod compare;
pub mod definition;
pub mod diff;
pub mod disorder;
pub mod follow;
pub mod fragments;
pub mod gaps;
pub mod generate;
pub mod meter;
pub mod needs;
pub mod receiver;
pub mod records;
pub mod reference;
pub mod rows;
pub mod shortlog;
pub mod shortnumbers;
pub mod summary;
pub mod sweep;
pub mod tables;
pub mod text;
pub mod time;
pub mod words;
pub mod worse;
