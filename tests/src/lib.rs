//! Tests of the library through its C boundary, against an independent
//! implementation written from documents 01 and 02.

pub mod cases;
pub mod check;
pub mod expect;
pub mod frames;
pub mod hard;
pub mod library;
pub mod lists;
pub mod masks;
pub mod operations;
pub mod random;
pub mod reference;
pub mod rolling;
pub mod shares;
pub mod tally;
