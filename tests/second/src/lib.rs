//! A second implementation of document 01, to hold the library against.
//!
//! It is written from the document alone and takes another way wherever there is one:
//!
//! | part | the library's way | the way here |
//! |---|---|---|
//! | values | sums of logarithms, or folded products | products, reduced one by one |
//! | inverse | a power by squaring | Euclid's steps on whole numbers |
//! | message | a bit position over bytes | a text of the characters 0 and 1 |
//! | reconcile | elimination, then a greatest common divisor | trying every pair where that is little work, else rational reconstruction at the inverted points |
//! | roots | root squaring and descent | a table of differences, by additions |
//!
//! The modulus is a parameter throughout, so that the document's case 14 (modulus 97) and exhaustive searches in small fields run through the same code.

pub mod difference;
pub mod entries;
pub mod field;
pub mod fraction;
pub mod message;
pub mod polynomial;
pub mod random;
pub mod reconcile;
pub mod refusal;
pub mod report;
pub mod search;
pub mod setting;
pub mod sketch;
