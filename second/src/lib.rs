//! A second, independent program for the ARINC 429 channel module.
//!
//! The module is written twice: as a model (`model`) and on lent words (`words`). Random call lists
//! (`lists`) run through both, and `compare` tells the first difference. Readings of a word by a label list
//! (`readings`), capture files (`captures`), reasons why a word was not there (`why`) and verdicts on bench cards (`judge`) have a
//! comparison of their own.

pub mod calls;
pub mod capture_programs;
pub mod captures;
pub mod compare;
pub mod compare_captures;
pub mod compare_cards;
pub mod compare_readings;
pub mod compare_reasons;
pub mod engine;
pub mod judge;
pub mod layout;
pub mod ledger;
pub mod lists;
pub mod model;
pub mod ops;
pub mod program;
#[cfg(feature = "proved")]
pub mod proved;
#[cfg(feature = "proved")]
pub mod proved_captures;
#[cfg(feature = "proved")]
pub mod proved_readings;
pub mod random_captures;
pub mod random_cards;
pub mod random_questions;
pub mod reading;
pub mod readings;
mod register_words;
pub mod registers;
pub mod spacing;
pub mod why;
pub mod words;
pub mod writes;
