//! The papers' own examples, questions and boundaries, asked of the reference.

mod amounts;
mod boundaries;
mod card;
mod extra;
mod fees;
mod file_questions;
mod helpers;
mod lists;
mod refusals;
mod report;
mod sheet;
mod spellings;
mod store;
mod zs1;
