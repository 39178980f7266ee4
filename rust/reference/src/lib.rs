//! A plain reference implementation of the settlement book for EPE shipments.
//!
//! Written from document 01 (the law), document 02 (its changes, of which A1 to
//! A7 are in), document 00 (the demands), the decided readings and source
//! document 003 sections 3, 5.1, 5.3.3.1, 5.4.3.1 and 6; from nothing else. It is
//! meant to be read beside document 01: every question carries that document's
//! words and number, in that document's order. Words of document 02 are marked as
//! such.
//!
//! - [`calendar`]: real dates and differences in days.
//! - [`text`]: digits, letters, amounts, sums, identifiers.
//! - [`name`]: the file's name and the transfer's title.
//! - [`fee`]: an order's fee and the division's remainder.
//! - [`total`]: the amount that makes a total with its fee.
//! - [`file`](mod@file): the profile and the questions a file is asked.
//! - [`extra`]: the extra address field judged early, and a record around it.
//! - [`book`]: the book as plain values, its calls and their answers.
//! - [`sheet`]: the balance sheet of a book.
//! - [`report`]: the report files RKF and OPE.
//! - [`store`]: a book's stored bytes.

pub mod book;
pub mod calendar;
pub mod extra;
pub mod fee;
pub mod file;
pub mod name;
mod output;
pub mod report;
pub mod sheet;
pub mod store;
pub mod text;
pub mod total;

pub use book::{Answer, Book, Call, Money, Route, Row, Shipment, Stage, State, Waits};
pub use extra::{judge_around, judge_extra, ExtraSaid};
pub use fee::{Fee, Tariff};
pub use file::{judge, read_file, Order, OrderFile, Profile};
pub use name::{read_name, read_title, Name};
pub use report::{rkf, rkf_into};
pub use sheet::{SheetRow, Sums};
pub use text::{write_money, write_money_into};
pub use total::amount_for;

/// "An order's amount is 1 to 999,999,999"; a fee is 0 to the same.
pub const MOST_AMOUNT: u64 = 999_999_999;

/// "a rate, 0 to 10,000, in ten-thousandths" (document 02)
pub const MOST_RATE: u64 = 10_000;

/// "a sum's [...] reads at most 9,999,999,999,999"; a transfer and a total of
/// transfers have the same cap.
pub const MOST_SUM: u64 = 9_999_999_999_999;

/// "After adding, no total above 999,999,999,999,999?"
pub const MOST_TOTAL: u64 = 999_999_999_999_999;

/// "Fewer than 32 shipments in the book?"
pub const MOST_SHIPMENTS: usize = 32;

/// "Its orders fit with those present in 2,048 rows?"
pub const MOST_ROWS: usize = 2_048;

/// The bytes of memory that a book takes: the library's, in no paper.
pub const BOOK_BYTES: usize = 24_704;
