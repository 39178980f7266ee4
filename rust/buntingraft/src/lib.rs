//! Safe bindings of libbuntingraft.a, the settlement book for EPE shipments.
//!
//! The insurer sends an order file for a shipment and two bank transfers: one
//! for the orders' amounts, called K, and one for the contractor's fees, called
//! O. A shipment begins Waiting. When both transfers cover what it needs it is
//! Paired, and its orders can be posted, paid, marked undelivered or withdrawn;
//! or it is Closed instead. What is not paid out goes back to the insurer by a
//! return. Where all of it is, the balance sheet says ([`Book::sheet`]).
//!
//! A [`Book`] lives in plain bytes: its own, or memory that is lent to it.
//! Every call answers for every input, with a result or with a [`Refusal`], and
//! a refusal leaves every byte as it was. What each call does, and each
//! question that it asks, is said in include/buntingraft.h; the library behind
//! it is proved to do what the book of document 01 does.
//!
//! # An order file from intake to its sheet
//!
//! ```
//! use buntingraft::{Accepted, Amount, Book, Fee, Money, Pairing, Profile, Route};
//!
//! let name = b"EPEZZS1-201007-A-0";
//! let file = "\u{FEFF}1|ZUS|EPE|1.0|ZS1|ABC123|20201007120000|20201007|A|0|3|175.50\r\n\
//!     2|1|100.00|Nowak|Jan|Łódź|90-001|Łódź|Żwirki|7A||||ZASIŁEK|2020-10||||\r\n\
//!     2|2|50.00||Łucja|Łódź|90-001|Łódź|Żwirki|7A||||ZASIŁEK|2020-10||||\r\n\
//!     2|3|25.50|Lis|Ewa|Łódź|90-001|Łódź|Żwirki|7A||||ZASIŁEK|2020-10||||\r\n";
//! let profile = Profile { today: 20_201_007, flat: [350; 5], fields: 19, rates: [0; 5] };
//!
//! let mut book = Book::empty();
//! let accepted = book.intake(&profile, name, file.as_bytes())?;
//! assert_eq!(accepted, Accepted { orders: 3, faulty: 1 }); // the second has no surname
//!
//! book.transfer(b"EPEZZS1-201007-A-0-K", 17_549)?;
//! book.transfer(b"EPEZZS1-201007-A-0-O", 1_050)?;
//! let refusal = book.pair(b"ZS1").unwrap_err();
//! assert_eq!(refusal.to_string(), "refused with 18: Has it no faulty order, or a go-ahead?");
//!
//! book.go_ahead(b"ZS1")?;
//! assert_eq!(book.pair(b"ZS1")?, Pairing::Short { k: Amount(1), o: Fee(0) });
//! book.transfer(b"EPEZZS1-201007-A-0-K", 101)?;
//! assert_eq!(book.pair(b"ZS1")?, Pairing::Paired);
//!
//! assert_eq!(book.give_back(b"ZS1", Route::Zwr, Money::K)?.sum, 100); // the surplus
//! assert_eq!(book.give_back(b"ZS1", Route::Opr, Money::K)?.sum, 5_000); // the faulty order
//! assert_eq!(book.give_back(b"ZS1", Route::Opr, Money::O)?.sum, 350);
//! assert_eq!(book.post(b"ZS1", 1)?, Fee(350));
//! assert_eq!(book.pay(b"ZS1", 1)?, Amount(10_000));
//! book.withdraw(b"ZS1", 3)?;
//! assert_eq!(book.give_back(b"ZS1", Route::Zzr, Money::K)?.sum, 2_550);
//! assert_eq!(book.give_back(b"ZS1", Route::Zzr, Money::O)?.sum, 350);
//!
//! assert_eq!(
//!     book.sheet()?.to_string(),
//!     "\
//! shipment  K accepted  K held  K free  K left  O accepted  O held  O free  O left
//! ZS1           176.50    0.00    0.00  176.50       10.50    0.00    0.00   10.50
//! in all        176.50    0.00    0.00  176.50       10.50    0.00    0.00   10.50"
//! );
//! # Ok::<(), buntingraft::Refusal>(())
//! ```
//!
//! # Fees with a rate
//!
//! An order's fee is a flat part and, where the profile has a rate, so many
//! ten-thousandths of its amount, in whole grosze. Each order earns and returns
//! its own.
//!
//! ```
//! use buntingraft::{Amount, Book, Fee, Pairing, Profile};
//!
//! let file = "\u{FEFF}1|ZUS|EPE|1.0|ZS1|ABC123|20201007120000|20201007|A|0|2|150.01\r\n\
//!     2|1|100.01|Nowak|Jan|Łódź|90-001|Łódź|Żwirki|7A||||ZASIŁEK|2020-10||||\r\n\
//!     2|2|50.00|Lis|Ewa|Łódź|90-001|Łódź|Żwirki|7A||||ZASIŁEK|2020-10||||\r\n";
//! let profile = Profile { today: 20_201_007, flat: [350; 5], fields: 19, rates: [125; 5] };
//!
//! let mut book = Book::empty();
//! book.intake(&profile, b"EPEZZS1-201007-A-0", file.as_bytes())?;
//! book.transfer(b"EPEZZS1-201007-A-0-K", 15_001)?;
//! let needed = Fee(350 + 125 + 350 + 62); // 1.25 % of 100.01 and of 50.00
//! assert_eq!(book.pair(b"ZS1")?, Pairing::Short { k: Amount(0), o: needed });
//!
//! book.transfer(b"EPEZZS1-201007-A-0-O", needed.0)?;
//! assert_eq!(book.pair(b"ZS1")?, Pairing::Paired);
//! assert_eq!(book.post(b"ZS1", 1)?, Fee(475));
//! assert_eq!(book.post(b"ZS1", 2)?, Fee(412));
//! # Ok::<(), buntingraft::Refusal>(())
//! ```
//!
//! # The reports on an order file
//!
//! The insurer takes the verdict on its file as a file: an RKF says whether it
//! was accepted, an OPE which of its orders are faulty.
//!
//! ```
//! use buntingraft::{write_rkf, Book, Profile};
//!
//! let file = "\u{FEFF}1|ZUS|EPE|1.0|ZS1|ABC123|20201007120000|20201007|A|0|2|150.00\r\n\
//!     2|1|100.00|Nowak|Jan|Łódź|90-001|Łódź|Żwirki|7A||||ZASIŁEK|2020-10||||\r\n\
//!     2|2|50.00||Łucja|Łódź|90-001|Łódź|Żwirki|7A||||ZASIŁEK|2020-10||||\r\n";
//! let profile = Profile { today: 20_201_007, flat: [350; 5], fields: 19, rates: [0; 5] };
//!
//! let mut book = Book::empty();
//! let taken_in = book.intake(&profile, b"EPEZZS1-201007-A-0", file.as_bytes());
//! let refusal = taken_in.map_or_else(|refusal| refusal.number(), |_| 0);
//! let rkf = write_rkf(b"PP0000000001", 20_201_007_130_000, b"ZS1", refusal)?;
//! assert_eq!(rkf, "\u{FEFF}1|PP|RKF|1.0|PP0000000001|20201007130000|EPE|ZS1|1".as_bytes());
//!
//! let codes = [308, 309, 310, 311, 312, 313, 314, 315, 316, 317]; // one for each fault
//! let ope = book.write_ope(b"ZS1", b"PP0000000003", 20_201_007_131_500, &codes)?;
//! let expected = "\u{FEFF}1|PP|OPE|1.0|PP0000000003|20201007131500|EPE|ZS1|1\r\n2|1|2|308";
//! assert_eq!(ope, expected.as_bytes());
//! # Ok::<(), buntingraft::Refusal>(())
//! ```
//!
//! # A book kept in a file
//!
//! The memory of a book is of one version of the library; only stored bytes
//! travel, from one machine and one version to another.
//!
//! ```
//! use buntingraft::{Book, Profile};
//!
//! let file = "\u{FEFF}1|ZUS|EPE|1.0|ZS1|ABC123|20201007120000|20201007|A|0|1|100.00\r\n\
//!     2|1|100.00|Nowak|Jan|Łódź|90-001|Łódź|Żwirki|7A||||ZASIŁEK|2020-10||||\r\n";
//! let profile = Profile { today: 20_201_007, flat: [350; 5], fields: 19, rates: [0; 5] };
//!
//! let mut book = Book::empty();
//! book.intake(&profile, b"EPEZZS1-201007-A-0", file.as_bytes())?;
//! book.transfer(b"EPEZZS1-201007-A-0-K", 10_000)?;
//! let stored = book.store()?; // on Friday
//!
//! let again = Book::load(&stored)?; // on Monday
//! assert_eq!(again.sheet()?, book.sheet()?);
//! # Ok::<(), buntingraft::Refusal>(())
//! ```
//!
//! # A book in memory that is lent to it
//!
//! ```
//! use buntingraft::{Book, BOOK_BYTES};
//!
//! let mut memory = [0xAA; BOOK_BYTES + 4];
//! let book = Book::make_empty_in(&mut memory[..])?;
//! drop(book);
//! assert_eq!(memory[BOOK_BYTES..], [0xAA; 4]); // what lies behind a book stays as it is
//!
//! let mut again = Book::lent(&mut memory[..]); // the bytes are the whole book
//! assert_eq!(again.close(b"ZS1").unwrap_err().number(), 13);
//!
//! memory[0] = 33; // no book has so many shipments
//! let mut spoilt = Book::lent(&mut memory[..]);
//! assert_eq!(spoilt.close(b"ZS1").unwrap_err().number(), 10);
//! # Ok::<(), buntingraft::Refusal>(())
//! ```

mod answer;
mod book;
mod extra;
mod journal;
mod money;
mod question;
mod refusal;
mod report;
mod sheet;
mod spelling;
mod store;
mod sys;
mod total;

pub use answer::{Accepted, Pairing, Returned};
pub use book::Book;
pub use extra::{judge_around, judge_around_by_bits, judge_extra, ExtraSaid};
pub use journal::{Journal, NotReplayed};
pub use money::{Amount, Fee, Money, Route};
pub use question::{Call, Question};
pub use refusal::Refusal;
pub use report::{write_rkf, write_rkf_into};
pub use sheet::Sheet;
pub use spelling::{write_money, write_money_into};
pub use sys::{Profile, Reply, SheetRow, Totals};
pub use total::amount_for;

/// How many bytes a book takes.
pub const BOOK_BYTES: usize = 24_704;

/// How many shipments a book has at most, so that a table of as many rows is
/// enough for the sheet of any book.
pub const MOST_SHIPMENTS: usize = 32;

/// How many bytes an RKF has at most, so that an output of as many is enough for
/// any.
pub const MOST_RKF_BYTES: usize = 83;

/// How many bytes an OPE has at most, so that an output of as many is enough for
/// any shipment's.
pub const MOST_OPE_BYTES: usize = 32_677;

/// How many bytes money has at most as text, so that an output of as many is
/// enough for any.
pub const MOST_MONEY_BYTES: usize = 21;

/// How many bytes a stored book has at most, so that an output of as many is
/// enough for any.
pub const MOST_STORED_BYTES: usize = 24_898;
