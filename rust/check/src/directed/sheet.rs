//! The balance sheet: of shipments in every stage with orders in every state,
//! in tables of every length about a book's, with each total at each edge; of
//! an empty book, a full one, and one that is not sound.

use crate::calls::*;
use crate::coverage::Coverage;
use crate::draft::Draft;
use crate::layout::LENGTH;
use crate::lendings::{added, edges};
use crate::run::Run;
use crate::sheet::{sums_of, Lending};
use crate::stages;
use crate::twin::Twin;
use buntingraft::{Book, SheetRow, Totals};
use reference::{Answer, Sums, MOST_SHIPMENTS, MOST_SUM, MOST_TOTAL};

/// Takes every such sheet.
pub fn check(coverage: &mut Coverage) {
    every_stage(coverage);
    empty(coverage);
    full(coverage);
    not_sound(coverage);
}

/// The sheet of ZS1 as it comes in and of the shipments in all stages, worked
/// out by hand.
const ROWS: [(&str, Sums); 15] = [
    ("ZS1", [0; 8]),
    ("WA1", [7, 0, 7, 0, 0, 0, 0, 0]),
    ("GA1", [5, 0, 5, 0, 1_049, 0, 1_049, 0]),
    ("OK1", [1_000_000_000, 0, 1_000_000_000, 0, 700, 0, 700, 0]),
    ("PA1", [5_565, 3_900, 5, 1_660, 3_600, 1_416, 60, 2_124]),
    ("PB1", [123, 100, 0, 23, 1_050, 1_050, 0, 0]),
    ("PC1", [123, 123, 0, 0, 1_053, 351, 0, 702]),
    (stages::LONGEST, [123, 100, 0, 23, 1_056, 352, 0, 704]),
    ("PZ1", [123, 100, 0, 23, 0, 0, 0, 0]),
    ("RW1", [7_508, 0, 7_508, 0, 1_142, 0, 1_142, 0]),
    (
        "RA1",
        [
            1_000_233_464,
            1_000_110_005,
            3,
            123_456,
            100_024,
            8,
            3,
            100_013,
        ],
    ),
    ("RB1", [10_007, 10_007, 0, 0, 10_002, 2, 0, 10_000]),
    (
        "RC1",
        [
            999_999_726,
            0,
            999_999_726,
            0,
            1_000_000_426,
            0,
            1_000_000_426,
            0,
        ],
    ),
    ("CL1", [50_017, 0, 7, 50_010, 701, 0, 701, 0]),
    ("CN1", [0; 8]),
];

/// Every stage and state; tables too short by any number of rows, exact and
/// longer; each total at each edge.
fn every_stage(coverage: &mut Coverage) {
    let mut run = Run::begin("sheets of all stages".into(), 0, coverage);
    run.call(Draft::zs1().intake());
    expect_rows(&mut run, &ROWS[..1]);
    every_length(&mut run);
    stages::enter_all(&mut run);
    expect_rows(&mut run, &ROWS);
    every_length(&mut run);
    every_total(&mut run);
    owned(&mut run);
}

/// Has the sheet these rows and no others?
pub fn expect_rows(run: &mut Run, expected: &[(&str, Sums)]) {
    let rows = run.sheet(&Lending::for_book(run.book()));
    let rows = rows.expect("a table with a row for each shipment is filled");
    let told = |row: &SheetRow| (row.identifier().to_vec(), sums_of(&row.sums()));
    let known = |(id, sums): &(&str, Sums)| (id.as_bytes().to_vec(), *sums);
    let rows: Vec<_> = rows.iter().map(told).collect();
    let expected: Vec<_> = expected.iter().map(known).collect();
    assert_eq!(rows, expected, "the rows of the sheet");
}

/// Tables of every length up to five rows too many: 25 where they are too
/// short, whatever the totals hold.
fn every_length(run: &mut Run) {
    let count = run.book().shipments.len();
    for rows in 0..=count + 5 {
        let expected = if rows < count { Err(25) } else { Ok(count) };
        let totals = [0; 8];
        run.expect_sheet(&Lending { rows, totals }, expected);
        let totals = [u64::MAX; 8];
        let expected = Err(if rows < count { 25 } else { 26 });
        run.expect_sheet(&Lending { rows, totals }, expected);
    }
}

/// Each of the eight totals alone at each edge, and all of them at the cap once
/// the rows are added.
fn every_total(run: &mut Run) {
    let sums = added(run.book());
    let rows = run.book().shipments.len();
    let room = sums.map(|sum| MOST_TOTAL - sum);
    run.expect_sheet(&Lending { rows, totals: room }, Ok(rows));
    for (place, sum) in sums.into_iter().enumerate() {
        for edge in edges(sum) {
            let fits = edge <= room[place];
            let expected = if fits { Ok(rows) } else { Err(26) };
            for others in [[0; 8], room] {
                let mut totals = others;
                totals[place] = edge;
                run.expect_sheet(&Lending { rows, totals }, expected);
            }
        }
    }
}

/// The bindings' own sheet has the rows of an exact table, and what they add up
/// to.
fn owned(run: &mut Run) {
    let rows = run.sheet(&Lending::for_book(run.book()));
    let sheet = Book::lent(run.bytes()).sheet();
    let sheet = sheet.expect("the book is sound");
    assert_eq!(Ok(sheet.rows), rows);
    assert_eq!(sums_of(&sheet.totals), added(run.book()));
}

/// "An empty book needs no row"; a total above the cap is 26 though nothing is
/// added to it.
fn empty(coverage: &mut Coverage) {
    let mut run = Run::begin("sheets of an empty book".into(), 0, coverage);
    every_length(&mut run);
    every_total(&mut run);
    owned(&mut run);
    let filled = Book::lent(run.bytes()).sheet_into(&mut [], &mut Totals::default());
    assert_eq!(filled, Ok(0), "a table of no memory at all");
}

/// The most shipments with the most money: the sheets of three such books fit
/// in the totals, and not a fourth.
fn full(coverage: &mut Coverage) {
    let mut run = Run::begin("sheets of a full book".into(), 1, coverage);
    for place in 1..=MOST_SHIPMENTS {
        run.call(Draft::new(&format!("FU{place}"), &[1]).intake());
        for money in ["K", "O"] {
            let title = format!("EPEZFU{place}-201007-A-0-{money}");
            run.expect(transfer(&title, MOST_SUM), Answer::Done);
        }
    }
    every_length(&mut run);
    every_total(&mut run);
    owned(&mut run);
    let sums = added(run.book());
    for times in 0..4 {
        let lending = Lending {
            rows: MOST_SHIPMENTS,
            totals: sums.map(|sum| times * sum),
        };
        let expected = if times < 3 {
            Ok(MOST_SHIPMENTS)
        } else {
            Err(26)
        };
        run.expect_sheet(&lending, expected);
    }
}

/// Where the book is not sound, 10 is answered before 25 and 26.
fn not_sound(coverage: &mut Coverage) {
    let mut memory = vec![0; LENGTH];
    memory[0] = 33;
    let mut twin = Twin::reading(&memory);
    for rows in [0, 1, MOST_SHIPMENTS] {
        for total in [0, u64::MAX] {
            let totals = [total; 8];
            let taken = twin.sheet(&Lending { rows, totals });
            assert_eq!(taken, Ok(Err(10)), "a book of 33 shipments, {rows} rows");
            coverage.note_sheet(&Err(10));
        }
    }
    let refusal = Book::lent(&memory[..]).sheet().unwrap_err();
    assert_eq!(refusal.number(), 10);
}
