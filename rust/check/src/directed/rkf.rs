//! The report on an order file (document 02, A2): the readings' worked files
//! byte by byte; every verdict; identifiers and creation times that can stand in
//! their fields and that cannot; outputs of every length.

use super::bytes::changed;
use crate::coverage::Coverage;
use crate::report::{Kind, Report};
use crate::run::Run;
use crate::values::{days_and_times, IDENTIFIERS, NO_IDENTIFIERS, NO_TIMES, TIMES};
use buntingraft::{write_rkf, MOST_RKF_BYTES};

/// The identifier and the creation time of the readings' own report.
const OWN: &[u8] = b"PP0000000001";
const CREATED: u64 = 20_201_007_130_000;

/// Tries every such report.
pub fn check(coverage: &mut Coverage) {
    let mut run = Run::begin("RKF".into(), 0, coverage);
    worked(&mut run);
    verdicts(&mut run);
    identifiers(&mut run);
    times(&mut run);
    lengths(&mut run);
    owned();
}

/// The readings' own report, with this verdict.
fn on_zs1(refusal: u64) -> Report {
    rkf(OWN, CREATED, b"ZS1", refusal)
}

/// A report.
fn rkf(own: &[u8], created: u64, source: &[u8], refusal: u64) -> Report {
    Report {
        own: own.to_vec(),
        created,
        source: source.to_vec(),
        kind: Kind::Rkf(refusal),
    }
}

/// The worked files: ZS1 accepted, and refused with 103.
fn worked(run: &mut Run) {
    let files = [
        (
            on_zs1(0),
            "\u{FEFF}1|PP|RKF|1.0|PP0000000001|20201007130000|EPE|ZS1|1",
            53,
        ),
        (
            on_zs1(103),
            "\u{FEFF}1|PP|RKF|1.0|PP0000000001|20201007130000|EPE|ZS1|0\r\n2|1|0|103",
            64,
        ),
    ];
    for (report, file, length) in files {
        assert_eq!(file.len(), length, "the readings count {length} bytes");
        run.expect_report(&report, length, Ok(length));
        let written = run.report(&report, length + 9);
        assert_eq!(written, Ok(file.into()), "{report}");
    }
}

/// Every number up to above all that intake refuses with, and others that are
/// as near to a code as numbers can be.
fn verdicts(run: &mut Run) {
    let far = [1_100, 65_536 + 103, (1 << 32) + 103, 1 << 63, u64::MAX];
    for refusal in (0..1_000).chain(far) {
        let expected = match refusal {
            0 => Ok(53),
            100..=307 => Ok(64),
            _ => Err(31),
        };
        run.expect_report(&on_zs1(refusal), 64, expected);
    }
}

/// Each identifier in form with each other, each text that is none with a good
/// one, and ZS1 with every byte changed; for the report and for its source.
fn identifiers(run: &mut Run) {
    for own in IDENTIFIERS {
        for source in IDENTIFIERS {
            let length = 38 + own.len() + source.len();
            let report = rkf(own.as_bytes(), CREATED, source.as_bytes(), 0);
            run.expect_report(&report, length, Ok(length));
        }
    }
    for none in NO_IDENTIFIERS {
        for refusal in [0, 103, 901] {
            run.expect_report(&rkf(none, CREATED, b"ZS1", refusal), 99, Err(31));
            run.expect_report(&rkf(b"PP1", CREATED, none, refusal), 99, Err(31));
            run.expect_report(&rkf(none, CREATED, none, refusal), 0, Err(31));
        }
    }
    for text in changed(b"ZS1")
        .into_iter()
        .chain(changed(b"zZ00000000000009Q"))
    {
        let _ = run.report(&rkf(&text, CREATED, b"ZS1", 0), 99);
        let _ = run.report(&rkf(b"PP1", CREATED, &text, 0), 99);
    }
}

/// Each creation time, real or not.
fn times(run: &mut Run) {
    let at = |created| rkf(OWN, created, b"ZS1", 0);
    for created in TIMES {
        run.expect_report(&at(created), 53, Ok(53));
    }
    for created in NO_TIMES {
        run.expect_report(&at(created), 53, Err(31));
    }
    for created in days_and_times() {
        let _ = run.report(&at(created), 53);
    }
}

/// Reports of every length there is at an end, in outputs of every length; 31 is
/// asked before 30.
fn lengths(run: &mut Run) {
    let longest = rkf(b"PPabcdefgh0123456", 20_991_231_235_959, &[b'z'; 17], 307);
    let shortest = rkf(b"PP1", 20_000_101_000_000, b"ZS1", 0);
    for (report, length) in [
        (longest, MOST_RKF_BYTES),
        (on_zs1(0), 53),
        (on_zs1(103), 64),
        (shortest, 44),
    ] {
        every_length(run, &report, length);
    }
    for output in 0..=64 {
        run.expect_report(&on_zs1(99), output, Err(31));
        run.expect_report(&rkf(b"PP", 0, b"", 308), output, Err(31));
    }
}

/// Writes a report of so many bytes into outputs of every length up to five bytes
/// too many: 30 where they are too short.
pub fn every_length(run: &mut Run, report: &Report, length: usize) {
    for output in 0..=length + 5 {
        let expected = if output < length { Err(30) } else { Ok(length) };
        run.expect_report(report, output, expected);
    }
}

/// The bindings' own report is the whole file and no byte more, or refused with
/// 31.
fn owned() {
    for (own, refusal) in [(OWN, 0), (OWN, 103), (b"PPx", 307), (b"PP", 0), (OWN, 901)] {
        let file = write_rkf(own, CREATED, b"ZS1", refusal);
        let expected = reference::rkf(own, CREATED, b"ZS1", refusal);
        assert_eq!(file.map_err(|refused| refused.number() as u32), expected);
    }
}
