//! For each question that a file alone is asked, a way to break just that one
//! in a good file of three orders.

use crate::draft::Draft;
use reference::{MOST_AMOUNT, MOST_RATE};

/// Breaks a question in a file.
pub type Break = fn(&mut Draft);

/// The questions of a file, each with its number. Those of the book (900, 101,
/// 903, 904) are not among them.
pub const BREAKS: &[(u64, Break)] = &[
    (905, |d| d.profile.fields = 18),
    (907, |d| d.profile.rates[4] = MOST_RATE + 1),
    (1, |d| d.emptied = true),
    (34, |d| d.mark.truncate(2)),
    (3, |d| d.tail = b"-0".to_vec()),
    (7, |d| d.start[2] = b'F'),
    (10, |d| d.start[3] = b'P'),
    (13, |d| d.parts[0].truncate(2)),
    (16, |d| d.parts[1] = b"200931".to_vec()),
    (19, |d| d.parts[2] = b"C".to_vec()),
    (22, |d| d.parts[3] = b"5".to_vec()),
    (4, |d| d.header.push("x".into())),
    (5, |d| d.header[0] = "2".into()),
    (11, |d| d.header[1] = "PP".into()),
    (8, |d| d.header[2] = "EPF".into()),
    (99, |d| d.header[3] = "1.1".into()),
    (14, |d| d.header[4] += "x"),
    (17, |d| d.header[7] = "20201231".into()),
    (20, |d| d.header[8] = "a".into()),
    (23, |d| d.header[9] = "9".into()),
    (102, |d| d.header[6].clear()),
    (103, |d| d.header[6] = "20201007240000".into()),
    (120, |d| d.header[5].clear()),
    (121, |d| d.header[5] = "ABC12".into()),
    (125, |d| *d = d.clone().with_benefit_date(20_200_906)),
    (126, |d| d.header[10] = "0000003".into()),
    (127, |d| d.header[10] = "0".into()),
    (130, |d| d.header[11] = "175.5".into()),
    (131, |d| d.header[11] = "0.00".into()),
    (901, |d| d.records[0][1] = "2".into()),
    (902, |d| d.records[0][2] = "0.00".into()),
    (129, |d| d.header[10] = "999999".into()),
    (132, |d| d.header[11] = "99999999999.99".into()),
    (906, |d| *d = d.clone().with_tariff(MOST_AMOUNT, MOST_RATE)),
];
