//! The extra address field judged early (document 02, A7): what is said of a field;
//! each bit's part in the faults, with the answers written out; the records around a
//! field cut wrongly, spoilt and with other numbers of fields; and every cut of a
//! record. Records that are taken in are judged so in all other cases too.

use super::bytes::{changed, sequences};
use crate::coverage::Coverage;
use crate::draft::Draft;
use crate::extra::{around, said, Cut};

/// Tries all such fields and records.
pub fn check(coverage: &mut Coverage) {
    fields(coverage);
    bits(coverage);
    not_asked(coverage);
    bars(coverage);
    ends(coverage);
    line_ends(coverage);
    text(coverage);
    every_cut(coverage);
}

/// Extra fields, with the bits that are said of each.
const SAID: [(&[u8], u64); 40] = [
    (b"", 1),
    (b"PR", 0),
    (b"SP_1", 0),
    (b"SP_0", 0),
    (b"SP_12345", 0),
    (b"PP_9", 0),
    (b"PP_00000", 0),
    (b"PP_99999", 0),
    (b"P", 2),
    (b"pr", 2),
    (b"PR1", 2),
    (b"PRPR", 2),
    (b"PP", 2),
    (b"SP", 2),
    (b"SP_", 2),
    (b"PP_", 2),
    (b"sp_1", 2),
    (b"SP-1", 2),
    (b"SP1", 2),
    (b"PR_1", 2),
    (b"XP_1", 2),
    (b"SP_123456", 2),
    (b"PP_000001", 2),
    (b"SP_1a", 2),
    (b"SP_+1", 2),
    (b"SP_ 1", 2),
    (b"SP_\xD9\xA1", 2),
    (b"\0", 2),
    (b"\t", 2),
    (b"\xC2\xA0", 2),
    (b"|", 2),
    (b"PR|", 2),
    (b"\r\n", 2),
    (b"PR\n", 2),
    (b"\xFF", 2),
    (b" ", 6),
    (b"   ", 6),
    (b" PR", 6),
    (b"SP_1 ", 6),
    (b" \xFF\xC5", 6),
];

/// Each of these, every one with each byte changed, and every field of up to two
/// bytes.
fn fields(coverage: &mut Coverage) {
    for (extra, bits) in SAID {
        assert_eq!(said(extra, coverage), bits, "{:?}", extra.escape_ascii());
    }
    for extra in [&b"PR"[..], b"SP_1", b"PP_12345", b" PR "] {
        for other in changed(extra) {
            said(&other, coverage);
        }
    }
    for both in 0..=u16::MAX {
        said(&both.to_le_bytes(), coverage);
    }
}

/// ZS1's first record with these fields set, cut around its extra field.
fn with(set: &[(usize, &str)]) -> (Vec<u8>, Vec<u8>) {
    let mut draft = Draft::zs1();
    for (field, value) in set {
        draft = draft.with_field(1, *field, value);
    }
    let record = draft.records[0].join("|");
    let cut = Cut::around(record.as_bytes());
    (cut.before.to_vec(), cut.after.to_vec())
}

/// Fields that are set in a record, and its fault by the bits 0 to 7; 0 is none.
type Faults = (&'static [(usize, &'static str)], [u8; 8]);

/// Each fault that the extra field has a part in, with and without the others.
const FAULTS: [Faults; 17] = [
    (&[], [0, 0, 7, 7, 10, 10, 7, 7]),
    (&[(12, "PR")], [0, 0, 7, 7, 10, 10, 7, 7]),
    (&[(12, " x ")], [0, 0, 7, 7, 10, 10, 7, 7]),
    (&[(10, "")], [0, 6, 7, 6, 10, 6, 7, 6]),
    (&[(8, ""), (9, "")], [0, 5, 7, 5, 10, 5, 7, 5]),
    (&[(8, ""), (9, ""), (10, "")], [0, 5, 7, 5, 10, 5, 7, 5]),
    (&[(8, "")], [0, 0, 7, 7, 10, 10, 7, 7]),
    (&[(9, "")], [0, 0, 7, 7, 10, 10, 7, 7]),
    (&[(10, "123456789012")], [6; 8]),
    (&[(4, "")], [1; 8]),
    (&[(5, "")], [2; 8]),
    (&[(6, "")], [3; 8]),
    (&[(7, "")], [4; 8]),
    (&[(14, "")], [8, 8, 7, 7, 8, 8, 7, 7]),
    (&[(15, "")], [9, 9, 7, 7, 9, 9, 7, 7]),
    (&[(19, " ")], [10, 10, 7, 7, 10, 10, 7, 7]),
    (&[(13, "x "), (10, "")], [10, 6, 7, 6, 10, 6, 7, 6]),
];

/// What is more than the bits that say something.
const MORE: [u64; 6] = [0, 8, 16, 1 << 32, 1 << 63, u64::MAX - 7];

/// Each of these with all bits, also such as no field has together, and with bits
/// beside them that say nothing.
fn bits(coverage: &mut Coverage) {
    for (set, faults) in FAULTS {
        let (before, after) = with(set);
        for (bits, fault) in (0..).zip(faults) {
            for bits in MORE.map(|more| more + bits) {
                let judged = around(bits, &before, &after, coverage);
                let fault = (fault > 0).then_some(fault);
                assert_eq!(judged, Ok(fault), "{set:?} with bits {bits}");
            }
        }
    }
}

/// What the record's mark, number and amount are is not asked, nor whether fields
/// behind the nineteenth have spaces.
fn not_asked(coverage: &mut Coverage) {
    for value in ["", " ", "x", "3", "2", "0.00", "007.50", "999999999"] {
        for field in 1..=3 {
            let (before, after) = with(&[(field, value)]);
            assert_eq!(around(0, &before, &after, coverage), Ok(None));
        }
    }
    let (before, after) = with(&[]);
    for behind in ["| ", "|x ", "| x|", "||  |"] {
        let after = [&after[..], behind.as_bytes()].concat();
        assert_eq!(around(0, &before, &after, coverage), Ok(None));
    }
}

/// Is it refused with 901, whatever is said?
fn refused(before: &[u8], after: &[u8], coverage: &mut Coverage) {
    for bits in [0, 1, 2, 4, 7, u64::MAX] {
        let judged = around(bits, before, after, coverage);
        let [before, after] = [before, after].map(<[u8]>::escape_ascii);
        assert_eq!(judged, Err(901), "\"{before}\" \"{after}\"");
    }
}

/// Every number of bars before, of which eleven are right, and behind, of which 7
/// to 20 are; on the one side, on the other and on both.
fn bars(coverage: &mut Coverage) {
    let (good_before, good_after) = with(&[]);
    let mut fields: Vec<&[u8]> = good_before.split(|byte| *byte == b'|').collect();
    fields.pop();
    fields.resize(24, b"x");
    for count in 0..=fields.len() {
        let before: Vec<u8> = fields[..count]
            .iter()
            .flat_map(|field| [field, &b"|"[..]].concat())
            .collect();
        for more in 0..=40 {
            let mut after = good_after.clone();
            match more {
                0..7 => after = vec![b'|'; more],
                _ => after.extend(vec![b'|'; more - 7]),
            }
            if count != 11 || !(7..=20).contains(&more) {
                refused(&before, &after, coverage);
            } else {
                assert_eq!(around(0, &before, &after, coverage), Ok(None));
            }
        }
    }
}

/// No bar at the end of what stands before, or at the start of what stands behind, or
/// something else beside it; both swapped, the same twice, and nothing at all.
fn ends(coverage: &mut Coverage) {
    let (before, after) = with(&[(13, "Radom 1")]);
    let (short, late) = (&before[..before.len() - 1], &after[1..]);
    for beside in [&b""[..], b"x", b" ", b"PR", b"\0", "Ł".as_bytes()] {
        // Ten bars and eleven; six and seven.
        for before in [[short, beside].concat(), [b"|", short, beside].concat()] {
            refused(&before, &after, coverage);
        }
        for after in [[beside, late].concat(), [beside, late, b"|"].concat()] {
            refused(&before, &after, coverage);
        }
        if !beside.is_empty() {
            refused(&[&before[..], beside].concat(), &after, coverage);
            refused(&before, &[beside, &after[..]].concat(), coverage);
        }
    }
    refused(&after, &before, coverage);
    refused(&before, &before, coverage);
    refused(&after, &after, coverage);
    for (before, after) in [
        (&b""[..], &after[..]),
        (&before, b""),
        (b"", b""),
        (b"|", b"|"),
    ] {
        refused(before, after, coverage);
    }
}

/// CR, LF and both, at every place before the field and behind it.
fn line_ends(coverage: &mut Coverage) {
    let (before, after) = with(&[]);
    for end in [&b"\r"[..], b"\n", b"\r\n", b"\n\r"] {
        for place in 0..before.len() {
            let (front, back) = before.split_at(place);
            refused(&[front, end, back].concat(), &after, coverage);
        }
        for place in 1..=after.len() {
            let (front, back) = after.split_at(place);
            refused(&before, &[front, end, back].concat(), coverage);
        }
    }
}

/// Every form of UTF-8 sequence before the field, in the surname, and behind it, in the
/// benefit identifier and at the end; and every byte changed.
fn text(coverage: &mut Coverage) {
    let (good_before, good_after) = with(&[]);
    let surname = parted(&with(&[(4, &format!("@{}", "a".repeat(30)))]).0);
    let benefit = parted(&with(&[(14, &format!("@{}", "a".repeat(19)))]).1);
    for sequence in sequences() {
        let [before, after] =
            [&surname, &benefit].map(|(front, back)| [&front[..], &sequence, &back[..]].concat());
        let _ = around(0, &before, &good_after, coverage);
        let _ = around(0, &good_before, &after, coverage);
        let last = [&good_after[..], &sequence].concat();
        let _ = around(0, &good_before, &last, coverage);
    }
    for before in changed(&good_before) {
        let _ = around(0, &before, &good_after, coverage);
    }
    for after in changed(&good_after) {
        let _ = around(1, &good_before, &after, coverage);
    }
}

/// What stands before a sign and behind it.
fn parted(bytes: &[u8]) -> (Vec<u8>, Vec<u8>) {
    let place = bytes.iter().position(|byte| *byte == b'@');
    let (before, from) = bytes.split_at(place.expect("the sign is there"));
    (before.to_vec(), from[1..].to_vec())
}

/// Records of 19, 21 and 32 fields, cut at every two places: only those about the
/// twelfth field are judged.
fn every_cut(coverage: &mut Coverage) {
    for (fields, extra) in [(19, "PR"), (21, ""), (32, "x ")] {
        let draft = Draft::zs1().with_fields(fields).with_field(1, 12, extra);
        let record = draft.records[0].join("|").into_bytes();
        let mut judged = 0;
        for from in 0..=record.len() {
            for to in from..=record.len() {
                let cut = Cut {
                    before: &record[..from],
                    extra: &record[from..to],
                    after: &record[to..],
                };
                judged += usize::from(cut.judged(coverage).is_ok());
            }
        }
        // More than a field may be taken for it, where enough are left behind.
        assert_eq!(judged, fields - 18, "of {fields} fields");
    }
}
