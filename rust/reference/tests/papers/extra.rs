//! "Judge the extra address field early" (document 02, A7): what is said of a field;
//! each answer's part in the faults; 901 at its edges; and records cut around the
//! field, whose fault stays the lowest-numbered one.

use crate::helpers::*;
use reference::{judge_around, judge_extra, ExtraSaid};

/// What is said of a field that is as it should be, and not empty.
const GOOD: ExtraSaid = ExtraSaid {
    empty: false,
    fails: false,
    spaced: false,
};

/// The first record of a draft: what stands before its extra field, the field, and
/// what stands behind it.
fn cut(draft: &Draft) -> (String, String, String) {
    let record = &draft.records[0];
    let before: String = record[..11]
        .iter()
        .map(|field| format!("{field}|"))
        .collect();
    let after: String = record[12..]
        .iter()
        .map(|field| format!("|{field}"))
        .collect();
    (before, record[11].clone(), after)
}

/// The fault of the first record, by both calls.
fn judged(draft: &Draft) -> Result<Option<u8>, u32> {
    let (before, extra, after) = cut(draft);
    let said = judge_extra(extra.as_bytes());
    judge_around(said, before.as_bytes(), after.as_bytes())
}

/// A good file of one order.
fn one() -> Draft {
    Draft::new("ZS1", &["1.00"])
}

/// A good record, as it stands around the extra field; neither field beside that is
/// empty.
fn good() -> (String, String) {
    let (before, _, after) = cut(&one().field(13, "Radom 1"));
    (before, after)
}

#[test]
fn what_is_said_of_a_field() {
    for (extra, empty, fails, spaced) in [
        (&b""[..], true, false, false),
        (b"PR", false, false, false),
        (b"SP_1", false, false, false),
        (b"PP_12345", false, false, false),
        (b"SP_", false, true, false),
        (b"SP_123456", false, true, false),
        (b"pr", false, true, false),
        (b"x", false, true, false),
        (b" ", false, true, true),
        (b"  ", false, true, true),
        (b" PR", false, true, true),
        (b"PR ", false, true, true),
        (b"x ", false, true, true),
        (b"a a", false, true, false),
        // White space of other kinds is no space.
        (b"\tPR\n", false, true, false),
        ("\u{A0}".as_bytes(), false, true, false),
        // Any bytes are judged: a bar, a line's end, no UTF-8.
        (b"PR|", false, true, false),
        (b"|", false, true, false),
        (b"PR\r\n", false, true, false),
        (b"\xFF", false, true, false),
        (b" \xC5", false, true, true),
    ] {
        let said = ExtraSaid {
            empty,
            fails,
            spaced,
        };
        assert_eq!(judge_extra(extra), said, "{:?}", extra.escape_ascii());
    }
}

#[test]
fn the_bits_of_what_is_said() {
    for (bits, empty, fails, spaced) in [
        (0, false, false, false),
        (1, true, false, false),
        (2, false, true, false),
        (3, true, true, false),
        (4, false, false, true),
        (5, true, false, true),
        (6, false, true, true),
        (7, true, true, true),
    ] {
        let said = ExtraSaid {
            empty,
            fails,
            spaced,
        };
        assert_eq!(said.bits(), bits);
        // Bits above 4 say nothing.
        for more in [0, 8, 16, 1 << 32, 1 << 63, u64::MAX - 7] {
            assert_eq!(ExtraSaid::from_bits(more + bits), said, "{more} and {bits}");
        }
    }
}

#[test]
fn each_answer_has_its_part_in_the_faults() {
    // The fault by the bits 0 to 7 (1 empty, 2 fails, 4 spaced); 0 is none. Those that
    // no field has together count too, each for itself.
    for (set, faults) in [
        (&[][..], [0, 0, 7, 7, 10, 10, 7, 7]),
        // House number empty.
        (&[(10, "")], [0, 6, 7, 6, 10, 6, 7, 6]),
        // Town and street empty.
        (&[(8, ""), (9, "")], [0, 5, 7, 5, 10, 5, 7, 5]),
        // Town or street alone, the house number too long, an earlier fault.
        (&[(8, "")], [0, 0, 7, 7, 10, 10, 7, 7]),
        (&[(9, "")], [0, 0, 7, 7, 10, 10, 7, 7]),
        (&[(10, "123456789012")], [6; 8]),
        (&[(7, "")], [4; 8]),
        // A later fault.
        (&[(14, "")], [8, 8, 7, 7, 8, 8, 7, 7]),
        (&[(19, " ")], [10, 10, 7, 7, 10, 10, 7, 7]),
        // Never the field itself.
        (&[(12, " x ")], [0, 0, 7, 7, 10, 10, 7, 7]),
    ] {
        let draft = set.iter().fold(one(), |draft, (position, value)| {
            draft.field(*position, value)
        });
        let (before, _, after) = cut(&draft);
        for (bits, fault) in (0..).zip(faults) {
            let said = ExtraSaid::from_bits(bits);
            let answer = judge_around(said, before.as_bytes(), after.as_bytes());
            let fault = (fault > 0).then_some(fault);
            assert_eq!(answer, Ok(fault), "{set:?} with bits {bits}");
        }
    }
}

/// Texts that are faults of some field and not of others.
const TEXTS: [&str; 12] = [
    "",
    " ",
    "a",
    "a ",
    " a",
    "PR",
    "SP_1",
    "SP_123456",
    "90-001",
    "ŁŁŁŁŁŁŁŁŁŁŁŁ",
    "123456789012345678901234",
    "123456789012345678901234567890123456",
];

#[test]
fn for_every_record_it_is_still_the_lowest_numbered_fault() {
    let mut met = [0; 11];
    for extra in TEXTS {
        for first in 4..=19 {
            for second in 4..=19 {
                for (one_text, other) in TEXTS.iter().zip(TEXTS.iter().cycle().skip(5)) {
                    let draft = one()
                        .field(12, extra)
                        .field(first, one_text)
                        .field(second, other);
                    let fault = draft.fault();
                    assert_eq!(judged(&draft), Ok(fault), "{:?}", draft.records[0]);
                    met[usize::from(fault.unwrap_or(0))] += 1;
                }
            }
        }
    }
    assert!(met.iter().all(|count| *count > 0), "{met:?}");
}

#[test]
fn refusal_901_by_the_number_of_fields() {
    let (good_before, good_after) = good();
    let judge = |before: &str, after: &str| judge_around(GOOD, before.as_bytes(), after.as_bytes());
    for fields in 0..=14 {
        let before = "x|".repeat(fields);
        let expected = if fields == 11 { Ok(Some(4)) } else { Err(901) };
        assert_eq!(judge(&before, &good_after), expected, "{fields} before");
    }
    for fields in 0..=24 {
        let mut after = "|x|x|x|x|x|x|x".to_string() + &"|x".repeat(fields);
        after.truncate(2 * fields);
        let expected = if (7..=20).contains(&fields) {
            Ok(None)
        } else {
            Err(901)
        };
        assert_eq!(judge(&good_before, &after), expected, "{fields} after");
    }
    // Right in all, and wrong on either side.
    let wrong_before = format!("{good_before}x|");
    assert_eq!(judge(&wrong_before, &good_after[1..]), Err(901));
}

#[test]
fn refusal_901_by_the_bars_next_to_the_field() {
    let (before, after) = good();
    let judge = |before: &str, after: &str| judge_around(GOOD, before.as_bytes(), after.as_bytes());
    assert_eq!(judge(&before, &after), Ok(None));
    let open = before.strip_suffix('|').unwrap();
    for before in [open, &format!("|{open}"), &format!("{before}x"), ""] {
        assert_eq!(judge(before, &after), Err(901), "{before}");
    }
    let late = after.strip_prefix('|').unwrap();
    for after in [late, &format!("{late}|"), &format!("x{after}"), ""] {
        assert_eq!(judge(&before, after), Err(901), "{after}");
    }
    assert_eq!(judge(&after, &before), Err(901));
    assert_eq!(judge("", ""), Err(901));
}

#[test]
fn refusal_901_by_line_ends_and_bytes_that_are_no_text() {
    let (before, after) = good();
    let (before, after) = (before.as_bytes(), after.as_bytes());
    for spoilt in [
        &b"\r"[..],
        b"\n",
        b"\r\n",
        b"\xFF",
        b"\x80",
        b"\xC5",
        b"\xED\xA0\x80",
    ] {
        for place in 0..before.len() {
            let before = [&before[..place], spoilt, &before[place..]].concat();
            assert_eq!(judge_around(GOOD, &before, after), Err(901));
        }
        for place in 1..=after.len() {
            let after = [&after[..place], spoilt, &after[place..]].concat();
            assert_eq!(judge_around(GOOD, before, &after), Err(901));
        }
    }
    // Other line ends of Unicode are characters.
    for good in ["\u{85}", "\u{2028}", "\0"] {
        let draft = one().field(5, good).field(21, good);
        assert_eq!(judged(&draft), Ok(None));
    }
}

#[test]
fn nothing_else_is_asked() {
    // Mark, number and amount may be anything; fields behind the nineteenth too.
    for (position, value) in [
        (1, ""),
        (1, "3"),
        (2, "x"),
        (2, "7"),
        (3, ""),
        (3, "0.00"),
        (3, "007.50"),
        (20, " "),
        (21, " x "),
    ] {
        let draft = one().field(position, value);
        assert_eq!(judged(&draft), Ok(None), "field {position}: {value:?}");
    }
}

#[test]
fn records_of_19_to_32_fields() {
    for fields in 17..=34 {
        let mut draft = one().field(15, "");
        draft.records[0].resize(fields, " ".into());
        let expected = if (19..=32).contains(&fields) {
            Ok(Some(9))
        } else {
            Err(901)
        };
        assert_eq!(judged(&draft), expected, "{fields} fields");
    }
}
