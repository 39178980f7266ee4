//! Profiles, header and record fields at every boundary: amounts and sums as
//! texts, counts, lengths in code points, extras, postcodes, spaces,
//! identifiers, and the number of fields.

use crate::coverage::Coverage;
use crate::draft::Draft;
use crate::run::Run;

/// Texts of money, of counts and of nothing, parted as in a file.
const TEXTS: &str = concat!(
    "| |0|1|2|3|4|01|000003|0000003|000000|999999|1000000|+3|-3| 3|3 |0.00|0.01|0.1|",
    "0.001|.01|1.|1|1,00|1..00|1.0.0|100.00|0000100.00|00000100.00|9999999.99|",
    "10000000.00|175.49|175.50|175.51|00000000175.50|000000000175.50|99999999999.99|",
    "100000000000.00|-1.00|1.0a|a.00|1.\u{661}0|ZUS|zus|EPE|1.0|ZS1|ABC123|A|B|20201007",
);

/// Extras and postcodes, good and nearly so, parted likewise.
const PLACES: &str = concat!(
    "PR|pr|PR1|P|SP_|SP_1|SP_12345|SP_123456|SP_00000|SP_1a|SP-1|sp_1|PP_|PP_9|PP_99999|",
    "PP_999999|PP 9|XP_9| PR|PR |90-001|00-000|90001|90-01|90-0011|900-01|9O-001|90-00l|",
    "90 001| 90-001",
);

/// Tries every such profile and field.
pub fn check(coverage: &mut Coverage) {
    let mut run = Run::begin("profiles and fields".into(), 0, coverage);
    profiles(&mut run);
    texts(&mut run);
    lengths(&mut run);
    addresses(&mut run);
    identifiers(&mut run);
}

/// Flat parts and rates around their ranges, one alone and both, and numbers of
/// fields around theirs, with records of as many fields, one fewer and one more.
fn profiles(run: &mut Run) {
    let flats = [0, 1, 999_999_999, 1_000_000_000, u64::MAX];
    let rates = [
        0,
        1,
        9_999,
        10_000,
        10_001,
        65_535,
        65_536,
        1 << 32,
        u64::MAX,
    ];
    for (flat, rate) in flats
        .into_iter()
        .flat_map(|flat| rates.map(|rate| (flat, rate)))
    {
        for (flat_kind, rate_kind) in (0..25).map(|both| (both % 5, both / 5)) {
            let mut draft = Draft::zs1().with_kind("2");
            draft.profile.flat[flat_kind] = flat;
            draft.profile.rates[rate_kind] = rate;
            run.attempt(&[draft.intake()]);
        }
    }
    for fields in 17..=34 {
        let draft = Draft::zs1().with_fields(fields);
        let (mut more, mut fewer) = (draft.clone(), draft.clone());
        more.records[1].push(String::new());
        fewer.records[2].pop();
        run.attempt(&[draft.intake(), more.intake(), fewer.intake()]);
    }
    for fields in [0, 1, u64::MAX] {
        let mut draft = Draft::zs1();
        draft.profile.fields = fields;
        run.attempt(&[draft.intake()]);
    }
}

/// Each text in each header field and in each field of each record; and files
/// of other amounts.
fn texts(run: &mut Run) {
    for text in TEXTS.split('|').chain(PLACES.split('|')) {
        for field in 1..=12 {
            run.attempt(&[Draft::zs1().with_header(field, text).intake()]);
        }
        for (order, field) in (1..=3).flat_map(|order| (1..=19).map(move |field| (order, field))) {
            run.attempt(&[Draft::zs1().with_field(order, field, text).intake()]);
        }
    }
    for amounts in [
        vec![999_999_999, 1],
        vec![999_999_999; 3],
        vec![1],
        vec![1; 12],
    ] {
        run.attempt(&[Draft::new("ZS1", &amounts).intake()]);
    }
}

/// Each length from 0 to 37 of each field that may be a fault, in letters of
/// one to four bytes; and with a space at an end.
fn lengths(run: &mut Run) {
    for (field, letter) in
        (4..=19).flat_map(|field| ["a", "Ł", "€", "😀"].map(|letter| (field, letter)))
    {
        for length in 0..=37 {
            let text = letter.repeat(length);
            let with = |text: &str| Draft::zs1().with_field(1, field, text).intake();
            run.attempt(&[
                with(&text),
                with(&format!(" {text}")),
                with(&format!("{text} ")),
            ]);
        }
    }
    let combined = "e\u{301}";
    for count in [15, 16] {
        let draft = Draft::zs1().with_field(1, 4, &combined.repeat(count));
        run.attempt(&[draft.intake()]);
    }
    for odd in ["\0", "\u{85}", "\u{2028}", "\u{FFFE}", "\u{A0}", "\t"] {
        run.attempt(&[Draft::zs1().with_field(1, 4, odd).intake()]);
    }
}

/// Town, street, house number and extra together: each empty, there, too long,
/// or with a space.
fn addresses(run: &mut Run) {
    let long = "a".repeat(36);
    let choices = ["", "a", &long, " "];
    for which in 0..choices.len().pow(3) {
        for extra in ["", "PR", "x", " "] {
            let draft = Draft::zs1()
                .with_field(1, 8, choices[which % 4])
                .with_field(1, 9, choices[which / 4 % 4])
                .with_field(1, 10, choices[which / 16])
                .with_field(1, 12, extra);
            run.attempt(&[draft.intake()]);
        }
    }
}

/// Identifiers of every length up to 20, and every character at the first
/// places, in the name and in the header alike.
fn identifiers(run: &mut Run) {
    for length in 0..=20 {
        let identifier = &"ZSabcdefgh0123456789"[..length];
        run.attempt(&[Draft::new(identifier, &[100]).intake()]);
    }
    for character in (0..=255).map(char::from) {
        for identifier in [
            format!("{character}S1"),
            format!("Z{character}1"),
            format!("ZS{character}"),
            format!("ZS1{character}"),
        ] {
            run.attempt(&[Draft::new(&identifier, &[100]).intake()]);
        }
    }
}
