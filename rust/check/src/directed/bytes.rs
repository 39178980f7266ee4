//! Names and files changed byte by byte: every byte of ZS1's name, title and
//! file replaced by every other, taken out or doubled, every title and file cut
//! short, and every form of UTF-8 sequence; name and title also with the long
//! date that only a title may have.

use crate::coverage::Coverage;
use crate::draft::{Draft, MARK};
use crate::run::Run;
use reference::Call;

/// Tries every such name, title and file, on a book with another shipment.
pub fn check(coverage: &mut Coverage) {
    let mut run = Run::begin("names and files byte by byte".into(), 0, coverage);
    run.call(Draft::new("ZS2", &[100]).intake());
    let draft = Draft::zs1();
    let long = b"EPEZZS1-20201007-A-0";
    for name in changed(&draft.name()).into_iter().chain(changed(long)) {
        run.attempt(&[draft.intake_as(name, draft.file())]);
    }
    for file in changed(&draft.file()).into_iter().chain(cut(&draft.file())) {
        run.attempt(&[draft.intake_as(draft.name(), file)]);
    }
    for surname in sequences() {
        run.attempt(&[with_surname(&surname)]);
    }
    for text in bare_files() {
        let file = [&MARK[..], text.as_bytes()].concat();
        run.attempt(&[draft.intake_as(draft.name(), file)]);
    }
    run.call(draft.intake());
    for good in ["EPEZZS1-201007-A-0-K", "EPEZZS1-20201007-A-0-K"].map(str::as_bytes) {
        for title in changed(good).into_iter().chain(cut(good)) {
            run.attempt(&[Call::Transfer { title, amount: 1 }]);
        }
    }
    for identifier in changed(b"ZS1") {
        run.attempt(&[Call::Pair { identifier }]);
    }
}

/// These bytes with one of them replaced by each other value, taken out, or
/// doubled.
pub fn changed(bytes: &[u8]) -> Vec<Vec<u8>> {
    let mut all = Vec::new();
    for place in 0..bytes.len() {
        for value in 0..=255 {
            let mut replaced = bytes.to_vec();
            replaced[place] = value;
            all.push(replaced);
        }
        let (before, from) = bytes.split_at(place);
        all.push([before, &from[1..]].concat());
        all.push([before, &from[..1], from].concat());
    }
    all
}

/// These bytes cut short, at every length.
fn cut(bytes: &[u8]) -> impl Iterator<Item = Vec<u8>> + '_ {
    (0..bytes.len()).map(|length| bytes[..length].to_vec())
}

/// Sequences of two to four bytes: every first and second byte, and third and
/// fourth ones at the edges of what may follow.
pub fn sequences() -> Vec<Vec<u8>> {
    const EDGES: [u8; 4] = [0x7F, 0x80, 0xBF, 0xC0];
    let mut all = Vec::new();
    for (first, second) in (0x80..=255).flat_map(|first| (0..=255).map(move |next| (first, next))) {
        all.push(vec![first, second]);
        for third in EDGES.into_iter().filter(|_| first >= 0xE0) {
            all.push(vec![first, second, third]);
            for fourth in EDGES.into_iter().filter(|_| first >= 0xF0) {
                all.push(vec![first, second, third, fourth]);
            }
        }
    }
    all
}

/// The intake of a file whose first surname is these bytes and 30 letters more,
/// so that it is too long as two code points.
fn with_surname(bytes: &[u8]) -> Call {
    let draft = Draft::zs1().with_field(1, 4, &format!("@{}", "a".repeat(30)));
    let file = draft.file();
    let place = file.iter().position(|byte| *byte == b'@');
    let (before, from) = file.split_at(place.expect("the surname is in the file"));
    draft.intake_as(draft.name(), [before, bytes, &from[1..]].concat())
}

/// Texts of few or odd lines, built around ZS1's own.
fn bare_files() -> Vec<String> {
    let text = String::from_utf8(Draft::zs1().file()[3..].to_vec()).expect("the file is text");
    let (header, records) = text.split_once("\r\n").expect("the header is a line");
    let mut all: Vec<String> = ["", "\r\n", "\r\n\r\n", "\r", "\n", "|", "\u{FEFF}"]
        .map(String::from)
        .to_vec();
    for end in [
        "", "\r\n", "\r\n\r\n", "\r", "\n", "\r\r\n", "\n\r", "|", "|\r\n",
    ] {
        all.push(format!("{header}{end}"));
        all.push(format!("{header}{end}\r\n{records}"));
        all.push(format!("{}{end}", text.trim_end()));
        all.push(text.replace("\r\n", end));
        all.push(text.replace("|Łucja|", &format!("|{end}|")));
    }
    all
}
