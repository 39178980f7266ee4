//! Long lists of random calls, some of them with spoilt files and names.

use crate::reports::agree_on_ope;
use crate::sheets::agree_on_sheets;
use crate::stores::agree_on_storing;
use crate::Rivals;
use bench::calls::{Answer, Call};
use bench::files::{order_file, Records};
use buntingraft::{Money, Profile, Route};

/// A xorshift generator.
struct Dice(u64);

impl Dice {
    /// A number below another.
    fn below(&mut self, bound: usize) -> usize {
        self.0 ^= self.0 << 13;
        self.0 ^= self.0 >> 7;
        self.0 ^= self.0 << 17;
        (self.0 >> 11) as usize % bound
    }

    /// One of some things.
    fn one_of<T: Copy>(&mut self, things: &[T]) -> T {
        things[self.below(things.len())]
    }

    /// A text with up to three bytes put in, taken out or changed.
    fn spoil(&mut self, text: &mut Vec<u8>) {
        for _ in 0..self.below(4) {
            let at = self.below(text.len());
            let byte = self.one_of(b"|\r\n .-0129AZ_\xC5\x81\xEF\xBF\xFF\0");
            match self.below(3) {
                0 => text.insert(at, byte),
                1 => text[at] = byte,
                _ => drop(text.remove(at)),
            }
        }
    }
}

/// The shipments of a list; most of its calls are for the first.
const IDS: [&str; 8] = [
    "ZS1",
    "ZS1",
    "ZS1",
    "ZS1",
    "ZS1",
    "zs1",
    "ABcdefghijklmno17",
    "Q",
];

/// Flat parts and rates; with the last two a file is refused with 906 or 907.
const TARIFFS: [(u64, u64); 14] = [
    (0, 0),
    (350, 0),
    (350, 0),
    (350, 0),
    (999_999_999, 0),
    (0, 1),
    (0, 1),
    (350, 125),
    (350, 125),
    (7, 9_999),
    (0, 10_000),
    (350, 10_000),
    (999_999_999, 10_000),
    (350, 10_001),
];

/// Makes a random intake.
fn intake(dice: &mut Dice, rivals: &mut Rivals) -> Answer {
    let records = dice.one_of(&[Records::Ascii, Records::Polish, Records::Faulty]);
    let mut file = order_file(dice.one_of(&IDS), dice.below(12) + 1, records);
    match dice.below(6) {
        0 => dice.spoil(&mut file.name),
        1..=3 => dice.spoil(&mut file.bytes),
        _ => {}
    }
    let (flat, rate) = dice.one_of(&TARIFFS);
    let profile = Profile {
        today: dice.one_of(&[20_201_007, 20_201_007, 20_200_910, 20_201_106, 20_201_132]),
        flat: [flat; 5],
        fields: dice.one_of(&[21, 21, 21, 21, 20]),
        rates: [rate; 5],
    };
    rivals.make(Call::Intake(&profile, &file.name, &file.bytes))
}

/// The dates in titles: a shipment's, the same with its century, and neither.
const DATES: [&str; 6] = [
    "201007", "201007", "201007", "20201007", "19201007", "2020107",
];

/// Makes a random transfer.
fn transfer(dice: &mut Dice, rivals: &mut Rivals) -> Answer {
    let (id, money) = (dice.one_of(&IDS), dice.one_of(&["K", "O"]));
    let date = dice.one_of(&DATES);
    let mut title = format!("EPEZ{id}-{date}-A-0-{money}").into_bytes();
    if dice.below(5) == 0 {
        dice.spoil(&mut title);
    }
    let amount = dice.one_of(&[0, 1, 350, 50_000, 20_000_000_000, 7_000_000_000_000]);
    rivals.make(Call::Transfer(&title, amount))
}

/// Makes a random call.
fn call(dice: &mut Dice, rivals: &mut Rivals) -> Answer {
    let id = dice.one_of(&IDS).as_bytes();
    let order = dice.below(14) as u64;
    let route = dice.one_of(&Route::ALL);
    let money = dice.one_of(&Money::ALL);
    match dice.below(20) {
        0 => intake(dice, rivals),
        1..=2 => transfer(dice, rivals),
        3 => rivals.make(Call::GoAhead(id)),
        4..=5 => rivals.make(Call::Pair(id)),
        6 if dice.below(8) == 0 => rivals.make(Call::Close(id)),
        6..=10 => rivals.make(Call::Post(id, order)),
        11..=12 => rivals.make(Call::Pay(id, order)),
        13..=14 => rivals.make(Call::MarkUndelivered(id, order)),
        15..=16 => rivals.make(Call::Withdraw(id, order)),
        _ => rivals.make(Call::GiveBack(id, route, money)),
    }
}

#[test]
fn random_calls_are_answered_alike() {
    let mut done = 0;
    for list in 1..=600 {
        let mut dice = Dice(0x9E37_79B9_7F4A_7C15 ^ list);
        let mut rivals = Rivals::new();
        for _ in 0..200 {
            let answer = call(&mut dice, &mut rivals);
            done += usize::from(!matches!(answer, Answer::Refused(_)));
        }
        agree_on_sheets(&rivals.archive);
        agree_on_storing(&rivals.archive);
        agree_on_ope(&rivals.archive, dice.one_of(&IDS).as_bytes());
    }
    assert!(done > 6_000, "{done}");
}

#[test]
fn random_files_are_asked_alike() {
    let mut dice = Dice(42);
    let mut accepted = 0;
    for _ in 0..20_000 {
        let answer = intake(&mut dice, &mut Rivals::new());
        accepted += usize::from(matches!(answer, Answer::Accepted(_)));
    }
    assert!(accepted > 2_000, "{accepted}");
}
