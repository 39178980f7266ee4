//! Each question of an intake broken alone, and every two of them together,
//! where the earlier one must answer.

use crate::breaks::BREAKS;
use crate::coverage::Coverage;
use crate::draft::Draft;
use crate::layout::LENGTH;
use crate::twin::Twin;
use reference::Answer;

/// Breaks each question alone and with each later one.
pub fn check(coverage: &mut Coverage) {
    let questions = buntingraft::Call::Intake.questions();
    let shelves: Vec<Twin> = (0..8).map(shelf).collect();
    for (place, first) in questions.iter().enumerate() {
        ask(&[first.number], &shelves, coverage);
        for later in &questions[place + 1..] {
            ask(&[first.number, later.number], &shelves, coverage);
        }
    }
}

/// Does an intake in which these questions are broken answer the first of them?
fn ask(numbers: &[u64], shelves: &[Twin], coverage: &mut Coverage) {
    let mut draft = Draft::zs1();
    for number in numbers.iter().rev() {
        if let Some((_, break_it)) = BREAKS.iter().find(|(broken, _)| broken == number) {
            break_it(&mut draft);
        }
    }
    let bit = |number, bit| usize::from(numbers.contains(&number)) * bit;
    let mut twin = shelves[bit(101, 1) + bit(903, 2) + bit(904, 4)].clone();
    if numbers.contains(&900) {
        twin.lent.bytes_mut()[0] = 33;
        twin.book = None;
    }
    let call = draft.intake();
    let answer = twin.call(&call);
    let expected = Answer::Refused(numbers[0] as u32);
    assert_eq!(answer, Ok(expected), "questions {numbers:?} broken");
    coverage.note(&call, &expected, None);
}

/// A book with ZS1 in it (1), with 32 shipments (2), with too few rows left for
/// ZS1 (4), or with several of these.
fn shelf(broken: usize) -> Twin {
    let mut twin = Twin::empty(LENGTH).expect("an empty book is made");
    let mut enter = |identifier: &str, orders: usize| {
        let draft = Draft::new(identifier, &vec![1; orders]);
        let faulty = 0;
        let orders = orders as u64;
        let answer = twin.call(&draft.intake());
        assert_eq!(answer, Ok(Answer::Accepted { orders, faulty }));
    };
    let (known, full, long) = (broken & 1, broken & 2 != 0, broken & 4 != 0);
    if known == 1 {
        enter("ZS1", 1);
    }
    if full {
        (known..31).for_each(|place| enter(&format!("AA{place}"), 1));
    }
    match (full, long) {
        (false, false) => {}
        (true, false) => enter("AB1", 1),
        (false, true) => enter("AB1", 2_046),
        (true, true) => enter("AB1", 2_048 - 31),
    }
    twin
}
