//! Each refusal of each call but intake, on shipments in every stage and orders
//! in every state; then every call with every argument at an edge, on the same
//! book.

use crate::calls::*;
use crate::coverage::Coverage;
use crate::probe::deeds_on;
use crate::run::Run;
use crate::stages;
use buntingraft::Money::{K, O};
use buntingraft::Route::{Opr, Zpr, Zwr, Zzr};
use reference::{Answer, Call, MOST_SUM};

/// Tries every refusal and every argument.
pub fn check(coverage: &mut Coverage) {
    let mut run = Run::begin("refusals".into(), 0, coverage);
    stages::enter_all(&mut run);
    let refused = [transfers(), shipments(), deeds(), returns()];
    for (number, call) in refused.into_iter().flatten() {
        run.expect(call, Answer::Refused(number));
    }
    for (number, identifier, order) in orders() {
        for call in deeds_on(identifier, order) {
            run.expect(call, Answer::Refused(number));
        }
    }
    run.attempt(&every_argument(&run));
    totals(&mut run);
}

/// Transfers that are refused, with 11 before 12 before 13.
fn transfers() -> Vec<(u32, Call)> {
    let known = "EPEZOK1-201007-A-0-O";
    vec![
        (11, transfer("", 0)),
        (11, transfer("EPEZOK1-201007-A-0", 1)),
        (11, transfer("EPEZOK1-201007-A-0-k", 0)),
        (11, transfer("EPEZOK1-19201007-A-0-K", 1)),
        (11, transfer("EPEZOK1-200931-A-0-K", 1)),
        (11, transfer("EPEZOK1-201007-A-0-K-K", 1)),
        (12, transfer(known, 0)),
        (12, transfer(known, MOST_SUM + 1)),
        (12, transfer("EPEZXX1-201007-A-0-O", u64::MAX)),
        (13, transfer("EPEZXX1-201007-A-0-O", 1)),
        (13, transfer("EPEZOK1-201008-A-0-O", 1)),
        (13, transfer("EPEZOK1-201007-B-0-O", 1)),
        (13, transfer("EPEZOK1-201007-A-1-O", MOST_SUM)),
        (14, transfer(known, MOST_SUM)),
    ]
}

/// Go-aheads, pairings and closes that are refused.
fn shipments() -> Vec<(u32, Call)> {
    let mut refused = vec![
        (16, go_ahead("OK1")),
        (17, go_ahead("GA1")),
        (18, pair("WA1")),
    ];
    for unknown in ["", "PA", "PA1\0", "pa1", "PA11", "PDabcdefgh01234567"] {
        refused.extend([go_ahead(unknown), pair(unknown), close(unknown)].map(|call| (13, call)));
    }
    for identifier in ["PA1", "CL1", "CN1", stages::LONGEST] {
        let calls = [go_ahead(identifier), pair(identifier), close(identifier)];
        refused.extend(calls.map(|call| (15, call)));
    }
    refused
}

/// Numbers, shipments and orders for which all four deeds are refused.
fn orders() -> Vec<(u32, &'static [u8], u64)> {
    vec![
        (13, b"XX1", 1),
        (13, b"", 0),
        (19, b"OK1", 1),
        (19, b"WA1", 0),
        (19, b"CL1", u64::MAX),
        (20, b"PA1", 0),
        (20, b"PA1", 11),
        (20, b"PA1", 1 << 32),
        (20, b"PA1", u64::MAX),
        (21, b"PA1", 3),
        (21, b"PA1", 4),
        (21, b"PA1", 5),
        (21, b"PA1", 6),
        (21, b"PA1", 8),
        (21, b"PA1", 10),
    ]
}

/// Deeds that an Open order (1) and a Posted one (2) refuse.
fn deeds() -> Vec<(u32, Call)> {
    vec![
        (21, pay("PA1", 1)),
        (21, mark_undelivered("PA1", 1)),
        (21, post("PA1", 2)),
        (21, withdraw("PA1", 2)),
    ]
}

/// Returns that are refused.
fn returns() -> Vec<(u32, Call)> {
    let mut refused = vec![
        (13, give_back("XX1", Zwr, K)),
        (13, give_back_by_number("XX1", 4, 2)),
        (24, give_back("OK1", Zwr, K)),
        (24, give_back("GA1", Zwr, O)),
        (22, give_back("PA1", Zpr, O)),
        (19, give_back("CL1", Opr, K)),
        (23, give_back("PB1", Opr, K)),
        (23, give_back("PC1", Zzr, O)),
        (23, give_back("PB1", Zpr, K)),
        (23, give_back("PZ1", Opr, O)),
        (23, give_back("PZ1", Zzr, O)),
        (23, give_back("RB1", Opr, O)),
        (23, give_back("RB1", Zzr, O)),
        (23, give_back("PB1", Zwr, K)),
        (23, give_back("CN1", Zwr, O)),
    ];
    for (route, money) in [(4, 0), (1, 2), (0, 2), (u64::MAX, 1), (1 << 32, 1 << 32)] {
        refused.push((19, give_back_by_number("CL1", route, money)));
        refused.push((19, give_back_by_number("OK1", route, money)));
        refused.push((22, give_back_by_number("PA1", route, money)));
    }
    refused
}

/// Every call for every shipment of the book, with every order's number up to
/// one too many, and routes and moneys up to ones that are none.
fn every_argument(run: &Run) -> Vec<Call> {
    let mut calls = Vec::new();
    for shipment in &run.book().shipments {
        let identifier = String::from_utf8_lossy(&shipment.name.identifier);
        calls.extend([go_ahead(&identifier), pair(&identifier), close(&identifier)]);
        for order in 0..=shipment.rows.len() as u64 + 1 {
            calls.extend(deeds_on(&shipment.name.identifier, order));
        }
        for (route, money) in (0..6).flat_map(|route| (0..4).map(move |money| (route, money))) {
            calls.push(give_back_by_number(&identifier, route, money));
        }
    }
    calls
}

/// Transfers up to the most that is accepted in all, in each stage; a returned
/// surplus makes no room.
fn totals(run: &mut Run) {
    for (name, id) in [
        ("EPEZOK1-201007-A-0", "OK1"),
        ("EPEZCN1-201007-A-0", "CN1"),
        ("EPEZPB1-201007-A-0", "PB1"),
    ] {
        let [k, o] = ["K", "O"].map(|money| format!("{name}-{money}"));
        let shipment = run.book().shipment(id.as_bytes()).expect("it was entered");
        let room = MOST_SUM - shipment.accepted_k;
        let transfer_o = MOST_SUM - shipment.accepted_o;
        run.expect(transfer(&k, room + 1), over_the_total(room + 1));
        run.expect(transfer(&k, room - 1), Answer::Done);
        run.expect(transfer(&k, 2), Answer::Refused(14));
        run.expect(transfer(&k, 1), Answer::Done);
        run.expect(transfer(&k, 1), Answer::Refused(14));
        run.expect(transfer(&o, transfer_o), Answer::Done);
        run.call(give_back(id, Zwr, K));
        run.expect(transfer(&k, 1), Answer::Refused(14));
        run.expect(transfer(&o, MOST_SUM), Answer::Refused(14));
    }
}

/// How a transfer that is more than there is room for is refused: by its
/// amount, if it is above the cap itself.
fn over_the_total(amount: u64) -> Answer {
    if amount > MOST_SUM {
        Answer::Refused(12)
    } else {
        Answer::Refused(14)
    }
}
