//! The calls of a random list. Most are such that the list gets somewhere
//! (money near what is missing, deeds that an order's state takes, returns,
//! late transfers); the others are anything at all.

use crate::amounts::{self, Asked};
use crate::draft::Draft;
use crate::lendings;
use crate::naming::{dated_title, long_title, nearly_long_dates, position_named, title, MONEYS};
use crate::numbers::Numbers;
use crate::orders::{good_draft, spoil_byte, spoilt_intake};
use crate::probe;
use crate::report::Report;
use crate::reports;
use crate::sheet::Lending;
use reference::{Book, Call, Money, Name, Shipment, Stage, State, MOST_SUM};

/// What the shipments of an ordinary list are called: near one another, and of
/// both lengths at which an identifier ends.
const IDENTIFIERS: [&str; 6] = [
    "ZS1",
    "zS1",
    "ZS12",
    "ZSABCDEFGHIJKLM01",
    "ZSABCDEFGHIJKLM02",
    "Ab3",
];

/// Makes the calls of one list.
pub struct Generator {
    numbers: Numbers,
    sheet_numbers: Numbers,
    report_numbers: Numbers,
    amount_numbers: Numbers,
    identifiers: Vec<String>,
    most_orders: usize,
    /// How many calls the list has.
    pub calls: usize,
    /// How many more bytes are lent than a book takes.
    pub spare: usize,
}

impl Generator {
    /// The generator of a list of a seed. One list in twenty has shipments
    /// enough to fill the book, one in twenty orders.
    pub fn of(seed: u64, list: u64) -> Generator {
        let mut numbers = Numbers::of(seed, list);
        let many = |count: usize| (0..count).map(|place| format!("MA{place}")).collect();
        let (identifiers, most_orders, calls) = match list % 20 {
            18 => (many(36), 2, 120),
            19 => (many(5), 900, 30),
            _ => {
                let first = numbers.below(3);
                let few = IDENTIFIERS[first..first + 4].iter();
                (few.map(|id| id.to_string()).collect(), 5, 80)
            }
        };
        let spare = numbers.pick(&[0, 0, 1, 7, 4_096]);
        Generator {
            numbers,
            sheet_numbers: Numbers::of(!seed, list),
            report_numbers: Numbers::of(seed.rotate_left(16), list),
            amount_numbers: Numbers::of(seed.rotate_left(24), list),
            identifiers,
            most_orders,
            calls,
            spare,
        }
    }

    /// The next call, on this book.
    pub fn call(&mut self, book: &Book) -> Call {
        if self.numbers.one_in(4) {
            return self.wild(book);
        }
        let room = book.shipments.len() < self.identifiers.len();
        if book.shipments.is_empty() || (room && self.numbers.one_in(4)) {
            return self.draft(book).intake();
        }
        let shipment = &book.shipments[self.numbers.below(book.shipments.len())];
        match shipment.stage {
            Stage::Waiting => self.towards_pairing(shipment),
            Stage::Paired => self.while_paired(shipment),
            Stage::Closed if self.numbers.one_in(2) => self.transfer(shipment, 1_000),
            Stage::Closed => self.give_back(shipment, 0),
        }
    }

    /// The calls that probe the shipment which a call named, and another one.
    pub fn probes(&mut self, call: &Call, book: &Book) -> Vec<Call> {
        let count = book.shipments.len();
        let mut probed = Vec::new();
        match position_named(call, book) {
            Some(named) if count > 1 => {
                let other = named + 1 + self.numbers.below(count - 1);
                probed.extend([named, other % count]);
            }
            Some(named) => probed.push(named),
            None if count > 0 => probed.push(self.numbers.below(count)),
            None => {}
        }
        let mut calls = Vec::new();
        for place in probed {
            let shipment = &book.shipments[place];
            calls.extend(probe::calls_for(shipment, &mut self.numbers));
        }
        calls
    }

    /// What is lent for a sheet of this book.
    pub fn lending(&mut self, book: &Book) -> Lending {
        lendings::some(book, &mut self.sheet_numbers)
    }

    /// The reports that are asked for, an OPE of this book and an RKF, each with
    /// the length of its output.
    pub fn reports(&mut self, book: &Book) -> [(Report, usize); 2] {
        let numbers = &mut self.report_numbers;
        let reports = [reports::some_ope(book, numbers), reports::some_rkf(numbers)];
        reports.map(|report| {
            let length = reports::some_length(&report, book, numbers);
            (report, length)
        })
    }

    /// The amount that is asked for: that of an order of this book, by its total.
    pub fn amount(&mut self, book: &Book) -> Option<(Asked, u64)> {
        amounts::of_an_order(book, &mut self.amount_numbers)
    }

    /// A good file, most often with an identifier that is not in the book yet.
    fn draft(&mut self, book: &Book) -> Draft {
        let free = |id: &&String| book.shipment(id.as_bytes()).is_none();
        let unknown: Vec<String> = self.identifiers.iter().filter(free).cloned().collect();
        let choices = if unknown.is_empty() || self.numbers.one_in(10) {
            &self.identifiers
        } else {
            &unknown
        };
        let identifier = self.numbers.pick(choices);
        good_draft(&identifier, self.most_orders, &mut self.numbers)
    }

    /// A call that brings a Waiting shipment nearer to its pairing, or now and
    /// then closes it.
    fn towards_pairing(&mut self, shipment: &Shipment) -> Call {
        let identifier = shipment.name.identifier.clone();
        if self.numbers.one_in(40) {
            return Call::Close { identifier };
        }
        if shipment.has_faults() && !shipment.go_ahead && self.numbers.one_in(2) {
            return Call::GoAhead { identifier };
        }
        let missing = |money| {
            let need: u64 = shipment.need(money);
            need.saturating_sub(shipment.accepted(money))
        };
        for money in MONEYS {
            if missing(money) > 0 && !self.numbers.one_in(4) {
                return self.funding(shipment, money, missing(money));
            }
        }
        Call::Pair { identifier }
    }

    /// A transfer of about what is missing.
    fn funding(&mut self, shipment: &Shipment, money: Money, missing: u64) -> Call {
        let amount = match self.numbers.below(8) {
            0 => missing - 1,
            1 => missing + 1,
            2 => missing + self.numbers.any() % 1_000,
            3 => 1 + self.numbers.any() % missing,
            _ => missing,
        };
        Call::Transfer {
            title: self.title(&shipment.name, money),
            amount,
        }
    }

    /// A transfer of up to `most` grosze.
    fn transfer(&mut self, shipment: &Shipment, most: u64) -> Call {
        let money = self.numbers.pick(&MONEYS);
        Call::Transfer {
            title: self.title(&shipment.name, money),
            amount: 1 + self.numbers.any() % most,
        }
    }

    /// The title of a transfer for a shipment; one in four has a long date.
    fn title(&mut self, name: &Name, money: Money) -> Vec<u8> {
        if self.numbers.one_in(4) {
            long_title(name, money)
        } else {
            title(name, money)
        }
    }

    /// A return of either money by a route.
    fn give_back(&mut self, shipment: &Shipment, route: u64) -> Call {
        Call::Return {
            identifier: shipment.name.identifier.clone(),
            route,
            money: self.numbers.any() % 2,
        }
    }

    /// A late transfer, a return, or what an order's state takes.
    fn while_paired(&mut self, shipment: &Shipment) -> Call {
        match self.numbers.below(12) {
            0 => return self.transfer(shipment, 1_000),
            1 | 2 => return self.give_back(shipment, 0),
            3 => {
                let route = self.numbers.any() % 4;
                return self.give_back(shipment, route);
            }
            _ => {}
        }
        let place = self.numbers.below(shipment.rows.len());
        let [post, pay, undelivered, withdraw] =
            probe::deeds_on(&shipment.name.identifier, place as u64 + 1);
        match (shipment.rows[place].state, self.numbers.one_in(2)) {
            (State::Open, true) => post,
            (State::Open, false) => withdraw,
            (State::Posted, true) => pay,
            (State::Posted, false) => undelivered,
            (State::Paid, _) => self.transfer(shipment, 100),
            (State::Faulty { .. }, _) => self.give_back(shipment, 1),
            (State::Undelivered { .. }, _) => self.give_back(shipment, 2),
            (State::Withdrawn { .. }, _) => self.give_back(shipment, 3),
        }
    }

    /// Any call with any arguments, good and bad ones.
    fn wild(&mut self, book: &Book) -> Call {
        let identifier = self.wild_identifier();
        let order = self.wild_order();
        match self.numbers.below(16) {
            0 => self.draft(book).intake(),
            1..=5 => spoilt_intake(self.draft(book), &mut self.numbers),
            6 | 7 => self.wild_transfer(book),
            8 => Call::GoAhead { identifier },
            9 => Call::Pair { identifier },
            10 if self.numbers.one_in(4) => Call::Close { identifier },
            10..=12 => {
                let deeds = probe::deeds_on(&identifier, order);
                self.numbers.pick(&deeds)
            }
            _ => Call::Return {
                identifier,
                route: self.wild_number(4),
                money: self.wild_number(2),
            },
        }
    }

    /// An identifier of the list, or bytes that are hardly one.
    fn wild_identifier(&mut self) -> Vec<u8> {
        let mut identifier = self.numbers.pick(&self.identifiers).into_bytes();
        if self.numbers.one_in(6) {
            spoil_byte(&mut identifier, &mut self.numbers);
        }
        identifier
    }

    /// An order's number, or none that an order has.
    fn wild_order(&mut self) -> u64 {
        let most = self.most_orders as u64;
        if self.numbers.one_in(10) {
            let none = [0, most + 1, u64::MAX, 1 << 32, 1 << 63];
            return self.numbers.pick(&none);
        }
        self.numbers.any() % (most + 2)
    }

    /// A number below a limit, or now and then one that is not.
    fn wild_number(&mut self, limit: u64) -> u64 {
        if self.numbers.one_in(12) {
            let above = [limit, limit + 1, 256, 1 << 32, u64::MAX];
            return self.numbers.pick(&above);
        }
        self.numbers.any() % limit
    }

    /// The name of a shipment of the book, or one that is hardly there.
    fn wild_name(&mut self, book: &Book) -> Name {
        let place = self.numbers.below(book.shipments.len() + 1);
        match book.shipments.get(place) {
            Some(shipment) => shipment.name.clone(),
            None => Name {
                identifier: b"ZS1".to_vec(),
                date: 20_201_007,
                payment: b'A',
                kind: 0,
            },
        }
    }

    /// A good title, one whose date is nearly a long one, or one with any byte
    /// spoilt.
    fn wild_title(&mut self, book: &Book) -> Vec<u8> {
        let name = self.wild_name(book);
        let money = self.numbers.pick(&MONEYS);
        match self.numbers.below(4) {
            0 => {
                let date = self.numbers.pick(&nearly_long_dates(&name));
                dated_title(&name, &date, money)
            }
            1 => {
                let both = [title(&name, money), long_title(&name, money)];
                let mut spoilt = self.numbers.pick(&both);
                spoil_byte(&mut spoilt, &mut self.numbers);
                spoilt
            }
            _ => self.title(&name, money),
        }
    }

    /// A transfer whose title or amount may be anything.
    fn wild_transfer(&mut self, book: &Book) -> Call {
        let title = self.wild_title(book);
        let mut amount = self.numbers.any() % 100_000;
        if self.numbers.one_in(2) {
            let edges = [1, 350, MOST_SUM - 1, MOST_SUM, MOST_SUM + 1, 0, u64::MAX];
            amount = self.numbers.pick(&edges);
        }
        Call::Transfer { title, amount }
    }
}
