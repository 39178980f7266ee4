//! The book as plain values, its calls and their answers.

use crate::fee::{Fee, Tariff};
use crate::file::{ask_profile, open, Profile};
use crate::name::{read_title, Name};
use crate::{MOST_AMOUNT, MOST_ROWS, MOST_SHIPMENTS, MOST_SUM};

/// "Amounts (K) and fees (O) are two moneys and never add."
#[derive(Clone, Copy, Debug, PartialEq, Eq)]
pub enum Money {
    /// Amounts.
    K,
    /// Fees.
    O,
}

impl Money {
    /// The money that a caller's number means, if any.
    pub fn from_number(number: u64) -> Option<Money> {
        match number {
            0 => Some(Money::K),
            1 => Some(Money::O),
            _ => None,
        }
    }
}

/// The four routes by which money goes back.
#[derive(Clone, Copy, Debug, PartialEq, Eq)]
pub enum Route {
    /// Faulty orders.
    Opr,
    /// Undelivered orders.
    Zpr,
    /// Withdrawn orders.
    Zzr,
    /// Free money.
    Zwr,
}

impl Route {
    /// The route that a caller's number means, if any: the library's numbers.
    pub fn from_number(number: u64) -> Option<Route> {
        match number {
            0 => Some(Route::Zwr),
            1 => Some(Route::Opr),
            2 => Some(Route::Zpr),
            3 => Some(Route::Zzr),
            _ => None,
        }
    }
}

/// "stage Waiting, Paired or Closed"
#[derive(Clone, Copy, Debug, PartialEq, Eq)]
pub enum Stage {
    /// Since intake.
    Waiting,
    /// Money and orders are paired.
    Paired,
    /// By WYC or ODR.
    Closed,
}

/// "which moneys still wait"
#[derive(Clone, Copy, Debug, PartialEq, Eq)]
pub struct Waits {
    /// Does the order's amount wait?
    pub k: bool,
    /// Does its fee wait?
    pub o: bool,
}

impl Waits {
    /// Both moneys wait.
    pub const BOTH: Waits = Waits { k: true, o: true };

    fn of(self, money: Money) -> bool {
        match money {
            Money::K => self.k,
            Money::O => self.o,
        }
    }

    fn end(&mut self, money: Money) {
        match money {
            Money::K => self.k = false,
            Money::O => self.o = false,
        }
    }
}

/// "a state: Open, Posted, Paid, Faulty (fault, and which moneys still wait),
/// Undelivered (whether K waits), Withdrawn (which moneys wait)."
#[derive(Clone, Copy, Debug, PartialEq, Eq)]
pub enum State {
    /// Nothing happened yet.
    Open,
    /// On its way, its fee earned.
    Posted,
    /// Paid out.
    Paid,
    /// Refused by its first fault.
    Faulty {
        /// The first fault, 1 to 10.
        fault: u8,
        /// Which moneys still wait.
        waits: Waits,
    },
    /// Came back from its way.
    Undelivered {
        /// Whether K waits.
        k_waits: bool,
    },
    /// Withdrawn on its own.
    Withdrawn {
        /// Which moneys wait.
        waits: Waits,
    },
}

impl State {
    /// Does this money of an order in this state wait?
    pub fn waits(self, money: Money) -> bool {
        match self {
            State::Open | State::Posted | State::Paid => false,
            State::Faulty { waits, .. } => waits.of(money),
            State::Undelivered { k_waits } => money == Money::K && k_waits,
            State::Withdrawn { waits } => waits.of(money),
        }
    }

    /// Does an order of a Paired shipment in this state hold this money? "an
    /// order holds K while Open or Posted or while its K waits, and O while
    /// Open or while its O waits."
    fn holds(self, money: Money) -> bool {
        let by_state = match money {
            Money::K => self == State::Open || self == State::Posted,
            Money::O => self == State::Open,
        };
        by_state || self.waits(money)
    }

    /// Is this a state whose waiting money goes back by this route?
    fn goes_by(self, route: Route) -> bool {
        match route {
            Route::Opr => matches!(self, State::Faulty { .. }),
            Route::Zpr => matches!(self, State::Undelivered { .. }),
            Route::Zzr => matches!(self, State::Withdrawn { .. }),
            Route::Zwr => false,
        }
    }

    /// Ends the wait for this money.
    fn end_wait(&mut self, money: Money) {
        match self {
            State::Faulty { waits, .. } | State::Withdrawn { waits } => waits.end(money),
            State::Undelivered { k_waits } if money == Money::K => *k_waits = false,
            _ => {}
        }
    }
}

/// "An order's row has its amount and a state", and document 02 has "rows their
/// fee and remainder".
#[derive(Clone, Debug, PartialEq, Eq)]
pub struct Row {
    /// The order's amount in grosze.
    pub amount: u64,
    /// Its fee, and the division's remainder.
    pub fee: Fee,
    /// Its state.
    pub state: State,
}

impl Row {
    /// What the order is worth in a money: its amount, or its fee. "Earned and
    /// returned fees are each order's own from here on" (document 02).
    pub fn worth(&self, money: Money) -> u64 {
        match money {
            Money::K => self.amount,
            Money::O => self.fee.fee,
        }
    }
}

/// "A shipment has its name parts, fee F (the profile's for its kind), stage
/// Waiting, Paired or Closed, whether a go-ahead (OBS) came, transfers accepted
/// per money, and surplus returned per money." By document 02, "Shipments keep
/// flat part and rate" instead of F.
#[derive(Clone, Debug, PartialEq, Eq)]
pub struct Shipment {
    /// Its name parts.
    pub name: Name,
    /// Its flat part and rate.
    pub tariff: Tariff,
    /// Its stage.
    pub stage: Stage,
    /// Whether a go-ahead came.
    pub go_ahead: bool,
    /// K transfers accepted.
    pub accepted_k: u64,
    /// O transfers accepted.
    pub accepted_o: u64,
    /// K surplus returned.
    pub returned_k: u64,
    /// O surplus returned.
    pub returned_o: u64,
    /// Its orders; order number n is `rows[n - 1]`.
    pub rows: Vec<Row>,
}

impl Shipment {
    /// Transfers accepted.
    pub fn accepted(&self, money: Money) -> u64 {
        match money {
            Money::K => self.accepted_k,
            Money::O => self.accepted_o,
        }
    }

    /// Surplus returned.
    pub fn returned(&self, money: Money) -> u64 {
        match money {
            Money::K => self.returned_k,
            Money::O => self.returned_o,
        }
    }

    /// "Need: K is the sum of all amounts, faulty ones too", and by document 02
    /// "the need in O is the sum of fees".
    pub fn need(&self, money: Money) -> u64 {
        self.rows.iter().map(|row| row.worth(money)).sum()
    }

    /// "Free money is transfers accepted, less the need once Paired, less
    /// surplus returned." (Of a sound book.)
    pub fn free(&self, money: Money) -> u64 {
        let need = if self.stage == Stage::Paired {
            self.need(money)
        } else {
            0
        };
        self.accepted(money) - need - self.returned(money)
    }

    /// What its orders hold. "In other stages orders hold nothing."
    pub fn held(&self, money: Money) -> u64 {
        if self.stage != Stage::Paired {
            return 0;
        }
        let mut held = 0;
        for row in &self.rows {
            if row.state.holds(money) {
                held += row.worth(money);
            }
        }
        held
    }

    /// Is there a faulty order?
    pub fn has_faults(&self) -> bool {
        self.rows
            .iter()
            .any(|row| matches!(row.state, State::Faulty { .. }))
    }

    /// "Sound means: [...]", what of it speaks of one shipment.
    fn is_sound(&self) -> bool {
        // "every name part in its form"
        if !self.name.is_in_form() {
            return false;
        }
        // "every number in its range"
        let sums = [
            self.accepted_k,
            self.accepted_o,
            self.returned_k,
            self.returned_o,
        ];
        if !self.tariff.is_in_range() || sums.iter().any(|sum| *sum > MOST_SUM) {
            return false;
        }
        // "an order in each shipment"
        if self.rows.is_empty() {
            return false;
        }
        for row in &self.rows {
            // "every number in its range"
            if row.amount < 1 || row.amount > MOST_AMOUNT {
                return false;
            }
            // "(the division holds)" (document 02)
            if !self.tariff.divides(row.amount, row.fee) {
                return false;
            }
            match row.state {
                State::Open => {}
                State::Faulty { fault, waits } => {
                    // "every number in its range"
                    if !(1..=10).contains(&fault) {
                        return false;
                    }
                    // "both moneys of a Faulty order waiting unless Paired"
                    if waits != Waits::BOTH && self.stage != Stage::Paired {
                        return false;
                    }
                }
                // "states other than Open and Faulty only when Paired"
                _ => {
                    if self.stage != Stage::Paired {
                        return false;
                    }
                }
            }
        }
        // "go-ahead only with faults"
        if self.go_ahead && !self.has_faults() {
            return false;
        }
        // "Paired with faults only after a go-ahead"
        if self.stage == Stage::Paired && self.has_faults() && !self.go_ahead {
            return false;
        }
        for money in [Money::K, Money::O] {
            // "transfers accepted are at least surplus returned plus, when
            // Paired, the need"
            let mut least = self.returned(money);
            if self.stage == Stage::Paired {
                least += self.need(money);
            }
            if self.accepted(money) < least {
                return false;
            }
            // "Surplus returned is zero while Waiting."
            if self.stage == Stage::Waiting && self.returned(money) != 0 {
                return false;
            }
        }
        true
    }
}

/// What a caller passes.
#[derive(Clone, Debug, PartialEq, Eq)]
pub enum Call {
    /// An order file comes in.
    Intake {
        /// The caller's profile.
        profile: Profile,
        /// The file's name.
        name: Vec<u8>,
        /// The file's bytes.
        file: Vec<u8>,
    },
    /// A bank transfer comes in.
    Transfer {
        /// The transfer's title.
        title: Vec<u8>,
        /// Its amount in grosze.
        amount: u64,
    },
    /// The go-ahead (OBS) for a shipment with faults.
    GoAhead {
        /// The shipment's identifier.
        identifier: Vec<u8>,
    },
    /// Pair money with orders.
    Pair {
        /// The shipment's identifier.
        identifier: Vec<u8>,
    },
    /// Close (WYC or ODR).
    Close {
        /// The shipment's identifier.
        identifier: Vec<u8>,
    },
    /// Post one order.
    Post {
        /// The shipment's identifier.
        identifier: Vec<u8>,
        /// The order's number, from 1.
        order: u64,
    },
    /// Pay one order.
    Pay {
        /// The shipment's identifier.
        identifier: Vec<u8>,
        /// The order's number, from 1.
        order: u64,
    },
    /// Mark one order undelivered.
    MarkUndelivered {
        /// The shipment's identifier.
        identifier: Vec<u8>,
        /// The order's number, from 1.
        order: u64,
    },
    /// Withdraw one order.
    Withdraw {
        /// The shipment's identifier.
        identifier: Vec<u8>,
        /// The order's number, from 1.
        order: u64,
    },
    /// Return money by a route.
    Return {
        /// The shipment's identifier.
        identifier: Vec<u8>,
        /// The route's number, see [`Route::from_number`].
        route: u64,
        /// The money's number, see [`Money::from_number`].
        money: u64,
    },
}

/// Every form of answer.
#[derive(Clone, Copy, Debug, PartialEq, Eq)]
pub enum Answer {
    /// A question's number; the book is unchanged.
    Refused(u32),
    /// Transfer, go-ahead, close, mark undelivered, withdraw: "only that they
    /// were done".
    Done,
    /// Intake: "An accepted file answers its order count and its faulty count."
    Accepted {
        /// The order count.
        orders: u64,
        /// The faulty count.
        faulty: u64,
    },
    /// Pair: both needs are covered.
    Paired,
    /// Pair: "Short with the two missing amounts".
    Short {
        /// What is missing of K.
        k: u64,
        /// What is missing of O.
        o: u64,
    },
    /// "An accepted post answers F": by document 02, the order's own fee.
    FeeEarned(u64),
    /// "pay the order's amount".
    AmountPaid(u64),
    /// "a return its sum and count".
    Returned {
        /// The sum that goes back.
        sum: u64,
        /// The number of orders whose wait it ends.
        count: u64,
    },
}

/// The book: its shipments in order of intake.
#[derive(Clone, Debug, Default, PartialEq, Eq)]
pub struct Book {
    /// "up to 32 shipments in order of intake"
    pub shipments: Vec<Shipment>,
}

impl Book {
    /// An empty book.
    pub fn empty() -> Book {
        Book::default()
    }

    /// "Sound means: [...]", what of it can fail in plain values. (Memory long
    /// enough and the orders' parts following one another cannot.)
    pub fn is_sound(&self) -> bool {
        // "Lent memory with up to 32 shipments", 2,048 rows in all
        if self.shipments.len() > MOST_SHIPMENTS || self.row_count() > MOST_ROWS {
            return false;
        }
        if !self.shipments.iter().all(Shipment::is_sound) {
            return false;
        }
        // "identifiers all different"
        for (index, shipment) in self.shipments.iter().enumerate() {
            let earlier = &self.shipments[..index];
            if earlier
                .iter()
                .any(|other| other.name.identifier == shipment.name.identifier)
            {
                return false;
            }
        }
        true
    }

    /// The rows of all shipments.
    pub fn row_count(&self) -> usize {
        self.shipments
            .iter()
            .map(|shipment| shipment.rows.len())
            .sum()
    }

    /// The shipment with this identifier, if there is one.
    pub fn shipment(&self, identifier: &[u8]) -> Option<&Shipment> {
        self.shipments
            .iter()
            .find(|shipment| shipment.name.identifier == identifier)
    }

    /// "identifier known? 13"
    fn known(&mut self, identifier: &[u8]) -> Result<&mut Shipment, u32> {
        self.shipments
            .iter_mut()
            .find(|shipment| shipment.name.identifier == identifier)
            .ok_or(13)
    }

    /// One call. A refusal leaves the book as it was.
    pub fn call(&mut self, call: &Call) -> Answer {
        let answer = match call {
            Call::Intake {
                profile,
                name,
                file,
            } => self.intake(profile, name, file),
            other => self.other_call(other),
        };
        match answer {
            Ok(answer) => answer,
            Err(number) => Answer::Refused(number),
        }
    }

    /// Every call but intake.
    fn other_call(&mut self, call: &Call) -> Result<Answer, u32> {
        // "Each call below first asks: book sound? 10."
        if !self.is_sound() {
            return Err(10);
        }
        match call {
            Call::Intake { .. } => unreachable!("intake is asked 900, not 10"),
            Call::Transfer { title, amount } => self.transfer(title, *amount),
            Call::GoAhead { identifier } => self.go_ahead(identifier),
            Call::Pair { identifier } => self.pair(identifier),
            Call::Close { identifier } => self.close(identifier),
            Call::Post { identifier, order } => self.post(identifier, *order),
            Call::Pay { identifier, order } => self.pay(identifier, *order),
            Call::MarkUndelivered { identifier, order } => {
                self.mark_undelivered(identifier, *order)
            }
            Call::Withdraw { identifier, order } => self.withdraw(identifier, *order),
            Call::Return {
                identifier,
                route,
                money,
            } => self.give_back(identifier, *route, *money),
        }
    }

    /// Intake of an order file.
    fn intake(&mut self, profile: &Profile, name: &[u8], file: &[u8]) -> Result<Answer, u32> {
        // "Profile within the ranges above? 905", then document 02's 907
        ask_profile(profile)?;
        // "Lent book sound? 900 (at intake only; 10 would be taken for 010)"
        if !self.is_sound() {
            return Err(900);
        }
        // The file's questions 001 to 023.
        let opened = open(name, file)?;
        // "Identifier not yet in the book? 101"
        if self.shipment(&opened.name.identifier).is_some() {
            return Err(101);
        }
        // The file's questions 102 to 132, then document 02's 906.
        let file = opened.judge_rest(profile)?;
        // "Fewer than 32 shipments in the book? 903"
        if self.shipments.len() >= MOST_SHIPMENTS {
            return Err(903);
        }
        // "Its orders fit with those present in 2,048 rows? 904"
        if self.row_count() + file.orders.len() > MOST_ROWS {
            return Err(904);
        }

        // "Intake adds a shipment that is Waiting, without go-ahead or money,
        // its orders Open or Faulty with both moneys waiting."
        let answer = Answer::Accepted {
            orders: file.orders.len() as u64,
            faulty: file.faulty(),
        };
        let mut rows = Vec::new();
        for order in &file.orders {
            let state = match order.fault {
                None => State::Open,
                Some(fault) => State::Faulty {
                    fault,
                    waits: Waits::BOTH,
                },
            };
            rows.push(Row {
                amount: order.amount,
                fee: order.fee,
                state,
            });
        }
        self.shipments.push(Shipment {
            name: file.name,
            tariff: file.tariff,
            stage: Stage::Waiting,
            go_ahead: false,
            accepted_k: 0,
            accepted_o: 0,
            returned_k: 0,
            returned_o: 0,
            rows,
        });
        Ok(answer)
    }

    /// "Transfer (title, amount)"
    fn transfer(&mut self, title: &[u8], amount: u64) -> Result<Answer, u32> {
        // "title is a shipment name in the form above, then `-K` or `-O`? 11"
        // (its date of six digits or, by document 02's A1, of eight)
        let (name, money) = read_title(title)?;
        // "Amount 1 to 9,999,999,999,999? 12"
        if !(1..=MOST_SUM).contains(&amount) {
            return Err(12);
        }
        // "Name in the book? 13" (the whole name)
        let shipment = self
            .shipments
            .iter_mut()
            .find(|shipment| shipment.name == name)
            .ok_or(13u32)?;
        // "Total accepted for that money still at most 9,999,999,999,999? 14"
        let total = shipment.accepted(money) + amount;
        if total > MOST_SUM {
            return Err(14);
        }
        // "Any stage takes it."
        match money {
            Money::K => shipment.accepted_k = total,
            Money::O => shipment.accepted_o = total,
        }
        Ok(Answer::Done)
    }

    /// "Go-ahead"
    fn go_ahead(&mut self, identifier: &[u8]) -> Result<Answer, u32> {
        // "identifier known? 13"
        let shipment = self.known(identifier)?;
        // "Waiting? 15"
        if shipment.stage != Stage::Waiting {
            return Err(15);
        }
        // "Any faulty order? 16"
        if !shipment.has_faults() {
            return Err(16);
        }
        // "None came before? 17"
        if shipment.go_ahead {
            return Err(17);
        }
        shipment.go_ahead = true;
        Ok(Answer::Done)
    }

    /// "Pair"
    fn pair(&mut self, identifier: &[u8]) -> Result<Answer, u32> {
        // "13"
        let shipment = self.known(identifier)?;
        // "15"
        if shipment.stage != Stage::Waiting {
            return Err(15);
        }
        // "No faults, or go-ahead given? 18"
        if shipment.has_faults() && !shipment.go_ahead {
            return Err(18);
        }
        // "Paired when both needs are covered; Short changes nothing."
        let missing = |money: Money| {
            shipment
                .need(money)
                .saturating_sub(shipment.accepted(money))
        };
        let (k, o) = (missing(Money::K), missing(Money::O));
        if k > 0 || o > 0 {
            return Ok(Answer::Short { k, o });
        }
        shipment.stage = Stage::Paired;
        Ok(Answer::Paired)
    }

    /// "Close (WYC or ODR)"
    fn close(&mut self, identifier: &[u8]) -> Result<Answer, u32> {
        // "13"
        let shipment = self.known(identifier)?;
        // "15"
        if shipment.stage != Stage::Waiting {
            return Err(15);
        }
        // "Waiting becomes Closed."
        shipment.stage = Stage::Closed;
        Ok(Answer::Done)
    }

    /// The questions that post, pay, mark undelivered and withdraw one share:
    /// 13, 19, 20, and 21 with the state that fits. Gives back the row.
    fn row_in_state(
        &mut self,
        identifier: &[u8],
        order: u64,
        fitting: State,
    ) -> Result<&mut Row, u32> {
        // "13"
        let shipment = self.known(identifier)?;
        // "Paired? 19"
        if shipment.stage != Stage::Paired {
            return Err(19);
        }
        // "Order number from 1 to the count? 20"
        if order < 1 || order > shipment.rows.len() as u64 {
            return Err(20);
        }
        let row = &mut shipment.rows[order as usize - 1];
        // "State fits? 21"
        if row.state != fitting {
            return Err(21);
        }
        Ok(row)
    }

    /// "Post: Open to Posted, F earned": the order's own fee.
    fn post(&mut self, identifier: &[u8], order: u64) -> Result<Answer, u32> {
        let row = self.row_in_state(identifier, order, State::Open)?;
        row.state = State::Posted;
        Ok(Answer::FeeEarned(row.worth(Money::O)))
    }

    /// "Pay: Posted to Paid."
    fn pay(&mut self, identifier: &[u8], order: u64) -> Result<Answer, u32> {
        let row = self.row_in_state(identifier, order, State::Posted)?;
        row.state = State::Paid;
        Ok(Answer::AmountPaid(row.worth(Money::K)))
    }

    /// "Undelivered: Posted to Undelivered, K waiting."
    fn mark_undelivered(&mut self, identifier: &[u8], order: u64) -> Result<Answer, u32> {
        let row = self.row_in_state(identifier, order, State::Posted)?;
        row.state = State::Undelivered { k_waits: true };
        Ok(Answer::Done)
    }

    /// "Withdraw: Open to Withdrawn, both waiting."
    fn withdraw(&mut self, identifier: &[u8], order: u64) -> Result<Answer, u32> {
        let row = self.row_in_state(identifier, order, State::Open)?;
        row.state = State::Withdrawn { waits: Waits::BOTH };
        Ok(Answer::Done)
    }

    /// "Return (route, money)"
    fn give_back(&mut self, identifier: &[u8], route: u64, money: u64) -> Result<Answer, u32> {
        // "13"
        let shipment = self.known(identifier)?;
        let (Some(route), Some(money)) = (Route::from_number(route), Money::from_number(money))
        else {
            // A number that means no route or no money: asked 19, then 22.
            if shipment.stage != Stage::Paired {
                return Err(19);
            }
            return Err(22);
        };
        if route == Route::Zwr {
            // "For ZWR: not Waiting? 24."
            if shipment.stage == Stage::Waiting {
                return Err(24);
            }
            // "Anything above zero to return? 23"
            let sum = shipment.free(money);
            if sum == 0 {
                return Err(23);
            }
            // "ZWR returns the free money, count 0."
            match money {
                Money::K => shipment.returned_k += sum,
                Money::O => shipment.returned_o += sum,
            }
            return Ok(Answer::Returned { sum, count: 0 });
        }
        // "For the rest: Paired? 19."
        if shipment.stage != Stage::Paired {
            return Err(19);
        }
        // "Not ZPR with O? 22"
        if route == Route::Zpr && money == Money::O {
            return Err(22);
        }
        // "OPR, ZPR, ZZR return all that waits in Faulty, Undelivered,
        // Withdrawn orders, answer sum and order count"
        let mut sum = 0;
        let mut count = 0;
        for row in &shipment.rows {
            if row.state.goes_by(route) && row.state.waits(money) {
                sum += row.worth(money);
                count += 1;
            }
        }
        // "Anything above zero to return? 23"
        if sum == 0 {
            return Err(23);
        }
        // "and nothing of that money waits there after."
        for row in &mut shipment.rows {
            if row.state.goes_by(route) {
                row.state.end_wait(money);
            }
        }
        Ok(Answer::Returned { sum, count })
    }
}
