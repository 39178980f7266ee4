//! A good file to break, and short hands for the calls.

use reference::{Answer, Book, Call, Profile, SheetRow};

pub const ZWR: u64 = 0;
pub const OPR: u64 = 1;
pub const ZPR: u64 = 2;
pub const ZZR: u64 = 3;
pub const K: u64 = 0;
pub const O: u64 = 1;

pub const CAP: u64 = 9_999_999_999_999;

pub fn profile() -> Profile {
    Profile {
        today: 20_201_007,
        flat: [350, 351, 352, 353, 354],
        fields: 21,
        // "ZS1's rate is 0"
        rates: [0, 25, 50, 75, 100],
    }
}

/// One record of 21 fields without a fault.
pub fn record(number: usize, amount: &str) -> Vec<String> {
    let fields = [
        "2",
        &number.to_string(),
        amount,
        "Wiśniewska",
        "Łucja",
        "Łódź",
        "90-001",
        "Łódź",
        "Żwirki",
        "7A",
        "12",
        "",
        "",
        "ZASIŁEK",
        "2020-10",
        "",
        "",
        "",
        "",
        "",
        "000",
    ];
    fields.iter().map(|field| field.to_string()).collect()
}

/// A name and a file in parts, to be broken one at a time.
#[derive(Clone)]
pub struct Draft {
    pub profile: Profile,
    pub name: Vec<u8>,
    pub mark: Vec<u8>,
    pub header: Vec<String>,
    pub records: Vec<Vec<String>>,
    /// What stands between and behind the lines.
    pub line_end: String,
    pub file_end: String,
    /// The whole file, where a test wants other bytes than the parts give.
    pub whole: Option<Vec<u8>>,
}

impl Draft {
    /// A good file: this identifier, these amounts, A, kind 0, 7 October 2020.
    pub fn new(identifier: &str, amounts: &[&str]) -> Draft {
        let mut draft = Draft {
            profile: profile(),
            name: format!("EPEZ{identifier}-201007-A-0").into_bytes(),
            mark: vec![0xEF, 0xBB, 0xBF],
            header: "1|ZUS|EPE|1.0||ABC123|20201007120000|20201007|A|0||"
                .split('|')
                .map(String::from)
                .collect(),
            records: Vec::new(),
            line_end: "\r\n".into(),
            file_end: "\r\n".into(),
            whole: None,
        };
        draft.header[4] = identifier.into();
        for (index, amount) in amounts.iter().enumerate() {
            draft.records.push(record(index + 1, amount));
        }
        draft.recount();
        draft
    }

    /// ZS1: "orders 100.00, 50.00 (no surname), 25.50".
    pub fn zs1() -> Draft {
        let mut draft = Draft::new("ZS1", &["100.00", "50.00", "25.50"]);
        draft.records[1][3].clear();
        draft
    }

    /// A good file of many orders of 0.01 each.
    pub fn many(identifier: &str, orders: usize) -> Draft {
        Draft::new(identifier, &vec!["0.01"; orders])
    }

    /// Sets header fields 11 and 12 to what the records add up to.
    pub fn recount(&mut self) {
        self.header[10] = self.records.len().to_string();
        let mut sum = 0u64;
        for record in &self.records {
            sum += record[2].replace('.', "").parse::<u64>().unwrap();
        }
        self.header[11] = text_of(sum);
    }

    pub fn header(mut self, position: usize, value: &str) -> Draft {
        self.header[position - 1] = value.into();
        self
    }

    /// Sets a field of the first record.
    pub fn field(mut self, position: usize, value: &str) -> Draft {
        self.records[0][position - 1] = value.into();
        self
    }

    pub fn name(mut self, name: &str) -> Draft {
        self.name = name.as_bytes().to_vec();
        self
    }

    pub fn today(mut self, today: u64) -> Draft {
        self.profile.today = today;
        self
    }

    /// Sets flat part and rate of every kind.
    pub fn tariff(mut self, flat: u64, rate: u64) -> Draft {
        self.profile.flat = [flat; 5];
        self.profile.rates = [rate; 5];
        self
    }

    /// Sets the benefit date in the name and in the header.
    pub fn benefit_date(mut self, date: u64) -> Draft {
        let text = date.to_string();
        self.name = String::from_utf8(self.name)
            .unwrap()
            .split('-')
            .enumerate()
            .map(|(index, part)| if index == 1 { &text[2..] } else { part })
            .collect::<Vec<&str>>()
            .join("-")
            .into_bytes();
        self.header[7] = text;
        self
    }

    pub fn file(&self) -> Vec<u8> {
        if let Some(whole) = &self.whole {
            return whole.clone();
        }
        let mut lines = vec![self.header.join("|")];
        for record in &self.records {
            lines.push(record.join("|"));
        }
        let mut file = self.mark.clone();
        file.extend(lines.join(&self.line_end).into_bytes());
        file.extend(self.file_end.as_bytes());
        file
    }

    /// The text behind the byte mark, to be edited and put back by `with_text`.
    pub fn text(&self) -> String {
        String::from_utf8(self.file()[3..].to_vec()).unwrap()
    }

    pub fn with_text(mut self, text: &str) -> Draft {
        let mut whole = vec![0xEF, 0xBB, 0xBF];
        whole.extend(text.as_bytes());
        self.whole = Some(whole);
        self
    }

    pub fn intake(&self) -> Call {
        Call::Intake {
            profile: self.profile.clone(),
            name: self.name.clone(),
            file: self.file(),
        }
    }

    pub fn judge(&self) -> Result<(u64, u64), u32> {
        reference::judge(&self.profile, &self.name, &self.file())
    }

    /// The first order's fault.
    pub fn fault(&self) -> Option<u8> {
        let file = reference::read_file(&self.profile, &self.name, &self.file()).unwrap();
        file.orders[0].fault
    }
}

/// An amount as the text of a record has it.
pub fn text_of(amount: u64) -> String {
    format!("{}.{:02}", amount / 100, amount % 100)
}

pub fn accepted(orders: u64, faulty: u64) -> Answer {
    Answer::Accepted { orders, faulty }
}

pub fn returned(sum: u64, count: u64) -> Answer {
    Answer::Returned { sum, count }
}

pub fn refused(number: u32) -> Answer {
    Answer::Refused(number)
}

/// A call whose refusal must leave the book as it was, and whose end must be
/// sound.
pub fn ask(book: &mut Book, call: &Call) -> Answer {
    let before = book.clone();
    let answer = book.call(call);
    if matches!(answer, Answer::Refused(_) | Answer::Short { .. }) {
        assert!(before == *book, "{answer:?} changed the book");
    }
    if before.is_sound() {
        assert!(book.is_sound(), "{answer:?} left an unsound book");
    }
    answer
}

pub fn intake(book: &mut Book, draft: &Draft) -> Answer {
    ask(book, &draft.intake())
}

pub fn transfer(book: &mut Book, title: &str, amount: u64) -> Answer {
    let title = title.as_bytes().to_vec();
    ask(book, &Call::Transfer { title, amount })
}

pub fn go_ahead(book: &mut Book, identifier: &str) -> Answer {
    let identifier = identifier.as_bytes().to_vec();
    ask(book, &Call::GoAhead { identifier })
}

pub fn pair(book: &mut Book, identifier: &str) -> Answer {
    let identifier = identifier.as_bytes().to_vec();
    ask(book, &Call::Pair { identifier })
}

pub fn close(book: &mut Book, identifier: &str) -> Answer {
    let identifier = identifier.as_bytes().to_vec();
    ask(book, &Call::Close { identifier })
}

pub fn post(book: &mut Book, identifier: &str, order: u64) -> Answer {
    let identifier = identifier.as_bytes().to_vec();
    ask(book, &Call::Post { identifier, order })
}

pub fn pay(book: &mut Book, identifier: &str, order: u64) -> Answer {
    let identifier = identifier.as_bytes().to_vec();
    ask(book, &Call::Pay { identifier, order })
}

pub fn mark_undelivered(book: &mut Book, identifier: &str, order: u64) -> Answer {
    let identifier = identifier.as_bytes().to_vec();
    ask(book, &Call::MarkUndelivered { identifier, order })
}

pub fn withdraw(book: &mut Book, identifier: &str, order: u64) -> Answer {
    let identifier = identifier.as_bytes().to_vec();
    ask(book, &Call::Withdraw { identifier, order })
}

pub fn give_back(book: &mut Book, identifier: &str, route: u64, money: u64) -> Answer {
    let identifier = identifier.as_bytes().to_vec();
    ask(
        book,
        &Call::Return {
            identifier,
            route,
            money,
        },
    )
}

/// The sheet's rows, each of which must balance: accepted = held + free + left,
/// in either money.
pub fn sheet(book: &Book) -> Vec<SheetRow> {
    let mut table = vec![SheetRow::default(); book.shipments.len()];
    let filled = book.sheet(&mut table, &mut [0; 8]);
    assert_eq!(filled, Ok(table.len()));
    for row in &table {
        for of_a_money in row.sums.chunks(4) {
            let rest: u64 = of_a_money[1..].iter().sum();
            assert_eq!(of_a_money[0], rest, "{row:?}");
        }
    }
    table
}

/// A book with a Waiting shipment ZS1.
pub fn zs1_waiting() -> Book {
    let mut book = Book::empty();
    assert_eq!(intake(&mut book, &Draft::zs1()), accepted(3, 1));
    book
}

/// A book with ZS1 Paired, both needs covered exactly.
pub fn zs1_paired() -> Book {
    let mut book = zs1_waiting();
    assert_eq!(
        transfer(&mut book, "EPEZZS1-201007-A-0-K", 17_550),
        Answer::Done
    );
    assert_eq!(
        transfer(&mut book, "EPEZZS1-201007-A-0-O", 1_050),
        Answer::Done
    );
    assert_eq!(go_ahead(&mut book, "ZS1"), Answer::Done);
    assert_eq!(pair(&mut book, "ZS1"), Answer::Paired);
    book
}
