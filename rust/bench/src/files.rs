//! Order files to feed to both books: 21 fields to a record, with words, numbers
//! and faults that look drawn at random.

use buntingraft::Profile;

/// The profile by which the files below are taken in.
pub const PROFILE: Profile = Profile {
    today: 20_201_007,
    flat: [350, 351, 352, 353, 354],
    fields: 21,
    rates: [0; 5],
};

/// The same with a rate.
pub const RATED: Profile = Profile {
    rates: [125, 126, 127, 128, 129],
    ..PROFILE
};

/// What is said of lines and tables of a profile behind their names.
pub fn with_a_rate(profile: &Profile) -> &'static str {
    match profile.rates[0] {
        0 => "",
        _ => ", with a rate",
    }
}

/// Which letters and faults the records of a file have.
#[derive(Clone, Copy, PartialEq, Eq)]
pub enum Records {
    /// ASCII letters, no faults.
    Ascii,
    /// Polish letters, no faults.
    Polish,
    /// Polish letters, about every fifth order faulty, the first among them.
    Faulty,
    /// Polish letters, every order faulty.
    AllFaulty,
}

/// An order file.
pub struct OrderFile {
    /// Its name.
    pub name: Vec<u8>,
    /// Its bytes.
    pub bytes: Vec<u8>,
    /// The sum of its amounts.
    pub sum: u64,
}

/// Surnames, first names, towns and streets without Polish letters.
#[rustfmt::skip]
const ASCII: [[&str; 6]; 4] = [
    ["NOWAK", "KOWALSKI", "WIECZOREK", "LIS", "KWIATKOWSKA-MAZUR", "GRABOWSKA"],
    ["JAN", "ANNA MARIA", "KATARZYNA", "EWA", "BARBARA", "ALEKSANDER"],
    ["WARSZAWA", "KATOWICE", "NOWY TARG", "LUBLIN", "OLSZTYN", "BIELSKO-BIALA"],
    ["POLNA", "MARSZALKOWSKA", "3 MAJA", "ALEJA WOJSKA POLSKIEGO", "SADOWA", "LIPOWA"],
];

/// The same with Polish letters.
#[rustfmt::skip]
const POLISH: [[&str; 6]; 4] = [
    ["WÓJCIK", "ŚWIĄTEK", "DĄBROWSKA", "ŻAK", "KOŹMIŃSKA-ZIELIŃSKA", "WIŚNIEWSKA"],
    ["ŁUCJA", "STANISŁAW", "MAŁGORZATA", "GRAŻYNA", "PAWEŁ", "ZDZISŁAWA"],
    ["ŁÓDŹ", "KRAKÓW", "GDAŃSK", "CZĘSTOCHOWA", "POZNAŃ", "WROCŁAW"],
    ["DŁUGA", "ŻWIRKI I WIGURY", "ŚWIĘTEGO JANA", "NAJŚWIĘTSZEJ MARYI PANNY", "GÓRNICZA", "ŁĄKOWA"],
];

/// A number below a bound that looks drawn at random for an order and a field.
pub fn drawn(order: usize, field: usize, bound: usize) -> usize {
    let seed = (order * 32 + field) as u64;
    let mixed = seed.wrapping_mul(0x9E37_79B9_7F4A_7C15);
    let mixed = (mixed ^ mixed >> 32).wrapping_mul(0xBF58_476D_1CE4_E5B9);
    (mixed >> 33) as usize % bound
}

/// Is this order of a file with faults a faulty one?
pub fn is_faulty(order: usize) -> bool {
    order == 1 || drawn(order, 0, 5) == 0
}

/// The amount of an order.
fn amount(order: usize) -> u64 {
    5_000 + drawn(order, 3, 250_000) as u64
}

/// What the fees of so many orders come to, kind 0.
pub fn fees(profile: &Profile, orders: usize) -> u64 {
    let fee = |order| profile.flat[0] + amount(order) * profile.rates[0] / 10_000;
    (1..=orders).map(fee).sum()
}

/// An order file of so many orders for this shipment, A, kind 0.
pub fn order_file(id: &str, orders: usize, records: Records) -> OrderFile {
    let mut lines = String::new();
    let mut sum = 0;
    for order in 1..=orders {
        let amount = amount(order);
        sum += amount;
        let mut record = record(order, amount, records);
        let is_spoilt = match records {
            Records::Ascii | Records::Polish => false,
            Records::Faulty => is_faulty(order),
            Records::AllFaulty => true,
        };
        if is_spoilt {
            spoil(&mut record, drawn(order, 1, 10) + 1);
        }
        lines += &record.join("|");
        lines += "\r\n";
    }
    let header = format!(
        "\u{FEFF}1|ZUS|EPE|1.0|{id}|ABC123|20201007120000|20201007|A|0|{orders}|{}\r\n",
        zlotys(sum)
    );
    OrderFile {
        name: format!("EPEZ{id}-201007-A-0").into_bytes(),
        bytes: (header + &lines).into_bytes(),
        sum,
    }
}

/// Grosze as an amount's text.
fn zlotys(grosze: u64) -> String {
    format!("{}.{:02}", grosze / 100, grosze % 100)
}

/// The fields of a record without faults.
#[rustfmt::skip]
fn record(order: usize, amount: u64, records: Records) -> Vec<String> {
    let [surnames, first_names, towns, streets] = match records {
        Records::Ascii => ASCII,
        Records::Polish | Records::Faulty | Records::AllFaulty => POLISH,
    };
    let surname = surnames[drawn(order, 4, 6)];
    let first_name = first_names[drawn(order, 5, 6)];
    let town = towns[drawn(order, 6, 6)];
    let postcode = format!("{:02}-{:03}", drawn(order, 7, 100), drawn(order, 8, 1_000));
    let street = streets[drawn(order, 9, 6)];
    let house = (drawn(order, 10, 150) + 1).to_string();
    let flat = ["", "2", "17"][drawn(order, 11, 3)];
    let benefit = format!("{:010}", drawn(order, 14, 1_000_000_000));
    let (order, amount) = (order.to_string(), zlotys(amount));
    let fields = [
        "2", &order, &amount, surname, first_name, town, &postcode, town, street, &house, flat,
        "", "UP 1", &benefit, "2020-10", "", "E", "", "", "", "000",
    ];
    fields.map(String::from).to_vec()
}

/// Gives a record this fault, 1 to 10.
fn spoil(record: &mut [String], fault: usize) {
    let (field, text) = match fault {
        1 => (4, ""),
        2 => (5, "STANISŁAWA WŁADYSŁAWA Ż"),
        3 => (6, ""),
        4 => (7, "00950"),
        5 => (8, "KONSTANTYNOWO-BRZĘCZYSZCZYKOWO GÓRNE"),
        6 => (10, ""),
        7 => (12, "SP"),
        8 => (14, ""),
        9 => (15, ""),
        _ => (13, "UP 1 "),
    };
    record[field - 1] = text.into();
}
