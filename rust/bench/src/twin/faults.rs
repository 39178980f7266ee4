//! The first fault of an order.

/// The first fault of a record of 19 fields or more, 1 to 10; 0 if it has none.
pub fn first_fault(record: &[&str]) -> u8 {
    let field = |number: usize| record[number - 1];
    let (town, street, house, extra) = (field(8), field(9), field(10), field(12));
    if !is_long(field(4), 31) {
        1
    } else if !is_long(field(5), 22) {
        2
    } else if !is_long(field(6), 35) {
        3
    } else if !is_postcode(field(7).as_bytes()) {
        4
    } else if !is_up_to(town, 35)
        || !is_up_to(street, 35)
        || town.is_empty() && street.is_empty() && extra.is_empty()
    {
        5
    } else if !is_up_to(house, 11) || house.is_empty() && extra.is_empty() {
        6
    } else if !extra.is_empty() && !is_extra(extra) {
        7
    } else if !is_long(field(14), 20) {
        8
    } else if !is_long(field(15), 35) {
        9
    } else if record[3..19].iter().any(|field| is_spaced(field)) {
        10
    } else {
        0
    }
}

/// Is it at most so many code points long?
fn is_up_to(field: &str, most: usize) -> bool {
    field.len() <= most || field.chars().count() <= most
}

/// Is it 1 to so many code points long?
fn is_long(field: &str, most: usize) -> bool {
    !field.is_empty() && is_up_to(field, most)
}

/// Is it dd-ddd?
fn is_postcode(field: &[u8]) -> bool {
    match field {
        [front @ .., b'-', c, d, e] if front.len() == 2 => {
            front.iter().chain([c, d, e]).all(u8::is_ascii_digit)
        }
        _ => false,
    }
}

/// Is it `PR`, or `SP_` or `PP_` with 1 to 5 digits?
fn is_extra(field: &str) -> bool {
    let digits = field.strip_prefix("SP_").or(field.strip_prefix("PP_"));
    match digits {
        Some(digits) => {
            (1..=5).contains(&digits.len()) && digits.bytes().all(|b| b.is_ascii_digit())
        }
        None => field == "PR",
    }
}

/// Does it start or end with a space?
fn is_spaced(field: &str) -> bool {
    field.starts_with(' ') || field.ends_with(' ')
}
