//! The balance sheet of a book, and how it is shown.

use crate::sys::{SheetRow, Totals};
use std::fmt;

/// The balance sheet of a book. Shown as a table in zloty, without a line end
/// behind its last line; the crate's first example has one.
#[derive(Clone, Debug, PartialEq, Eq)]
pub struct Sheet {
    /// A row for each shipment, in order of intake.
    pub rows: Vec<SheetRow>,
    /// What the rows add up to.
    pub totals: Totals,
}

impl SheetRow {
    /// The shipment's identifier.
    pub fn identifier(&self) -> &[u8] {
        let length = self.id.len().min(self.id_len as usize);
        &self.id[..length]
    }

    /// The row's eight sums alone.
    pub fn sums(&self) -> Totals {
        Totals {
            k_accepted: self.k_accepted,
            k_held: self.k_held,
            k_free: self.k_free,
            k_left: self.k_left,
            o_accepted: self.o_accepted,
            o_held: self.o_held,
            o_free: self.o_free,
            o_left: self.o_left,
        }
    }
}

/// The texts of a line of the table, from left to right.
type Line = [String; 9];

/// The first line.
fn titles() -> Line {
    [
        "shipment",
        "K accepted",
        "K held",
        "K free",
        "K left",
        "O accepted",
        "O held",
        "O free",
        "O left",
    ]
    .map(String::from)
}

/// The line of these sums.
fn line(title: String, sums: Totals) -> Line {
    [
        title,
        sums.k_accepted.to_string(),
        sums.k_held.to_string(),
        sums.k_free.to_string(),
        sums.k_left.to_string(),
        sums.o_accepted.to_string(),
        sums.o_held.to_string(),
        sums.o_free.to_string(),
        sums.o_left.to_string(),
    ]
}

impl fmt::Display for Sheet {
    fn fmt(&self, f: &mut fmt::Formatter<'_>) -> fmt::Result {
        let mut lines = vec![titles()];
        for row in &self.rows {
            let identifier = row.identifier().escape_ascii().to_string();
            lines.push(line(identifier, row.sums()));
        }
        lines.push(line("in all".into(), self.totals)); // no identifier has a space
        let widths: [usize; 9] = std::array::from_fn(|column| {
            let lengths = lines.iter().map(|line| line[column].len());
            lengths.max().unwrap_or(0)
        });
        for (place, line) in lines.iter().enumerate() {
            let end = if place == 0 { "" } else { "\n" };
            write!(f, "{end}{:<width$}", line[0], width = widths[0])?;
            for (text, width) in line.iter().zip(widths).skip(1) {
                write!(f, "  {text:>width$}")?;
            }
        }
        Ok(())
    }
}

#[cfg(test)]
mod tests {
    use super::*;
    use crate::money::{Amount, Fee};

    /// Where the texts of a line end, but for the first: two spaces part them.
    fn ends(line: &str) -> Vec<usize> {
        let parted = line.match_indices("  ").map(|(place, _)| place);
        let ends = parted.filter(|place| !line[..*place].ends_with(' '));
        ends.chain([line.len()]).skip(1).collect()
    }

    #[test]
    fn the_table_stays_aligned_for_the_largest_numbers() {
        let longest = SheetRow {
            id: *b"ZSabcdefgh0123456",
            id_len: 17,
            k_accepted: Amount(9_999_999_999_999),
            k_left: Amount(1),
            o_free: Fee(u64::MAX),
            ..SheetRow::default()
        };
        let mut shortest = SheetRow::default();
        shortest.id[..3].copy_from_slice(b"ZS1");
        shortest.id_len = 3;
        let totals = Totals {
            k_held: Amount(999_999_999_999_999),
            o_left: Fee(100),
            ..Totals::default()
        };
        let rows = vec![longest, shortest];
        let table = Sheet { rows, totals }.to_string();
        let lines: Vec<&str> = table.lines().collect();
        assert_eq!(lines.len(), 4);
        assert_eq!(ends(lines[0]).len(), 8);
        assert!(
            lines.iter().all(|line| ends(line) == ends(lines[0])),
            "{table}"
        );
    }
}
