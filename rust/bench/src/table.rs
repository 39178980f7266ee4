//! Results as aligned tables: a line, the archive, what it is measured against,
//! their ratio, and whether the aims are met.

use std::fmt;

/// Times of calls that differ by less are not told apart, in nanoseconds.
const ERROR: f64 = 10.0;

/// What a line should cost at most, in nanoseconds: a byte, or a call.
pub struct Limit {
    most: f64,
    above: &'static str,
}

/// The limit of an intake, for each byte.
pub const INTAKE: Limit = Limit {
    most: 2.0,
    above: "above 2 ns a byte",
};

/// The limit of a call on a full book.
pub const FULL_BOOK: Limit = Limit {
    most: 2_000.0,
    above: "above 2 µs",
};

/// The limit of a report, for each record.
pub const REPORT: Limit = Limit {
    most: 15.0,
    above: "above 15 ns a record",
};

/// No limit: the line should be no slower than its rival.
pub const NONE: Limit = Limit {
    most: f64::INFINITY,
    above: "",
};

/// A table of lines.
pub struct Table {
    title: String,
    heads: [&'static str; 5],
    limit: Limit,
    lines: Vec<[String; 5]>,
}

impl Table {
    /// An empty table of the archive against this rival, with this limit.
    pub fn new(title: &str, rival: &'static str, limit: Limit) -> Table {
        Table {
            title: title.into(),
            heads: ["line", "archive", rival, "ratio", "aims"],
            limit,
            lines: Vec::new(),
        }
    }

    /// Adds a line of calls, in nanoseconds.
    pub fn add_call(&mut self, line: &str, times: [f64; 2]) {
        let aims = self.aims(times, times[0]);
        self.add(line, times.map(time), times, aims);
    }

    /// Adds a line of passes over so many bytes, in nanoseconds.
    pub fn add_pass(&mut self, line: &str, bytes: usize, times: [f64; 2]) {
        let per_byte = times.map(|time| time / bytes as f64);
        let aims = self.aims(times, per_byte[0]);
        self.add(line, per_byte.map(pace), times, aims);
    }

    /// Adds a line of calls that write so many records, in nanoseconds.
    pub fn add_records(&mut self, line: &str, records: usize, times: [f64; 2]) {
        let each = |whole: f64| whole / records as f64;
        let aims = self.aims(times, each(times[0]));
        let cell = |whole| format!("{}, {:.1} ns a record", time(whole), each(whole));
        self.add(line, times.map(cell), times, aims);
    }

    /// Adds a line with these cells for the archive and its rival.
    fn add(&mut self, line: &str, cells: [String; 2], times: [f64; 2], aims: String) {
        let [archive, rival] = cells;
        let ratio = format!("{:.2}", times[0] / times[1]);
        self.lines.push([line.into(), archive, rival, ratio, aims]);
    }

    /// Which aims are met, where the limit is held against this cost.
    fn aims(&self, [archive, rival]: [f64; 2], cost: f64) -> String {
        let against_rival = if archive <= rival {
            "met"
        } else if archive < rival + ERROR {
            "within the error"
        } else {
            "slower"
        };
        match (against_rival, cost > self.limit.most) {
            (_, false) => against_rival.into(),
            ("slower", true) => format!("slower, {}", self.limit.above),
            (_, true) => self.limit.above.into(),
        }
    }
}

/// A time in nanoseconds or microseconds.
fn time(nanoseconds: f64) -> String {
    if nanoseconds < 1_000.0 {
        format!("{nanoseconds:.0} ns")
    } else {
        format!("{:.2} µs", nanoseconds / 1_000.0)
    }
}

/// What a byte costs, and how many bytes pass in a second.
fn pace(per_byte: f64) -> String {
    format!("{per_byte:.2} ns/B, {:5.0} MB/s", 1_000.0 / per_byte)
}

impl fmt::Display for Table {
    fn fmt(&self, f: &mut fmt::Formatter<'_>) -> fmt::Result {
        let heads = self.heads.map(String::from);
        let mut widths = heads.each_ref().map(|cell| cell.chars().count());
        for line in &self.lines {
            for (width, cell) in widths.iter_mut().zip(line) {
                *width = (*width).max(cell.chars().count());
            }
        }
        let [a, b, c, d, e] = widths;
        writeln!(f, "### {}\n", self.title)?;
        let mut write = |[line, archive, rival, ratio, aims]: &[String; 5]| {
            writeln!(
                f,
                "| {line:a$} | {archive:>b$} | {rival:>c$} | {ratio:>d$} | {aims:e$} |"
            )
        };
        write(&heads)?;
        let rule = |width: usize, end| "-".repeat(width - 1) + end;
        write(&[
            rule(a, "-"),
            rule(b, ":"),
            rule(c, ":"),
            rule(d, ":"),
            rule(e, "-"),
        ])?;
        self.lines.iter().try_for_each(write)
    }
}
