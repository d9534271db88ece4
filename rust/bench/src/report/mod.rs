//! The tables of single calls.

pub mod table;

use table::{figure, ratio, Table};

/// Nanoseconds a call, by the library and by plain Rust.
#[derive(Clone, Copy)]
pub struct Pair {
    pub proved: f64,
    pub plain: f64,
}

impl Pair {
    /// The better time of each.
    pub fn min(self, other: Pair) -> Pair {
        Pair { proved: self.proved.min(other.proved), plain: self.plain.min(other.plain) }
    }

    pub fn ratio(self) -> String {
        ratio(self.proved, self.plain)
    }
}

/// Each call on an empty, a half full and a full store.
pub fn print_fill(names: &[&str], levels: [&[Pair]; 3]) {
    let mut table =
        Table::new(&["ns a call", "empty", "plain", "ratio", "half full", "plain", "ratio", "full", "plain", "ratio"]);
    for (i, name) in names.iter().enumerate() {
        let cells = levels.iter().flat_map(|l| [figure(l[i].proved), figure(l[i].plain), l[i].ratio()]);
        table.row(std::iter::once(name.to_string()).chain(cells).collect());
    }
    table.print();
}

/// A line of the growth table: the times, each after the first followed by how many times the one before it is.
fn growth(name: String, times: &[f64], ratios: &[String]) -> Vec<String> {
    let mut cells = vec![name, figure(times[0])];
    for two in times.windows(2) {
        cells.push(figure(two[1]));
        cells.push(format!("x{}", ratio(two[1], two[0])));
    }
    cells.extend(ratios.iter().cloned());
    cells
}

/// How each call grows as the size doubles; the last columns are the ratio at the smallest and the largest size.
pub fn print_growth(names: &[&str], sizes: &[usize], levels: &[Vec<Pair>]) {
    let mut headings = vec!["ns a call".to_string(), figure(sizes[0] as f64)];
    for &size in &sizes[1..] {
        headings.extend([figure(size as f64), "growth".to_string()]);
    }
    let ends = [0, sizes.len() - 1];
    headings.extend(ends.map(|e| format!("ratio at {}", figure(sizes[e] as f64))));
    let mut table = Table::new(&headings.iter().map(String::as_str).collect::<Vec<_>>());
    for (i, name) in names.iter().enumerate() {
        let proved: Vec<f64> = levels.iter().map(|l| l[i].proved).collect();
        let plain: Vec<f64> = levels.iter().map(|l| l[i].plain).collect();
        table.row(growth(name.to_string(), &proved, &ends.map(|e| levels[e][i].ratio())));
        table.row(growth(format!("{name}, plain"), &plain, &ends.map(|_| String::new())));
    }
    table.print();
}

/// Recovery of a full journal.
pub fn print_recoveries(rows: &[(&str, usize, Pair)]) {
    let mut table = Table::new(&["microseconds", "records", "library", "plain", "ratio", "ns a record"]);
    for (name, records, pair) in rows {
        table.row(vec![
            name.to_string(),
            figure(*records as f64),
            figure(pair.proved / NS_A_MICROSECOND),
            figure(pair.plain / NS_A_MICROSECOND),
            pair.ratio(),
            figure(pair.proved / *records as f64),
        ]);
    }
    table.print();
}

/// Nanoseconds in a microsecond.
pub const NS_A_MICROSECOND: f64 = 1000.0;
