//! Tables as aligned text that is Markdown as well.

/// A table: a heading for each column, and rows of cells.
pub struct Table {
    rows: Vec<Vec<String>>,
}

impl Table {
    pub fn new(headings: &[&str]) -> Self {
        Table { rows: vec![headings.iter().map(|h| h.to_string()).collect()] }
    }

    pub fn row(&mut self, cells: Vec<String>) {
        self.rows.push(cells);
    }

    fn width(&self, column: usize) -> usize {
        self.rows.iter().map(|row| row[column].chars().count()).max().unwrap_or(0)
    }

    /// A line, its first cell to the left and the numbers to the right.
    fn line(cells: &[String], widths: &[usize]) -> String {
        let mut line = format!("| {:<1$} |", cells[0], widths[0]);
        for (cell, width) in cells.iter().zip(widths).skip(1) {
            line.push_str(&format!(" {cell:>width$} |"));
        }
        line
    }

    pub fn print(&self) {
        let widths: Vec<usize> = (0..self.rows[0].len()).map(|c| self.width(c)).collect();
        println!("{}", Self::line(&self.rows[0], &widths));
        let rule: Vec<String> = widths.iter().skip(1).map(|w| format!("{}:|", "-".repeat(w + 1))).collect();
        println!("|{}|{}", "-".repeat(widths[0] + 2), rule.concat());
        self.rows[1..].iter().for_each(|row| println!("{}", Self::line(row, &widths)));
    }
}

/// Below this a number is shown with two places behind the point.
const TWO_PLACES: f64 = 10.0;
/// Below this with one.
const ONE_PLACE: f64 = 100.0;
/// Digits between two commas.
const GROUP: usize = 3;

/// A number as a person reads it: two or three figures that count, thousands set apart.
pub fn figure(x: f64) -> String {
    if x < TWO_PLACES {
        return format!("{x:.2}");
    }
    if x < ONE_PLACE {
        return format!("{x:.1}");
    }
    let digits = format!("{x:.0}");
    let mut text = String::new();
    for (i, digit) in digits.chars().enumerate() {
        if i > 0 && (digits.len() - i) % GROUP == 0 {
            text.push(',');
        }
        text.push(digit);
    }
    text
}

/// How many times as long one took as the other.
pub fn ratio(a: f64, b: f64) -> String {
    figure(a / b)
}
