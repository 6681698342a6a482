//! Plain text in columns.

use std::fmt::Write;

/// On which side of its column a text stands.
#[derive(Clone, Copy, PartialEq, Eq)]
pub enum Side {
    Left,
    Right,
}

/// A heading, and below it rows of as many columns.
pub struct Table<const N: usize> {
    sides: [Side; N],
    rows: Vec<[String; N]>,
}

impl<const N: usize> Table<N> {
    pub fn new(headings: [(&str, Side); N]) -> Self {
        Table { sides: headings.map(|(_, side)| side), rows: vec![headings.map(|(heading, _)| heading.into())] }
    }

    pub fn add(&mut self, row: [String; N]) {
        self.rows.push(row);
    }

    /// The table, each column as wide as its widest text, with two spaces between.
    pub fn text(&self) -> String {
        let mut widths = [0; N];
        for row in &self.rows {
            for (width, text) in widths.iter_mut().zip(row) {
                *width = text.chars().count().max(*width);
            }
        }
        let mut table = String::new();
        for row in &self.rows {
            let mut line = String::new();
            for ((text, &width), &side) in row.iter().zip(&widths).zip(&self.sides) {
                let _ = match side {
                    Side::Left => write!(line, "{text:width$}  "),
                    Side::Right => write!(line, "{text:>width$}  "),
                };
            }
            table += line.trim_end();
            table += "\n";
        }
        table
    }
}

#[cfg(test)]
mod tests {
    use super::*;

    #[test]
    fn columns() {
        let mut table = Table::new([("mark", Side::Left), ("entries", Side::Right), ("x", Side::Left)]);
        table.add(["größe".into(), "4096".into(), "y".into()]);
        table.add(["a".into(), "0".into(), String::new()]);
        assert_eq!(table.text(), "mark   entries  x\ngröße     4096  y\na            0\n");
    }
}
