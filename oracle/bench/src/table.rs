//! Tables with aligned columns: the first to the left, the others to the right. A column of empty cells is left out.

pub struct Table {
    lines: Vec<Vec<String>>,
}

impl Table {
    pub fn headed(heading: &[&str]) -> Self {
        let heading = heading.iter().map(|word| String::from(*word)).collect();
        Table {
            lines: vec![heading],
        }
    }

    pub fn line(&mut self, cells: Vec<String>) {
        self.lines.push(cells);
    }

    pub fn print(&self) {
        println!("{}", self.laid().join("\n"));
    }

    fn laid(&self) -> Vec<String> {
        let columns = (0..self.lines[0].len()).filter(|&column| self.is_filled(column));
        let widths: Vec<(usize, usize)> = columns.map(|c| (c, self.width(c))).collect();
        let lines = self.lines.iter();
        lines.map(|cells| aligned(cells, &widths)).collect()
    }

    fn is_filled(&self, column: usize) -> bool {
        let mut below = self.lines.iter().skip(1);
        below.any(|cells| !cells[column].is_empty())
    }

    fn width(&self, column: usize) -> usize {
        let cells = self.lines.iter().map(|cells| cells[column].chars());
        cells.map(Iterator::count).max().unwrap_or(0)
    }
}

/// The cells of these columns, each in its width.
fn aligned(cells: &[String], widths: &[(usize, usize)]) -> String {
    let mut line = String::new();
    for &(column, width) in widths {
        let cell = &cells[column];
        line += &match column {
            0 => format!("{cell:width$}"),
            _ => format!("  {cell:>width$}"),
        };
    }
    line
}

/// Three digits and a unit.
pub fn duration(seconds: f64) -> String {
    let units = [(1.0, "s"), (1e-3, "ms"), (1e-6, "µs"), (1e-9, "ns")];
    let fits = units.iter().find(|(unit, _)| seconds >= *unit);
    let (unit, name) = fits.unwrap_or(&units[3]);
    format!("{} {name}", three_digits(seconds / unit))
}

/// Fewer behind the point the more stand before it.
pub fn three_digits(value: f64) -> String {
    match value {
        _ if value >= 99.95 => format!("{value:.0}"),
        _ if value >= 9.995 => format!("{value:.1}"),
        _ => format!("{value:.2}"),
    }
}

#[cfg(test)]
mod tests {
    use super::*;

    #[test]
    fn columns_are_aligned() {
        let mut table = Table::headed(&["row", "none", "time"]);
        table.line(["greedy", "", "1.00 µs"].map(String::from).into());
        table.line(["a", "", "12.0 ns"].map(String::from).into());
        let laid = ["row        time", "greedy  1.00 µs", "a       12.0 ns"];
        assert_eq!(table.laid(), laid);
    }

    #[test]
    fn durations() {
        let said = [2.5, 0.0125, 99.96e-6, 1e-6, 9.87e-9].map(duration);
        assert_eq!(said, ["2.50 s", "12.5 ms", "100 µs", "1.00 µs", "9.87 ns"]);
    }
}
