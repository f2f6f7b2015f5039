//! Counts in rows and columns.

/// What a count has to be.
#[derive(Clone, Copy, PartialEq, Eq)]
pub enum Cell {
    /// It may not stay low.
    Must,
    May,
    /// It stays 0.
    Never,
}

pub struct Table {
    title: &'static str,
    rows: Vec<String>,
    columns: Vec<String>,
    cells: Vec<Cell>,
    counts: Vec<u64>,
}

impl Table {
    /// No counts yet; `cell` says what that of a row and a column has to be.
    pub fn new(
        title: &'static str,
        rows: Vec<String>,
        columns: Vec<String>,
        cell: impl Fn(usize, usize) -> Cell,
    ) -> Table {
        let width = columns.len();
        let places = 0..rows.len() * width;
        Table {
            title,
            counts: vec![0; places.len()],
            cells: places
                .map(|place| cell(place / width, place % width))
                .collect(),
            rows,
            columns,
        }
    }

    pub fn count(&mut self, row: usize, column: usize) {
        self.counts[row * self.columns.len() + column] += 1;
    }

    /// The sum of a row.
    pub fn row(&self, row: usize) -> u64 {
        let width = self.columns.len();
        self.counts[row * width..][..width].iter().sum()
    }

    /// Adds the counts of another table of the same shape.
    pub fn add(&mut self, other: &Table) {
        for (count, more) in self.counts.iter_mut().zip(&other.counts) {
            *count += more;
        }
    }

    /// Says which counts are lower than this, or not 0, and may not be.
    pub fn wrong(&self, least: u64) -> Vec<String> {
        let mut wrong = Vec::new();
        for (place, (&cell, &count)) in self.cells.iter().zip(&self.counts).enumerate() {
            let why = match cell {
                Cell::Must if count < least => "seldom",
                Cell::Never if count > 0 => "often",
                _ => continue,
            };
            let row = &self.rows[place / self.columns.len()];
            let column = &self.columns[place % self.columns.len()];
            wrong.push(format!(
                "too {why}: {}, {row}, {column}: {count}",
                self.title
            ));
        }
        wrong
    }

    pub fn print(&self) {
        let lengths = self.rows.iter().map(String::len);
        let first = lengths.max().unwrap_or(0).max(self.title.len());
        let counts = self.counts.iter().map(|count| count.to_string().len());
        let most = counts.max().unwrap_or(0).max(5);
        let widths: Vec<usize> = (self.columns.iter())
            .map(|column| column.len().max(most) + 1)
            .collect();
        let mut line = format!("{:first$} ", self.title);
        for (column, width) in self.columns.iter().zip(&widths) {
            line += &format!("{column:>width$}");
        }
        println!("{line}");
        for (row, name) in self.rows.iter().enumerate() {
            let mut line = format!("{name:first$} ");
            for (column, width) in widths.iter().enumerate() {
                line += &format!("{:>width$}", self.cell_text(row, column));
            }
            println!("{}", line.trim_end());
        }
    }

    /// A count, or a dot where it stays 0.
    fn cell_text(&self, row: usize, column: usize) -> String {
        let place = row * self.columns.len() + column;
        match (self.cells[place], self.counts[place]) {
            (Cell::Never, 0) => ".".into(),
            (_, count) => count.to_string(),
        }
    }
}
