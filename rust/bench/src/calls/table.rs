//! A table of text, printed with aligned columns.

/// Rows of cells; the first one has the names of the columns.
pub struct Table(Vec<Vec<String>>);

impl Table {
    pub fn new(names: Vec<String>) -> Self {
        Self(vec![names])
    }

    /// Adds a row of as many cells as there are names.
    pub fn add(&mut self, cells: Vec<String>) {
        assert_eq!(cells.len(), self.0[0].len(), "a cell for each column");
        self.0.push(cells);
    }

    /// The columns that have a cell with text, and their widths.
    fn columns(&self) -> Vec<(usize, usize)> {
        let has_text = |column: &usize| self.0[1..].iter().any(|row| !row[*column].is_empty());
        let width = |column: usize| self.0.iter().map(|row| row[column].len()).max().unwrap_or(0);
        (0..self.0[0].len()).filter(has_text).map(|column| (column, width(column))).collect()
    }

    /// Prints the table in Markdown, without empty columns: the first to the left, the others to the right.
    pub fn print(&self) {
        let columns = self.columns();
        for (row, cells) in self.0.iter().enumerate() {
            let mut line = String::from("|");
            for (column, width) in &columns {
                let cell = &cells[*column];
                line += &if *column == 0 { format!(" {cell:<width$} |") } else { format!(" {cell:>width$} |") };
            }
            println!("{line}");
            if row == 0 {
                println!("|{}", "---|".repeat(columns.len()));
            }
        }
    }
}
