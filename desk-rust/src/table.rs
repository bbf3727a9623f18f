//! Columns in line, under their headings.

use crate::paint::{Colour, Painted};

/// A cell that is longer sticks out and does not widen its column: one long name does not move all lines apart.
const WIDEST: usize = 60;

/// What stands between two columns.
const GAP: &str = "  ";

#[derive(Clone, Copy, PartialEq, Eq)]
pub enum Side {
    Left,
    Right,
}

pub struct Cell {
    text: String,
    colour: Option<Colour>,
}

impl Cell {
    pub fn coloured(text: impl Into<String>, colour: Option<Colour>) -> Cell {
        Cell {
            text: text.into(),
            colour,
        }
    }

    fn width(&self) -> usize {
        self.text.chars().count()
    }
}

impl<T: Into<String>> From<T> for Cell {
    fn from(text: T) -> Cell {
        Cell::coloured(text, None)
    }
}

/// A column: its heading, and on which side its cells are in line.
pub type Column = (&'static str, Side);

pub struct Table<const COLUMNS: usize> {
    sides: [Side; COLUMNS],
    rows: Vec<[Cell; COLUMNS]>,
}

impl<const COLUMNS: usize> Table<COLUMNS> {
    pub fn new(columns: [Column; COLUMNS]) -> Self {
        let heading = columns.map(|(heading, _)| Cell::coloured(heading, Some(Colour::Bold)));
        Table {
            sides: columns.map(|(_, side)| side),
            rows: vec![heading],
        }
    }

    pub fn row(&mut self, cells: [Cell; COLUMNS]) {
        self.rows.push(cells);
    }

    fn width(&self, column: usize) -> usize {
        let widths = self.rows.iter().map(|row| row[column].width());
        widths.filter(|width| *width <= WIDEST).max().unwrap_or(0)
    }

    /// Whether a column has any text. One that has none is left out.
    fn used(&self, column: usize) -> bool {
        self.rows.iter().any(|row| !row[column].text.is_empty())
    }

    /// Writes the rows, each so far in. No line ends with spaces, and a row without text is left out.
    pub fn write(self, indent: usize, out: &mut Painted) {
        let widths: [usize; COLUMNS] = std::array::from_fn(|column| self.width(column));
        let used: [bool; COLUMNS] = std::array::from_fn(|column| self.used(column));
        for row in self.rows {
            let Some(last) = row.iter().rposition(|cell| !cell.text.is_empty()) else {
                continue;
            };
            let mut before = " ".repeat(indent);
            for (column, cell) in row
                .into_iter()
                .enumerate()
                .filter(|(column, _)| *column <= last && used[*column])
            {
                out.piece(before, None);
                let room = " ".repeat(widths[column].saturating_sub(cell.width()));
                // padded first and painted then: what makes a colour takes no room in a line
                let text = match self.sides[column] {
                    Side::Right => room + &cell.text,
                    Side::Left if column == last => cell.text,
                    Side::Left => cell.text + &room,
                };
                out.piece(text, cell.colour);
                before = GAP.into();
            }
            out.piece("\n", None);
        }
    }
}
