//! Strengths, the four kinds of access, and tables of sixteen cells.

/// In rising order, so that the derived comparison is document 01's.
#[derive(Clone, Copy, Debug, PartialEq, Eq, PartialOrd, Ord, Hash)]
pub enum Strength {
    Unordered,
    NonAtomic,
    MultipleCopy,
    SingleCopy,
}

impl Strength {
    pub const RISING: [Strength; 4] = [
        Strength::Unordered,
        Strength::NonAtomic,
        Strength::MultipleCopy,
        Strength::SingleCopy,
    ];

    pub fn letter(self) -> u8 {
        match self {
            Strength::Unordered => b'-',
            Strength::NonAtomic => b'N',
            Strength::MultipleCopy => b'M',
            Strength::SingleCopy => b'S',
        }
    }

    pub fn of_letter(letter: u8) -> Option<Strength> {
        Strength::RISING
            .into_iter()
            .find(|strength| strength.letter() == letter)
    }
}

#[derive(Clone, Copy, Debug, PartialEq, Eq, Hash)]
pub enum Kind {
    Ld,
    Cld,
    St,
    Cst,
}

/// The order of a table's rows, for the earlier access.
pub const ROWS: [Kind; 4] = [Kind::Cld, Kind::Cst, Kind::Ld, Kind::St];

/// The order of a row's cells, for the later access.
pub const COLUMNS: [Kind; 4] = [Kind::Ld, Kind::Cld, Kind::St, Kind::Cst];

fn row_of(earlier: Kind) -> usize {
    match earlier {
        Kind::Cld => 0,
        Kind::Cst => 1,
        Kind::Ld => 2,
        Kind::St => 3,
    }
}

fn column_of(later: Kind) -> usize {
    match later {
        Kind::Ld => 0,
        Kind::Cld => 1,
        Kind::St => 2,
        Kind::Cst => 3,
    }
}

#[derive(Clone, Copy, Debug, PartialEq, Eq, Hash)]
pub struct Table {
    cells: [[Strength; 4]; 4],
}

impl Table {
    pub fn filled(strength: Strength) -> Table {
        Table {
            cells: [[strength; 4]; 4],
        }
    }

    /// Nothing where a row has another length or a letter that is no strength.
    pub fn of_rows(rows: [&str; 4]) -> Option<Table> {
        let mut table = Table::filled(Strength::Unordered);
        for (cells, row) in table.cells.iter_mut().zip(rows) {
            let letters: [u8; 4] = row.as_bytes().try_into().ok()?;
            for (cell, letter) in cells.iter_mut().zip(letters) {
                *cell = Strength::of_letter(letter)?;
            }
        }
        Some(table)
    }

    pub fn cell(&self, earlier: Kind, later: Kind) -> Strength {
        self.cells[row_of(earlier)][column_of(later)]
    }

    pub fn set(&mut self, earlier: Kind, later: Kind, strength: Strength) {
        self.cells[row_of(earlier)][column_of(later)] = strength;
    }

    /// All sixteen cells in the order in which a text writes them.
    pub fn cells(&self) -> impl Iterator<Item = Strength> + '_ {
        self.cells.iter().flatten().copied()
    }

    /// The four rows with single spaces between, as in a text.
    pub fn written(&self) -> String {
        let rows = self
            .cells
            .iter()
            .map(|row| row.iter().map(|cell| char::from(cell.letter())).collect());
        rows.collect::<Vec<String>>().join(" ")
    }
}
