//! A table: one format, many rows.
use std::fmt::{self, Display};

use crate::row::Row;
use crate::sys::{self, code};
use crate::{laid, room, Error, Formattable};

/// The texts of the rows of a table.
#[derive(Debug, Clone, PartialEq, Eq)]
pub struct Rows {
    text: String,
    ends: Vec<usize>,
}

impl Rows {
    /// How many rows there are.
    pub fn len(&self) -> usize {
        self.ends.len()
    }

    /// Whether there is no row.
    pub fn is_empty(&self) -> bool {
        self.ends.is_empty()
    }

    /// The text of a row.
    pub fn get(&self, row: usize) -> Option<&str> {
        let end = *self.ends.get(row)?;
        let first = if row == 0 { 0 } else { self.ends[row - 1] };
        self.text.get(first..end)
    }

    /// The texts of the rows, in order.
    pub fn iter(&self) -> impl Iterator<Item = &str> {
        (0..self.len()).filter_map(|row| self.get(row))
    }

    /// The texts of all rows, one after the other.
    pub fn text(&self) -> &str {
        &self.text
    }
}

/// Why a table has no text.
#[derive(Debug, Clone, PartialEq)]
pub enum RowsError {
    /// The cells are not as many as the columns times a number of rows.
    Cells {
        /// How many cells there are.
        cells: usize,
        /// How many columns there are.
        columns: usize,
    },
    /// A column or a cell is a list, which a table cannot hold.
    List,
    /// The first fault: that of the format with the columns, or else of the first row that has one.
    Fault {
        /// How many rows come before it.
        row: usize,
        /// The fault.
        error: Error,
    },
}

impl Display for RowsError {
    fn fmt(&self, f: &mut fmt::Formatter<'_>) -> fmt::Result {
        match self {
            RowsError::Cells { cells, columns } => {
                write!(f, "{cells} cells are no rows of {columns} columns")
            }
            RowsError::List => write!(f, "a table cannot hold a list"),
            RowsError::Fault { row, error } => write!(f, "row {row}: {error}"),
        }
    }
}

impl std::error::Error for RowsError {
    fn source(&self) -> Option<&(dyn std::error::Error + 'static)> {
        match self {
            RowsError::Fault { error, .. } => Some(error),
            _ => None,
        }
    }
}

/// Writes a table: the format is read once, checked against an example of each column, and written
/// with each row of cells.
///
/// The cells come row by row. A cell that does not resemble its column's example is a fault of its row,
/// if the format uses it in a way that it cannot meet.
///
/// ```
/// use interpolator::{rows, Formattable};
///
/// let columns = [("name", Formattable::display(&"")), ("age", Formattable::integer(&0))];
/// let cells = [
///     Formattable::display(&"Ann"), Formattable::integer(&42),
///     Formattable::display(&"Bo"), Formattable::integer(&7),
/// ];
/// let table = rows("{name:<5}{age:>3}", &columns, &cells)?;
/// assert_eq!(table.iter().collect::<Vec<_>>(), ["Ann   42", "Bo     7"]);
/// # Ok::<(), interpolator::RowsError>(())
/// ```
pub fn rows(
    format: &str,
    columns: &[(&str, Formattable<'_>)],
    cells: &[Formattable<'_>],
) -> Result<Rows, RowsError> {
    let count = cells.len().checked_div(columns.len()).unwrap_or(0);
    if count * columns.len() != cells.len() {
        return Err(RowsError::Cells {
            cells: cells.len(),
            columns: columns.len(),
        });
    }
    let fault = |row: usize, error: Error| RowsError::Fault { row, error };
    let row = Row::table(format, columns, cells).map_err(|error| fault(0, error))?;
    let Some(laid) = row else {
        return Err(RowsError::List);
    };
    let mut ends = vec![0; count];
    laid.lend(format, |columns, cells, bytes| {
        let bytes = bytes.saturating_add(count.saturating_mul(format.len()));
        let mut text = room(bytes)
            .or_else(|_| room(laid::room_for(format)))
            .map_err(|error| fault(0, error))?;
        let mut answer = sys::rows(format, columns, cells, &mut ends, &mut text);
        if answer.code == code::OK && answer.length > text.capacity() {
            text = room(answer.length).map_err(|error| fault(0, error))?;
            answer = sys::rows(format, columns, cells, &mut ends, &mut text);
        }
        match answer.code {
            code::OK => Ok(Rows { text, ends }),
            _ => Err(fault(answer.row, Error::of(answer.fault(), format))),
        }
    })
}
