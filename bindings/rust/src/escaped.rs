//! Formats whose values are written escaped.
use std::fmt::{self, Display};

use crate::row::Row;
use crate::sys::{self, code, Field};
use crate::{room, Context, Error};

/// Where the values of a format are shown, and so which of their characters are escaped. A *place*
/// is where a value that is written so stays what it is.
#[derive(Debug, Clone, Copy, PartialEq, Eq, Hash)]
#[non_exhaustive]
pub enum Escape {
    /// A line, as of a log: a value may stand anywhere.
    Line = 1,
    /// A page: in text, or between the quotes of an attribute that is a text.
    Html,
    /// A table: between double quotes.
    Csv,
    /// A JSON text: in a string, or under `?` between strings.
    Json,
    /// A command: between single quotes, with nothing but words before it.
    Shell,
}

/// What is wrong with a value or a list that is out of place.
#[derive(Debug, Clone, Copy, PartialEq, Eq, Hash)]
#[non_exhaustive]
pub enum Why {
    /// The value, or the item of a list that has no format for it, is out of place.
    Value,
    /// An item of the list ends elsewhere than it began.
    Item,
    /// What stands between two items of the list ends elsewhere than it began.
    Join,
    /// The character that pads the list is structure.
    Fill,
}

/// Why there is no escaped text.
#[derive(Debug, Clone, PartialEq)]
#[non_exhaustive]
pub enum EscapeError {
    /// A value or a list is out of place: the first one, by the byte of the format at which it
    /// begins.
    Misplaced(Why, usize),
    /// The fault of a format whose values are all in place.
    Fault(Error),
}

impl EscapeError {
    /// The byte of the format at which it is.
    pub fn place(&self) -> usize {
        match self {
            EscapeError::Misplaced(_, place) => *place,
            EscapeError::Fault(error) => error.place(),
        }
    }
}

impl Why {
    /// That of the library's number.
    fn of(detail: u32) -> Self {
        match detail {
            2 => Why::Item,
            3 => Why::Join,
            4 => Why::Fill,
            _ => Why::Value,
        }
    }
}

impl Display for Why {
    fn fmt(&self, f: &mut fmt::Formatter<'_>) -> fmt::Result {
        f.write_str(match self {
            Why::Value => "this value is out of place",
            Why::Item => "an item of this list ends elsewhere than it began",
            Why::Join => "what is between two items of this list ends elsewhere than it began",
            Why::Fill => "the character that pads this list is structure",
        })
    }
}

impl Display for EscapeError {
    fn fmt(&self, f: &mut fmt::Formatter<'_>) -> fmt::Result {
        match self {
            EscapeError::Misplaced(why, place) => write!(f, "at {place}: {why}"),
            EscapeError::Fault(error) => error.fmt(f),
        }
    }
}

impl std::error::Error for EscapeError {}

impl From<Error> for EscapeError {
    fn from(error: Error) -> Self {
        EscapeError::Fault(error)
    }
}

/// Returns the text of a format with the values of a context, as [`format`](crate::format) does,
/// the text of each value escaped, if each value of the format stands in a place of the escape.
///
/// ```
/// use interpolator::{format_escaped, Escape, EscapeError, Formattable, Why};
/// use std::collections::HashMap;
///
/// let context = HashMap::from([("name", Formattable::display(&"<b>"))]);
/// let page = format_escaped(Escape::Html, "<p title=\"{name}\">{name:>4}</p>", &context)?;
/// assert_eq!(page, "<p title=\"&lt;b&gt;\"> &lt;b&gt;</p>");
/// let refused = format_escaped(Escape::Html, "<p title={name}>", &context);
/// assert_eq!(refused, Err(EscapeError::Misplaced(Why::Value, 9)));
/// # Ok::<(), EscapeError>(())
/// ```
pub fn format_escaped(
    escape: Escape,
    format: &str,
    context: &(impl Context + ?Sized),
) -> Result<String, EscapeError> {
    Row::of(format, &context)?.lend(format, |fields, items, bytes| {
        whole(escape, format, fields, items, bytes)
    })
}

/// The whole text of a row, for which so many bytes are tried first.
fn whole(
    escape: Escape,
    format: &str,
    fields: &[Field<'_>],
    items: &[Field<'_>],
    bytes: usize,
) -> Result<String, EscapeError> {
    let mut text = room(bytes)?;
    let mut answer = sys::escaped(escape as u32, format, fields, items, &mut text);
    if answer.code == code::OK && answer.length > text.capacity() {
        text = room(answer.length)?;
        answer = sys::escaped(escape as u32, format, fields, items, &mut text);
    }
    match answer.code {
        code::OK => Ok(text),
        code::MISPLACED => Err(EscapeError::Misplaced(Why::of(answer.detail), answer.place)),
        _ => Err(Error::of(answer.fault(), format).into()),
    }
}
