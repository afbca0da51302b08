//! Why there is no text.
use std::fmt::{self, Display};
use std::num::ParseIntError;

use crate::sys::{broken, code, Fault};

/// How the library's sentence of an option goes on.
const UNSUPPORTED_THERE: &str = "is not supported without feature";

/// How the sentence of an option goes on here. Where the feature is named, that is not what is missing.
const UNSUPPORTED: &str = match cfg!(feature = "pointer") {
    true => "is not supported even with feature",
    false => UNSUPPORTED_THERE,
};

/// What a call returns.
pub type Result<T = (), E = Error> = std::result::Result<T, E>;

/// The traits of `std::fmt` that a format may name, and `Iter` for a list under `i`.
#[derive(Debug, PartialEq, Eq, Clone, Copy, Hash)]
#[non_exhaustive]
pub enum Trait {
    /// `{x:b}`
    Binary,
    /// `{x:?}`, `{x:x?}` and `{x:X?}`
    Debug,
    /// `{x}`
    Display,
    /// `{x:e}`
    LowerExp,
    /// `{x:x}`
    LowerHex,
    /// `{x:o}`
    Octal,
    /// `{x:p}`, which no format can use: it is [`UnsupportedOption`](Error::UnsupportedOption).
    #[cfg(feature = "pointer")]
    Pointer,
    /// `{x:E}`
    UpperExp,
    /// `{x:X}`
    UpperHex,
    /// `{x:i}`
    Iter,
}

/// The traits in the order of their numbers in the library.
const TRAITS: [Trait; 9] = [
    Trait::Display,
    Trait::Debug,
    Trait::Binary,
    Trait::Octal,
    Trait::LowerHex,
    Trait::UpperHex,
    Trait::LowerExp,
    Trait::UpperExp,
    Trait::Iter,
];

/// The fault of a format, with its place: a count of bytes from the beginning of the format.
#[derive(Debug, PartialEq, Clone)]
#[non_exhaustive]
pub enum Error {
    /// The value has no such trait. The place is the byte after the spec.
    MissingTraitImpl(Trait, usize),
    /// A value failed to format itself, the writer failed (at place 0), or memory was refused.
    Fmt(fmt::Error, usize),
    /// The format is broken.
    Parse(ParseError),
    /// The context has no value of this name. The place is the byte after the opening brace.
    MissingValue(String, usize),
    /// The format has an option (the first text) that is not written: `p`, with the feature `pointer`
    /// (the second) or without it. The place is that of the option.
    UnsupportedOption(&'static str, &'static str, usize),
}

/// How a format is broken, with the place: a count of bytes from the beginning of the format.
#[derive(Debug, PartialEq, Clone)]
#[non_exhaustive]
pub enum ParseError {
    /// The format ends within an argument. The place is the byte after its opening brace.
    FormatSpecUnclosed(usize),
    /// This text should stand at the place.
    Expected(&'static str, usize),
    /// The width is no `usize`.
    InvalidWidth(ParseIntError, usize),
    /// The precision is no `usize`.
    InvalidPrecision(ParseIntError, usize),
    /// The fill is one that cannot be used: `{`.
    Fill(usize),
    /// A list has a sign, `#`, the zero flag or a precision.
    Iter(usize),
    /// A bound of a list's range is no `isize`.
    RangeBound(ParseIntError, usize),
}

impl Error {
    /// The byte of the format at which the fault is.
    ///
    /// ```
    /// use interpolator::{format, Context, Formattable};
    /// use std::collections::HashMap;
    ///
    /// let none: HashMap<&str, Formattable> = HashMap::new();
    /// assert_eq!(format("Hello {name}", &none).unwrap_err().place(), 7);
    /// ```
    pub fn place(&self) -> usize {
        match self {
            Error::MissingTraitImpl(_, place)
            | Error::Fmt(_, place)
            | Error::MissingValue(_, place)
            | Error::UnsupportedOption(_, _, place) => *place,
            Error::Parse(error) => error.place(),
        }
    }

    /// Memory was refused, or lists lie more than 64 deep.
    pub(crate) fn refused() -> Self {
        Error::Fmt(fmt::Error, 0)
    }

    /// The fault of a format that a call returned.
    pub(crate) fn of(fault: Fault, format: &str) -> Self {
        let place = fault.place;
        match fault.code {
            code::MISSING_TRAIT => Error::MissingTraitImpl(missing(fault.detail), place),
            code::FMT => Error::Fmt(fmt::Error, place),
            code::PARSE => Error::Parse(ParseError::of(fault.detail, place)),
            code::MISSING_VALUE => Error::MissingValue(name_at(format, place), place),
            code::UNSUPPORTED => Error::UnsupportedOption("p", "pointer", place),
            _ => Error::refused(),
        }
    }
}

impl ParseError {
    /// The byte of the format at which the fault is.
    pub fn place(&self) -> usize {
        match self {
            ParseError::FormatSpecUnclosed(place)
            | ParseError::Expected(_, place)
            | ParseError::InvalidWidth(_, place)
            | ParseError::InvalidPrecision(_, place)
            | ParseError::Fill(place)
            | ParseError::Iter(place)
            | ParseError::RangeBound(_, place) => *place,
        }
    }

    /// The fault of that number.
    fn of(detail: u32, place: usize) -> Self {
        let number = || number_error(detail >> 4);
        match detail & 15 {
            broken::EXPECTED_BRACE => ParseError::Expected("}", place),
            broken::EXPECTED_BRACKET => ParseError::Expected("(", place),
            broken::WIDTH => ParseError::InvalidWidth(number(), place),
            broken::PRECISION => ParseError::InvalidPrecision(number(), place),
            broken::FILL => ParseError::Fill(place),
            broken::LIST => ParseError::Iter(place),
            broken::RANGE => ParseError::RangeBound(number(), place),
            _ => ParseError::FormatSpecUnclosed(place),
        }
    }
}

/// Puts this crate's sentence of an option into a picture of the library, behind a name of so many bytes.
pub(crate) fn name_option(picture: &mut String, name: usize) {
    if UNSUPPORTED == UNSUPPORTED_THERE {
        return;
    }
    let behind = picture.get(name..).unwrap_or("");
    if let Some(at) = behind.find(UNSUPPORTED_THERE) {
        let first = name + at;
        picture.replace_range(first..first + UNSUPPORTED_THERE.len(), UNSUPPORTED);
    }
}

/// The trait of that number.
fn missing(number: u32) -> Trait {
    TRAITS
        .get(number as usize)
        .copied()
        .unwrap_or(Trait::Display)
}

/// The name of the argument whose opening brace is before this place.
fn name_at(format: &str, place: usize) -> String {
    let after = format.get(place..).unwrap_or("").trim_start();
    let end = after.find([':', '}']).unwrap_or(after.len());
    after[..end].to_string()
}

/// std's fault of a number, by the library's number for it.
fn number_error(number: u32) -> ParseIntError {
    let example = match number {
        1 => "",
        3 => "128",
        4 => "-129",
        _ => "-",
    };
    match example.parse::<i8>() {
        Err(error) => error,
        Ok(number) => unreachable!("{number} is none of these examples"),
    }
}

impl Display for Error {
    fn fmt(&self, f: &mut fmt::Formatter<'_>) -> fmt::Result {
        match self {
            Error::MissingTraitImpl(missing, place) => write!(
                f,
                "trait `{missing:?}` not implemented, used by format argument at {place}"
            ),
            Error::Fmt(error, place) => write!(f, "error while formatting at {place}: {error}"),
            Error::Parse(error) => write!(f, "error while parsing input: {error}"),
            Error::MissingValue(name, place) => {
                write!(f, "specified value not in context `{name}` at {place}")
            }
            Error::UnsupportedOption(option, feature, place) => {
                write!(f, "option `{option}` {UNSUPPORTED} `{feature}` at {place}")
            }
        }
    }
}

impl Display for ParseError {
    fn fmt(&self, f: &mut fmt::Formatter<'_>) -> fmt::Result {
        match self {
            ParseError::FormatSpecUnclosed(place) => {
                write!(f, "Format spec at {place} is nether closed with a `}}`")
            }
            ParseError::Expected(text, place) => write!(f, "Expected `{text}` at {place}"),
            ParseError::InvalidWidth(error, place) => {
                write!(f, "Unable to parse width at {place} as usize: {error}")
            }
            ParseError::InvalidPrecision(error, place) => {
                write!(f, "Unable to parse precision at {place} as usize: {error}")
            }
            ParseError::Fill(place) => write!(
                f,
                "Fill is not supported due to https://github.com/rust-lang/rfcs/pull/3394 at {place}"
            ),
            ParseError::Iter(place) => write!(
                f,
                "Width, precision, `-`, `+` and `#` are not supported for `i` at {place}"
            ),
            ParseError::RangeBound(error, place) => {
                write!(f, "Unable to parse range bound at {place} as isize: {error}")
            }
        }
    }
}

impl std::error::Error for Error {}

impl std::error::Error for ParseError {}

impl From<ParseError> for Error {
    fn from(error: ParseError) -> Self {
        Error::Parse(error)
    }
}
