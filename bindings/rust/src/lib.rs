//! Format strings at run time, with the API of the crate `interpolator` 0.5.0, on top of a formatter
//! that is proved.
//!
//! ```
//! use interpolator::{format, Formattable};
//! use std::collections::HashMap;
//!
//! let words = ["hello", "hi", "hey"].each_ref().map(Formattable::display);
//! let context = HashMap::from([
//!     ("value", Formattable::display(&12)),
//!     ("words", Formattable::iter(&words)),
//! ]);
//! assert_eq!(format("{value:+05}", &context)?, "+0012");
//! assert_eq!(format("{words:i..-1(`{}`)(, )} and {words:i-1(`{}`)}", &context)?,
//!     "`hello`, `hi` and `hey`");
//! # Ok::<(), interpolator::Error>(())
//! ```
//!
//! A format has arguments in braces, `{name}` or `{name:spec}`, where the spec is that of
//! [`std::fmt`] with two exceptions: a width or precision is a number, and there is one trait more,
//! `i`, which writes a list. Literal braces are `{{` and `}}`. After `i` come, each optional, a range
//! (`1..`, `..-1`, `0..=2`, `-1`), the format of an item in parentheses, whose own argument is `{}`,
//! and in parentheses what is written between two items. A group that holds a `)` is set between `#(`
//! and `)#`, with as many `#` as it takes.
//!
//! Whole numbers, floats, texts, `bool` and `char` are written by the library, as by std. Values of any
//! other type are written by their own `fmt`, under the spec that the format has.
//!
//! Beside the API of that crate are [`check`], [`explain`], [`cost`], [`rows`] and [`format_escaped`].
use std::borrow::Borrow;
use std::collections::{BTreeMap, HashMap};
use std::fmt;
use std::hash::{BuildHasher, Hash};

mod error;
mod escaped;
mod formattable;
mod known;
mod laid;
mod macros;
mod pictures;
mod quick;
mod request;
mod row;
mod simple;
mod sys;
mod table;
mod uses;

pub use error::{Error, ParseError, Result, Trait};
pub use escaped::{format_escaped, Escape, EscapeError, Why};
pub use formattable::Formattable;
pub use table::{rows, Rows, RowsError};

use pictures::pictures;
use row::Row;
use sys::{code, Answer, Fault, Field};

/// Where a format finds the values of its names.
///
/// `get` may be called more than once for a name, and for a name whose value is not written in the end.
///
/// ```
/// use interpolator::{format, Context, Formattable};
///
/// struct User {
///     name: String,
///     age: u8,
/// }
///
/// impl Context for User {
///     fn get(&self, key: &str) -> Option<Formattable<'_>> {
///         match key {
///             "name" => Some(Formattable::debug_display(&self.name)),
///             "age" => Some(Formattable::integer(&self.age)),
///             _ => None,
///         }
///     }
/// }
///
/// let ann = User { name: "Ann".to_string(), age: 42 };
/// assert_eq!(format("{name} is {age:#x}", &ann)?, "Ann is 0x2a");
/// # Ok::<(), interpolator::Error>(())
/// ```
pub trait Context {
    /// The value of a name, or none if there is no such name.
    fn get(&self, key: &str) -> Option<Formattable<'_>>;

    /// Hands on all names with their values, each name once, if there are at most so many; else none,
    /// and returns false. To find few names this way is faster than by `get`.
    #[doc(hidden)]
    fn each<'c>(&'c self, most: usize, take: Take<'_, 'c>) -> bool {
        let _ = (most, take);
        false
    }
}

/// The most bytes that a text leaves free beyond as many as it has.
const MOST_SPARE: usize = 512;

/// Up to so many bytes, a room is taken as other small things are: the program ends if there is no
/// memory.
const MOST_AT_ONCE: usize = 4096;

/// Up to so many bytes, a room for the text before a fault is made larger where the library says that
/// memory is refused: so it does where a list under a width has more text than the room has left.
const MOST_FOR_LIST: usize = 1 << 26;

/// What takes a name and its value.
type Take<'t, 'c> = &'t mut dyn FnMut(&'c str, &Formattable<'c>);

/// What the macros name.
#[doc(hidden)]
pub mod hidden {
    pub use crate::macros::{context, list, Borrowed};
}

impl<K: Borrow<str> + Eq + Hash, S: BuildHasher> Context for HashMap<K, Formattable<'_>, S> {
    #[inline]
    fn get(&self, key: &str) -> Option<Formattable<'_>> {
        HashMap::get(self, key).copied()
    }

    #[inline]
    fn each<'c>(&'c self, most: usize, take: Take<'_, 'c>) -> bool {
        let are_few = self.len() <= most;
        if are_few {
            self.iter()
                .for_each(|(name, value)| take(name.borrow(), value));
        }
        are_few
    }
}

impl<K: Borrow<str> + Ord> Context for BTreeMap<K, Formattable<'_>> {
    #[inline]
    fn get(&self, key: &str) -> Option<Formattable<'_>> {
        BTreeMap::get(self, key).copied()
    }

    #[inline]
    fn each<'c>(&'c self, most: usize, take: Take<'_, 'c>) -> bool {
        let are_few = self.len() <= most;
        if are_few {
            self.iter()
                .for_each(|(name, value)| take(name.borrow(), value));
        }
        are_few
    }
}

impl<C: Context + ?Sized> Context for &C {
    #[inline]
    fn get(&self, key: &str) -> Option<Formattable<'_>> {
        (**self).get(key)
    }

    #[inline]
    fn each<'c>(&'c self, most: usize, take: Take<'_, 'c>) -> bool {
        (**self).each(most, take)
    }
}

/// Returns the text of a format with the values of a context, or its first fault.
///
/// ```
/// use interpolator::{format, Error, Formattable};
/// use std::collections::HashMap;
///
/// let context = HashMap::from([("name", Formattable::display(&"Ann"))]);
/// assert_eq!(format("Hello {name:>5}", &context)?, "Hello   Ann");
/// assert_eq!(format("{nome}", &context), Err(Error::MissingValue("nome".to_string(), 1)));
/// # Ok::<(), Error>(())
/// ```
pub fn format(format: &str, context: &(impl Context + ?Sized)) -> Result<String> {
    text(format, &context)
}

/// Writes the text of a format with the values of a context, up to its first fault.
///
/// The text comes to `out` in one piece. If `out` fails, that is [`Error::Fmt`] at place 0.
///
/// ```
/// use interpolator::{write, Formattable};
/// use std::collections::HashMap;
///
/// let context = HashMap::from([("name", Formattable::display(&"Ann"))]);
/// let mut out = String::new();
/// assert!(write(&mut out, "{name} and {friend}", &context).is_err());
/// assert_eq!(out, "Ann and ");
/// ```
pub fn write(
    out: &mut (impl fmt::Write + ?Sized),
    format: &str,
    context: &(impl Context + ?Sized),
) -> Result<()> {
    let (text, result) = beginning(format, &context);
    match out.write_str(&text) {
        Ok(()) => result,
        Err(error) => Err(Error::Fmt(error, 0)),
    }
}

/// Checks a format against a context that is an example of others, and returns its first fault.
///
/// All of the format is checked, whether or not it would be written with this context: an item format
/// with each item that the example's list has, and a join whatever the number of items. If this returns
/// `Ok`, no context fails that resembles the example: one that has, under each name that the
/// format uses, a value of the same type (of texts, numbers, truth values, characters, and lists of
/// these). A value of another type can still fail by its own `fmt`.
///
/// ```
/// use interpolator::{check, Formattable};
/// use std::collections::HashMap;
///
/// let example = HashMap::from([
///     ("name", Formattable::display(&"Ann")),
///     ("items", Formattable::iter(&[])),
/// ]);
/// assert!(check("{name}: {items:i({})(, )}", &example).is_ok());
/// assert!(check("{name}: {items:i({nome})}", &example).is_err());
/// ```
pub fn check(format: &str, context: &(impl Context + ?Sized)) -> Result<()> {
    let row = Row::of(format, &context)?;
    let answer = row.lend(format, |fields, items, _| sys::check(format, fields, items));
    outcome(&answer, format)
}

/// Checks a format by itself, and returns its first fault, whatever the values are.
///
/// ```
/// use interpolator::{check_alone, Error, ParseError};
///
/// assert_eq!(check_alone("Hello {name:x}"), Ok(()));
/// let fault = Error::Parse(ParseError::FormatSpecUnclosed(7));
/// assert_eq!(check_alone("Hello {name"), Err(fault));
/// ```
pub fn check_alone(format: &str) -> Result<()> {
    outcome(&sys::check_alone(format), format)
}

/// Returns all faults of a format against an example, of which [`check`] returns the first.
///
/// ```
/// use interpolator::{faults, Error, Formattable, Trait};
/// use std::collections::HashMap;
///
/// let example = HashMap::from([("name", Formattable::display(&"Ann"))]);
/// assert_eq!(faults("Hello {nome}, {name:x}", &example), [
///     Error::MissingValue("nome".to_string(), 7),
///     Error::MissingTraitImpl(Trait::LowerHex, 21),
/// ]);
/// ```
pub fn faults(format: &str, context: &(impl Context + ?Sized)) -> Vec<Error> {
    let row = match Row::of(format, &context) {
        Ok(row) => row,
        Err(error) => return vec![error],
    };
    row.lend(format, |fields, items, _| {
        match found(format, fields, items) {
            Some(faults) => faults
                .iter()
                .map(|fault| Error::of(*fault, format))
                .collect(),
            None => vec![Error::refused()],
        }
    })
}

/// All faults of a format over a row of examples, or none if the library has no memory for them, or
/// lists lie too deep.
fn found(format: &str, fields: &[Field<'_>], items: &[Field<'_>]) -> Option<Vec<Fault>> {
    let mut faults = Vec::new();
    let mut answer = sys::faults(format, fields, items, &mut faults);
    if answer.length > faults.capacity() {
        faults.reserve_exact(answer.length);
        answer = sys::faults(format, fields, items, &mut faults);
    }
    (answer.code == code::OK).then_some(faults)
}

/// Returns the fault that [`check`] finds, as a compiler shows it, or none if there is none.
///
/// `name` is what the format is called, such as its file, and `first_line` the line of the file at which
/// it begins.
///
/// ```
/// use interpolator::{explain, Formattable};
/// use std::collections::HashMap;
///
/// let example = HashMap::from([("name", Formattable::display(&"Ann"))]);
/// let picture = explain("greeting.txt", 1, "Hello {name", &example).unwrap();
/// assert!(picture.starts_with("greeting.txt:1:8: "));
/// assert!(picture.ends_with("\
///   |
/// 1 | Hello {name
///   |       ~^~~~"));
/// ```
pub fn explain(
    name: &str,
    first_line: usize,
    format: &str,
    context: &(impl Context + ?Sized),
) -> Option<String> {
    let source = Source {
        name,
        first_line,
        text: format,
        start: 0,
    };
    pictures(&source, format, &context, 1).pop()
}

/// Where a format is: a text, such as a file or a line of one, and the byte of it at which the format
/// begins.
#[derive(Debug, Clone, Copy, PartialEq, Eq)]
pub struct Source<'a> {
    /// What the text is called, such as the name of a file.
    pub name: &'a str,
    /// The number of the text's first line: 1 for a whole file.
    pub first_line: usize,
    /// The text.
    pub text: &'a str,
    /// The byte of the text at which the format begins.
    pub start: usize,
}

/// Returns all faults of a format against an example, as [`faults`] does, each as a compiler shows it.
///
/// ```
/// use interpolator::{explain_in, Formattable, Source};
/// use std::collections::HashMap;
///
/// let example = HashMap::from([("name", Formattable::display(&"Ann"))]);
/// let line = "bye = Bye {nome} and {name:x}";
/// let source = Source { name: "messages.txt", first_line: 7, text: line, start: 6 };
/// let pictures = explain_in(&source, &line[6..], &example);
/// assert_eq!(pictures.len(), 2);
/// assert!(pictures[1].starts_with("messages.txt:7:29: "));
/// assert!(pictures[1].ends_with("\
///   |
/// 7 | bye = Bye {nome} and {name:x}
///   |                      ~~~~~~~^"));
/// ```
pub fn explain_in(
    source: &Source<'_>,
    format: &str,
    context: &(impl Context + ?Sized),
) -> Vec<String> {
    pictures(source, format, &context, usize::MAX)
}

/// The values that [`cost`] counts with.
#[derive(Debug, Clone, Copy, PartialEq, Eq)]
pub struct Limits {
    /// The most characters of the text of a value.
    pub text: usize,
    /// The most items of a list.
    pub items: usize,
}

/// How much a format can write. Of each count the greatest `usize` stands for as many or more.
#[derive(Debug, Clone, Copy, PartialEq, Eq)]
pub struct Cost {
    /// The most characters of the text.
    pub characters: usize,
    /// The most pieces of the format that are gone through.
    pub pieces: usize,
    /// The most characters of lists under a width that are in memory at a time.
    pub buffered: usize,
}

/// Returns how much a format can write with values within limits: its text is never longer.
///
/// ```
/// use interpolator::{cost, Limits};
///
/// let limits = Limits { text: 80, items: 50 };
/// assert_eq!(cost("Hello {name}!", limits).characters, 87);
/// assert_eq!(cost("{bomb:9999999999}", limits).characters, 9_999_999_999);
/// ```
pub fn cost(format: &str, limits: Limits) -> Cost {
    let cost = sys::cost(format, limits.text, limits.items);
    if cost.code == code::OK {
        Cost {
            characters: cost.characters,
            pieces: cost.pieces,
            buffered: cost.buffered,
        }
    } else {
        // Memory was refused, so that nothing is known.
        Cost {
            characters: usize::MAX,
            pieces: usize::MAX,
            buffered: usize::MAX,
        }
    }
}

/// What a call returned.
fn outcome(answer: &Answer, format: &str) -> Result<()> {
    match answer.code {
        code::OK => Ok(()),
        _ => Err(Error::of(answer.fault(), format)),
    }
}

fn text(format: &str, context: &dyn Context) -> Result<String> {
    let by_short_way = quick::lend(
        format,
        context,
        |fields, items, bytes| whole(format, fields, items, bytes),
        Result::is_err,
    );
    match by_short_way {
        Some(text) => text,
        None => Row::of(format, context)?.lend(format, |fields, items, bytes| {
            whole(format, fields, items, bytes)
        }),
    }
}

/// An empty text with room for so many bytes, if memory takes it.
#[inline]
fn room(bytes: usize) -> Result<String> {
    if bytes <= MOST_AT_ONCE {
        return Ok(String::with_capacity(bytes));
    }
    let mut room = String::new();
    match room.try_reserve_exact(bytes) {
        Ok(()) => Ok(room),
        Err(_) => Err(Error::refused()),
    }
}

/// The whole text of a row, which has so many bytes, about.
#[inline]
fn whole(format: &str, fields: &[Field<'_>], items: &[Field<'_>], bytes: usize) -> Result<String> {
    let mut text = room(bytes).or_else(|_| room(laid::room_for(format)))?;
    let mut answer = sys::format(format, fields, items, &mut text);
    if answer.code == code::OK && answer.length > text.capacity() {
        text = room(answer.length)?;
        answer = sys::format(format, fields, items, &mut text);
    }
    if answer.code != code::OK {
        return Err(Error::of(answer.fault(), format));
    }
    if text.capacity() - text.len() > text.len() + MOST_SPARE {
        text.shrink_to_fit();
    }
    Ok(text)
}

/// The text of a row up to its first fault, and the fault.
fn beginning(format: &str, context: &dyn Context) -> (String, Result<()>) {
    let by_short_way = quick::lend(
        format,
        context,
        |fields, items, bytes| written(format, fields, items, bytes),
        |(_, result)| result.is_err(),
    );
    if let Some(written) = by_short_way {
        return written;
    }
    match Row::of(format, context) {
        Ok(row) => row.lend(format, |fields, items, bytes| {
            written(format, fields, items, bytes)
        }),
        Err(error) => (String::new(), Err(error)),
    }
}

/// The text of a row up to its first fault, and the fault.
fn written(
    format: &str,
    fields: &[Field<'_>],
    items: &[Field<'_>],
    bytes: usize,
) -> (String, Result<()>) {
    match whole(format, fields, items, bytes) {
        Ok(text) => (text, Ok(())),
        Err(fault) => {
            let mut text = room(bytes).unwrap_or_default();
            let error = before_fault(format, fields, items, &mut text, fault);
            (text, Err(error))
        }
    }
}

/// Writes the text of a row before its fault, in a room that is made larger until it fits, and returns
/// the fault. If memory is refused, the room has a beginning of the text, and the error is that.
fn before_fault(
    format: &str,
    fields: &[Field<'_>],
    items: &[Field<'_>],
    room: &mut String,
    fault: Error,
) -> Error {
    loop {
        let answer = sys::write(format, fields, items, room);
        let most = match answer.code {
            code::FULL => usize::MAX,
            code::NO_MEMORY => MOST_FOR_LIST,
            _ => return fault,
        };
        let larger = room.capacity().saturating_mul(4).clamp(MOST_AT_ONCE, most);
        // Memory that was refused to the text is not asked for again.
        let is_refused = fault == Error::refused() || larger <= room.capacity();
        if is_refused || room.try_reserve_exact(larger - room.len()).is_err() {
            return Error::refused();
        }
    }
}
