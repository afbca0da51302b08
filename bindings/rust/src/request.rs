//! A value's text under a request, by std's own formatting.
use std::fmt::{self, Debug, Display, Write};

use crate::formattable::{slot, Formattable};
use crate::sys::{Request, NO_FILL, PRECISION, WIDTH};

/// The greatest width and precision that std takes at run time.
const MOST: usize = u16::MAX as usize;

/// A value under one of its slots, whatever trait it is written by.
struct Shown<'v, 'a> {
    value: &'v Formattable<'a>,
    slot: u32,
}

impl Display for Shown<'_, '_> {
    fn fmt(&self, f: &mut fmt::Formatter<'_>) -> fmt::Result {
        self.value.fmt_under(self.slot, f)
    }
}

/// For `x?` and `X?`, which std hands on only from a debug spec.
impl Debug for Shown<'_, '_> {
    fn fmt(&self, f: &mut fmt::Formatter<'_>) -> fmt::Result {
        self.value.fmt_under(self.slot, f)
    }
}

/// With which character a value is padded.
#[derive(Clone, Copy, PartialEq)]
enum Padding {
    Spaces,
    /// [`MARK`], in place of a fill, which std reads only from a literal.
    Marks,
}

/// A noncharacter of Unicode.
const MARK: char = '\u{10ffff}';

/// Appends the text of a value under a request.
///
/// Fails as the value does, and if std does not take the width or the precision.
pub(crate) fn write_value(
    out: &mut String,
    value: &Formattable<'_>,
    request: &Request,
) -> fmt::Result {
    let shown = Shown {
        value,
        slot: request.slot,
    };
    if request.is_plain() {
        return write!(out, "{shown}");
    }
    if !is_taken_by_std(request) {
        return Err(fmt::Error);
    }
    match char::from_u32(request.fill) {
        Some(fill) if request.fill != NO_FILL && fill != ' ' && request.given & WIDTH != 0 => {
            write_filled(out, &shown, request, fill)
        }
        _ => write_padded(out, &shown, request, Padding::Spaces),
    }
}

/// Whether std writes any value under the request. At the greatest precision it panics over the
/// exponent form of a float, of which it counts the digit before the point too.
fn is_taken_by_std(request: &Request) -> bool {
    let is_exponent = matches!(request.slot, slot::LOWER_EXP | slot::UPPER_EXP);
    request.width <= MOST && request.precision <= MOST - usize::from(is_exponent)
}

/// Writes the value padded with spaces and with marks, and puts the fill where the two differ.
fn write_filled(
    out: &mut String,
    shown: &Shown<'_, '_>,
    request: &Request,
    fill: char,
) -> fmt::Result {
    let mut spaced = String::new();
    let mut marked = String::new();
    write_padded(&mut spaced, shown, request, Padding::Spaces)?;
    write_padded(&mut marked, shown, request, Padding::Marks)?;
    let mut spaces = spaced.chars();
    for character in marked.chars() {
        let is_padding = spaces.next() == Some(' ') && character == MARK;
        out.push(if is_padding { fill } else { character });
    }
    Ok(())
}

// std takes a spec from a literal alone, so there is a literal for each choice of its parts. Each of the
// macros `with_` adds the part that was chosen, and chooses the next one. They hand on the names of the
// variables, the parts so far, the part to add, and the counts that the parts name.
macro_rules! choose {
    ($next:ident [$out:ident $shown:ident $request:ident $width:ident $precision:ident]
        $parts:tt $counts:tt $field:ident: $($value:pat => $part:literal)*) => {
        match $request.$field {
            $($value => $next!([$out $shown $request $width $precision] $parts $part $counts),)*
        }
    };
}

macro_rules! with_place {
    ($names:tt [$($part:literal)*] $more:literal $counts:tt) => {
        choose!(with_sign $names [$($part)* $more] $counts sign: 0 => "" 1 => "+" _ => "-")
    };
}

macro_rules! with_sign {
    ($names:tt [$($part:literal)*] $more:literal $counts:tt) => {
        choose!(with_alternate $names [$($part)* $more] $counts alternate: 0 => "" _ => "#")
    };
}

macro_rules! with_alternate {
    ($names:tt [$($part:literal)*] $more:literal $counts:tt) => {
        choose!(with_zero $names [$($part)* $more] $counts zero: 0 => "" _ => "0")
    };
}

macro_rules! with_zero {
    ([$out:ident $shown:ident $request:ident $width:ident $precision:ident]
        [$($part:literal)*] $more:literal []) => {
        if $request.given & WIDTH == 0 {
            with_width!([$out $shown $request $width $precision] [$($part)* $more] "" [])
        } else {
            with_zero!([$out $shown $request $width $precision] [$($part)* $more] "" [$width])
        }
    };
    ($names:tt [$($part:literal)*] $more:literal [$width:ident]) => {
        with_width!($names [$($part)* $more] "width$" [$width])
    };
}

macro_rules! with_width {
    ([$out:ident $shown:ident $request:ident $width:ident $precision:ident]
        [$($part:literal)*] $more:literal [$($count:ident)*]) => {
        if $request.given & PRECISION == 0 {
            with_precision!([$out $shown $request $width $precision]
                [$($part)* $more] "" [$($count)*])
        } else {
            with_precision!([$out $shown $request $width $precision]
                [$($part)* $more] ".precision$" [$($count)* $precision])
        }
    };
}

macro_rules! with_precision {
    ($names:tt [$($part:literal)*] $more:literal $counts:tt) => {
        choose!(with_debug $names [$($part)* $more] $counts
            hex_debug: 0 => "" 1 => "x?" _ => "X?")
    };
}

macro_rules! with_debug {
    ([$out:ident $shown:ident $request:ident $width:ident $precision:ident]
        [$($part:literal)*] $more:literal [$($count:ident)*]) => {
        write!($out, concat!("{0:" $(, $part)*, $more, "}"), $shown $(, $count = $count)*)
    };
}

/// Writes the value under its spec, padded with spaces or with marks. Marks are for a spec that has an
/// alignment and a width.
fn write_padded(
    out: &mut String,
    shown: &Shown<'_, '_>,
    request: &Request,
    padding: Padding,
) -> fmt::Result {
    let (width, precision) = (request.width, request.precision);
    macro_rules! aligned {
        ($part:literal $counts:tt) => {
            with_place!([out shown request width precision] [] $part $counts)
        };
    }
    match (padding, request.alignment) {
        (_, 0) => aligned!("" []),
        (Padding::Spaces, 1) => aligned!("<" []),
        (Padding::Spaces, 2) => aligned!("^" []),
        (Padding::Spaces, _) => aligned!(">" []),
        (Padding::Marks, 1) => aligned!("\u{10ffff}<"[width]),
        (Padding::Marks, 2) => aligned!("\u{10ffff}^"[width]),
        (Padding::Marks, _) => aligned!("\u{10ffff}>"[width]),
    }
}

#[cfg(test)]
mod tests {
    use super::*;

    fn text(value: Formattable<'_>, request: Request) -> String {
        let mut out = String::new();
        write_value(&mut out, &value, &request).unwrap();
        out
    }

    #[test]
    fn each_part_of_a_spec_reaches_std() {
        let float = Formattable::float(&3.25159);
        let all = Request {
            alignment: 3,
            sign: 1,
            given: WIDTH | PRECISION,
            width: 8,
            precision: 2,
            ..Request::PLAIN
        };
        assert_eq!(text(float, all), "   +3.25");
        assert_eq!(text(float, Request { zero: 1, ..all }), "+0003.25");
        assert_eq!(
            text(
                float,
                Request {
                    alignment: 1,
                    ..all
                }
            ),
            "+3.25   "
        );
        assert_eq!(
            text(
                float,
                Request {
                    alignment: 2,
                    ..all
                }
            ),
            " +3.25  "
        );
        assert_eq!(text(float, Request { slot: 6, ..all }), " +3.25e0");
        let bytes = [10u8, 255];
        let list = Formattable::debug(&bytes);
        let debug = Request {
            slot: 1,
            ..Request::PLAIN
        };
        assert_eq!(text(list, debug), "[10, 255]");
        assert_eq!(
            text(
                list,
                Request {
                    hex_debug: 1,
                    ..debug
                }
            ),
            "[a, ff]"
        );
        assert_eq!(
            text(
                list,
                Request {
                    hex_debug: 2,
                    alternate: 1,
                    ..debug
                }
            ),
            "[\n    0xA,\n    0xFF,\n]"
        );
    }
}
