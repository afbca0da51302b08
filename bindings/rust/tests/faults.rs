//! Broken formats, and the sentences of faults.
mod common;

use common::{fault, map};
use interpolator::{format, write, Error, Formattable, ParseError};
use std::collections::HashMap;
use std::error::Error as _;
use std::fmt;
use std::num::ParseIntError;

fn usize_error(text: &str) -> ParseIntError {
    text.parse::<usize>().unwrap_err()
}

fn isize_error(text: &str) -> ParseIntError {
    text.parse::<isize>().unwrap_err()
}

#[test]
fn each_way_to_be_broken() {
    let list = [Formattable::display(&1), Formattable::display(&5)];
    let values = map(&[
        ("x", Formattable::integer(&10)),
        ("h", Formattable::iter(&list)),
    ]);
    let great = "18446744073709551616";
    for (text, before, error) in [
        ("{x", "", ParseError::FormatSpecUnclosed(1)),
        ("a{", "a", ParseError::FormatSpecUnclosed(2)),
        ("{x:+#", "", ParseError::FormatSpecUnclosed(1)),
        ("{x:+x", "+a", ParseError::Expected("}", 5)),
        ("{x:?y}", "10", ParseError::Expected("}", 4)),
        ("{x:y}", "", ParseError::Expected("}", 3)),
        ("{x:{<5}", "", ParseError::Fill(3)),
        (
            "{x:5-3}",
            "",
            ParseError::InvalidWidth(usize_error("5-3"), 3),
        ),
        (
            "{x:.}",
            "",
            ParseError::InvalidPrecision(usize_error(""), 4),
        ),
        (
            "{x:.-5}",
            "",
            ParseError::InvalidPrecision(usize_error("-5"), 4),
        ),
        (
            &format!("{{x:{great}}}"),
            "",
            ParseError::InvalidWidth(usize_error(great), 3),
        ),
        ("{h:i-}", "", ParseError::RangeBound(isize_error("-"), 4)),
        (
            "{h:i9223372036854775808}",
            "",
            ParseError::RangeBound(isize_error("9223372036854775808"), 4),
        ),
        (
            "{h:i-9223372036854775809}",
            "",
            ParseError::RangeBound(isize_error("-9223372036854775809"), 4),
        ),
        ("{h:i###()##", "", ParseError::FormatSpecUnclosed(1)),
        ("{h:i###a", "", ParseError::Expected("(", 7)),
        ("{h:i({z)}", "", ParseError::FormatSpecUnclosed(6)),
        ("{h:i.}", "15", ParseError::Expected("}", 4)),
        ("{x:i", "10", ParseError::Expected("}", 3)),
    ] {
        assert_eq!(
            fault(text, &values),
            (before.to_string(), Error::Parse(error)),
            "{text}"
        );
    }
    assert_eq!(
        fault("{x}{q:p}", &values),
        (
            "10".to_string(),
            Error::UnsupportedOption("p", "pointer", 6)
        )
    );
    assert_eq!(
        fault("a{ y }", &values),
        ("a".to_string(), Error::MissingValue("y ".to_string(), 2))
    );
    assert_eq!(
        fault("{\u{3000}é:>5}", &values),
        (String::new(), Error::MissingValue("é".to_string(), 1))
    );
    let long = "q".repeat(5_000);
    assert_eq!(
        fault(&format!("{{{long}}}"), &values),
        (String::new(), Error::MissingValue(long, 1))
    );
}

#[test]
fn formats_that_are_cut_anywhere() {
    let list = [Formattable::display(&1.5)];
    let values = map(&[
        ("x", Formattable::integer(&10)),
        ("h", Formattable::iter(&list)),
    ]);
    let whole = "a{{b}} {x:é>+#08.1x} {h:3i..-0#({:.2}{x:?})#(, {x})} {q} }";
    for end in (0..=whole.len()).filter(|end| whole.is_char_boundary(*end)) {
        let mut out = String::new();
        let result = write(&mut out, &whole[..end], &values);
        assert_eq!(format(&whole[..end], &values), result.clone().map(|()| out));
        if let Err(error) = result {
            assert!(error.place() <= end, "{} at {end}", error);
        }
    }
}

#[test]
fn sentences() {
    for (error, sentence) in [
        (Error::Parse(ParseError::Fill(3)), "error while parsing input: Fill is not supported due to \
            https://github.com/rust-lang/rfcs/pull/3394 at 3"),
        (Error::Parse(ParseError::InvalidWidth(usize_error("a"), 3)),
            "error while parsing input: Unable to parse width at 3 as usize: invalid digit found in string"),
        (ParseError::InvalidPrecision(usize_error(""), 3).into(), "error while parsing input: Unable to \
            parse precision at 3 as usize: cannot parse integer from empty string"),
        (ParseError::RangeBound(isize_error("9223372036854775808"), 4).into(), "error while parsing input: \
            Unable to parse range bound at 4 as isize: number too large to fit in target type"),
        (ParseError::FormatSpecUnclosed(1).into(), "error while parsing input: Format spec at 1 is nether \
            closed with a `}`"),
        (ParseError::Expected("(", 7).into(), "error while parsing input: Expected `(` at 7"),
        (ParseError::Iter(5).into(), "error while parsing input: Width, precision, `-`, `+` and `#` are not \
            supported for `i` at 5"),
        (Error::UnsupportedOption("p", "pointer", 3), if cfg!(feature = "pointer") {
            "option `p` is not supported even with feature `pointer` at 3"
        } else {
            "option `p` is not supported without feature `pointer` at 3"
        }),
        (Error::MissingValue("y ".to_string(), 2), "specified value not in context `y ` at 2"),
        (Error::Fmt(fmt::Error, 3),
            "error while formatting at 3: an error occurred when formatting an argument"),
        (Error::MissingTraitImpl(interpolator::Trait::Binary, 4),
            "trait `Binary` not implemented, used by format argument at 4"),
    ] {
        assert_eq!(error.to_string(), sentence);
    }
    // The sentence of an error has that of its cause.
    assert!(Error::from(ParseError::Fill(3)).source().is_none());
}

/// A writer that refuses everything.
struct Refuses;

impl fmt::Write for Refuses {
    fn write_str(&mut self, _: &str) -> fmt::Result {
        Err(fmt::Error)
    }
}

#[test]
fn a_writer_that_fails_is_fmt_at_the_beginning() {
    let none: HashMap<&str, Formattable<'_>> = HashMap::new();
    assert_eq!(
        write(&mut Refuses, "a", &none),
        Err(Error::Fmt(fmt::Error, 0))
    );
}
