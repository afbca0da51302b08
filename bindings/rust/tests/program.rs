//! A program as it is written for the crate `interpolator` 0.5.0: it compiles without a warning.
//! `tests/origin.rs` compiles it with that crate too.
#![deny(warnings)]
use interpolator::{
    context, iwriteln, list, write, Context, Error, Formattable, ParseError, Trait,
};
use std::collections::HashMap;
use std::fmt::{self, Write};

/// All variants that there are, and an arm for those that may come.
fn kind(error: &Error) -> &'static str {
    match error {
        Error::MissingTraitImpl(Trait::Display | Trait::Debug, _) => "display or debug",
        Error::MissingTraitImpl(missing, _) => match missing {
            Trait::Binary | Trait::Octal | Trait::LowerHex | Trait::UpperHex => "radix",
            Trait::LowerExp | Trait::UpperExp => "exponent",
            Trait::Iter => "list",
            _ => "another trait",
        },
        Error::Fmt(fmt::Error, _) => "value",
        Error::Parse(error) => match error {
            ParseError::FormatSpecUnclosed(_) | ParseError::Expected(_, _) => "syntax",
            ParseError::InvalidWidth(_, _) | ParseError::InvalidPrecision(_, _) => "number",
            ParseError::Fill(_) | ParseError::Iter(_) | ParseError::RangeBound(_, _) => "spec",
            _ => "another",
        },
        Error::MissingValue(_, _) => "name",
        Error::UnsupportedOption(_, _, _) => "option",
        _ => "another fault",
    }
}

struct Person {
    name: String,
    age: u8,
}

impl Context for Person {
    fn get(&self, key: &str) -> Option<Formattable<'_>> {
        match key {
            "name" => Some(Formattable::debug_display(&self.name)),
            "age" => Some(Formattable::integer(&self.age)),
            _ => None,
        }
    }
}

fn report(out: &mut impl Write, person: &Person) -> Result<(), Error> {
    let (first, rest) = ("Report", list![1, "b", 0.5]);
    iwriteln!(out, "{first}: {rest:i({})(, )}", first, rest: i)?;
    write(out, "{name:?} is {age:#x}", person)?;
    iwriteln!(out, "", first)
}

#[test]
fn a_program_of_the_crate() {
    main();
}

#[allow(dead_code)] // it is called where this is compiled as a program
fn main() {
    let ann = Person {
        name: "Ann".to_string(),
        age: 42,
    };
    let mut text = String::new();
    report(&mut text, &ann).unwrap();
    assert_eq!(text, "Report: 1, b, 0.5\n\"Ann\" is 0x2a\n");
    let none = HashMap::<String, Formattable<'_>>::new();
    for (format_text, wanted) in [("{", "syntax"), ("{q}", "name"), ("{q:p}", "option")] {
        let error = interpolator::format(format_text, &none).unwrap_err();
        assert_eq!(kind(&error), wanted);
    }
    let values = context! { a = 5, b: ? = "t", a: b = 5 };
    for (format_text, wanted) in [("{a:i}", "list"), ("{b:x}", "radix"), ("{a:.}", "number")] {
        let error = interpolator::format(format_text, &values).unwrap_err();
        assert_eq!(kind(&error), wanted);
    }
}
