//! The rows of the conformance suite (crates/interpolator_vectors/ROWS.md) that a Rust program can run: each format by
//! `format` and `write`, each sample by `check`, and each printed fault.
//!
//! Each format is run twice: with the values as they are, which the library writes, and with values of
//! a type of its own, which std writes.
mod common;

use common::reader::{self, Row, Slots, View};
use common::{Failed, Own, Plain};
use interpolator::{check, format, iwriteln, write, Error, Formattable};
use std::collections::HashMap;
use std::fmt::{Binary, Debug, Display, LowerExp, LowerHex, Octal, UpperExp, UpperHex, Write};

/// The values of a test live as long as the program.
fn kept<T>(value: T) -> &'static T {
    Box::leak(Box::new(value))
}

fn set_all<T>(value: T, slots: &[String], made: &mut Formattable<'static>)
where
    T: Binary + Debug + Display + LowerExp + LowerHex + Octal + UpperExp + UpperHex + 'static,
{
    let value = kept(value);
    for slot in slots {
        match slot.as_str() {
            "display" => made.set_display(value),
            "debug" => made.set_debug(value),
            "binary" => made.set_binary(value),
            "octal" => made.set_octal(value),
            "lower_hex" => made.set_lower_hex(value),
            "upper_hex" => made.set_upper_hex(value),
            "lower_exp" => made.set_lower_exp(value),
            "upper_exp" => made.set_upper_exp(value),
            "debug_display" => made.set_debug_display(value),
            "float" => made.set_float(value),
            "integer" => made.set_integer(value),
            slot => panic!("unknown slot {slot}"),
        }
    }
}

/// A value without the traits of numbers, which does not compile in other slots.
fn set_text<T: Debug + Display + 'static>(
    value: T,
    slots: &[String],
    made: &mut Formattable<'static>,
) {
    let value = kept(value);
    for slot in slots {
        match slot.as_str() {
            "display" => made.set_display(value),
            "debug" => made.set_debug(value),
            "debug_display" | "integer" | "float" => made.set_debug_display(value),
            _ => {}
        }
    }
}

fn set_view(view: &View, slots: &[String], is_own: bool, made: &mut Formattable<'static>) {
    macro_rules! set {
        ($set:ident $value:expr) => {
            if is_own {
                $set(Own($value), slots, made)
            } else {
                $set($value, slots, made)
            }
        };
    }
    match view {
        View::Signed(8, number) => set!(set_all * number as i8),
        View::Signed(16, number) => set!(set_all * number as i16),
        View::Signed(32, number) => set!(set_all * number as i32),
        View::Signed(64, number) => set!(set_all * number as i64),
        View::Signed(_, number) => set!(set_all * number),
        View::Unsigned(8, number) => set!(set_all * number as u8),
        View::Unsigned(16, number) => set!(set_all * number as u16),
        View::Unsigned(32, number) => set!(set_all * number as u32),
        View::Unsigned(64, number) => set!(set_all * number as u64),
        View::Unsigned(_, number) => set!(set_all * number),
        View::Truth(truth) => set!(set_text * truth),
        View::Character(character) => set!(set_text * character),
        View::Text(text) => set!(set_text text.clone()),
        View::Plain(text) => set_all(Plain(text.clone()), slots, made),
        View::Failed => set_all(Failed, slots, made),
        View::Decimal | View::NotImplemented => {}
    }
}

fn value(slots: &Slots, is_own: bool) -> Formattable<'static> {
    let mut made = Formattable::default();
    for (names, view) in &slots.views {
        set_view(view, names, is_own, &mut made);
    }
    if let Some(items) = &slots.list {
        let items: Vec<_> = items.iter().map(|item| value(item, is_own)).collect();
        made.set_iter(kept(items));
    }
    made
}

fn context(row: &Row, is_own: bool) -> HashMap<String, Formattable<'static>> {
    let names = row.context.iter();
    names
        .map(|(name, slots)| (name.clone(), value(slots, is_own)))
        .collect()
}

/// What differs from a row here, as README.md says.
fn is_left_out(row: &Row, is_own: bool, format_text: &str) -> bool {
    let has = |key: &str| row.facts.iter().any(|(name, _)| name == key);
    // writers that take a part of a text, and refused memory
    if has("room") || has("bytes") || row.fault("fault").is_some_and(|fault| fault.is_none()) {
        return true;
    }
    // a list and a value under one name; std's own width, and its debug past ASCII
    let reaches_list_and_value = row.context.values().any(Slots::is_list_and_value);
    let is_wide = is_own && format_text.contains("18446744073709551615");
    let is_escaped = format_text.contains('?') && row.context.values().any(Slots::is_past_ascii);
    reaches_list_and_value || is_wide || is_escaped
}

/// Runs a format, and says how it went if not as the row says.
fn run(row: &Row, format_text: &str, is_own: bool) -> Option<String> {
    let context = context(row, is_own);
    let wanted = (
        row.text("text").unwrap_or_default(),
        row.fault("fault").flatten(),
    );
    let mut out = String::new();
    let result = if row.facts.iter().any(|(key, _)| key == "line") {
        iwriteln!(out, format_text, &context)
    } else {
        let formatted = format(format_text, &context);
        let result = write(&mut out, format_text, &context);
        assert_eq!(
            formatted,
            result.clone().map(|()| out.clone()),
            "{}",
            row.name
        );
        result
    };
    let got = (out, result.err());
    (got != wanted).then(|| format!("{}: {format_text:?}: {got:?}, wanted {wanted:?}", row.name))
}

#[test]
fn formats() {
    let (mut ran, mut failures) = (0, Vec::new());
    for row in reader::rows() {
        let Some(format_text) = row.text("format") else {
            continue;
        };
        if row.text("text").is_none() && row.fault("fault").is_none() {
            continue;
        }
        for is_own in [false, true] {
            if !is_left_out(&row, is_own, &format_text) {
                ran += 1;
                failures.extend(run(&row, &format_text, is_own));
            }
        }
    }
    assert!(
        failures.is_empty(),
        "{} of {ran}:\n{}",
        failures.len(),
        failures.join("\n")
    );
    println!("{ran} formats ran");
    assert!(ran > 500);
}

#[test]
fn samples() {
    let (mut ran, mut failures) = (0, Vec::new());
    for row in reader::rows() {
        let (Some(format_text), Some(wanted)) = (row.text("format"), row.fault("sample")) else {
            continue;
        };
        if row.context.values().any(Slots::is_list_and_value) {
            continue;
        }
        ran += 1;
        let got = check(&format_text, &context(&row, false)).err();
        if got != wanted {
            failures.push(format!(
                "{}: {format_text:?}: {got:?}, wanted {wanted:?}",
                row.name
            ));
        }
    }
    assert!(
        failures.is_empty(),
        "{} of {ran}:\n{}",
        failures.len(),
        failures.join("\n")
    );
    assert!(ran > 20, "{ran} samples ran");
}

#[test]
fn sentences() {
    let mut ran = 0;
    for row in reader::rows() {
        let (Some(error), Some(text)) = (row.fault("prints").flatten(), row.text("text")) else {
            continue;
        };
        ran += 1;
        let is_printed = match &error {
            Error::Parse(fault) => [error.to_string(), fault.to_string()].contains(&text),
            _ => error.to_string() == text,
        };
        assert!(is_printed, "{}: {error}, wanted {text}", row.name);
    }
    assert!(ran > 5, "{ran} faults were printed");
}
