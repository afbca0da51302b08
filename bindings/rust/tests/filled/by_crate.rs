//! The calls of the crate, over the functions of `sys.rs`.
use std::collections::BTreeMap;
use std::fmt;

use interpolator::{
    check, check_alone, cost, explain_in, faults, format, format_escaped, rows, write, Escape,
    Formattable, Limits, Source,
};

use crate::Log;

/// Formats of values that the library writes and others, of long texts, and with faults.
const FORMATS: [&str; 13] = [
    "",
    "{name}: {list:i({})(, )} {number:#x} {float:.2} {own:*^9}",
    "{list:i({:.1}{name:?})} {accent:?} {own:?} {float:e}",
    "{list:>9i({})(, )}{number:08}",
    "{name:>5000}{float}",
    "{name:>5000}{float}{nobody}",
    "{list:>5000i}{list:x}",
    "{name} {name:x}",
    "{name} {own:p}",
    "{name} {failing}",
    "{name} {float",
    "{deep:i}",
    "{number:.}{nobody}{list:i#({nobody}",
];

/// Formats of tables.
const TABLES: [&str; 5] = [
    "{name:?}{float:9.1}",
    "{name:>3000}{name}",
    "{float}",
    "{nobody}",
    "{name",
];

/// A value that the crate does not know.
struct Own;

impl fmt::Display for Own {
    fn fmt(&self, f: &mut fmt::Formatter<'_>) -> fmt::Result {
        f.pad("own")
    }
}

impl fmt::Debug for Own {
    fn fmt(&self, f: &mut fmt::Formatter<'_>) -> fmt::Result {
        f.write_str("Own")
    }
}

/// A value that fails.
struct Fails;

impl fmt::Display for Fails {
    fn fmt(&self, _: &mut fmt::Formatter<'_>) -> fmt::Result {
        Err(fmt::Error)
    }
}

type Values<'a> = BTreeMap<&'a str, Formattable<'a>>;

/// Calls with a list that holds itself so often.
fn nested(levels: u32, list: &[Formattable<'_>], call: &mut dyn FnMut(&[Formattable<'_>])) {
    match levels {
        0 => call(list),
        _ => nested(levels - 1, &[Formattable::iter(list)], call),
    }
}

/// Calls with the values that the formats name. The library takes 64 levels of lists.
fn with_values(call: &mut dyn FnMut(&Values<'_>)) {
    let list = [Formattable::display(&"a"), Formattable::float(&0.25)];
    nested(70, &list, &mut |deep| {
        call(&BTreeMap::from([
            ("name", Formattable::debug_display(&"Ann")),
            ("accent", Formattable::debug_display(&"e\u{301}")),
            ("number", Formattable::integer(&255)),
            ("float", Formattable::float(&2.5)),
            ("own", Formattable::debug_display(&Own)),
            ("failing", Formattable::display(&Fails)),
            ("list", Formattable::iter(&list)),
            ("deep", Formattable::iter(deep)),
        ]));
    });
}

/// What a text is told by: its beginning, and a sum that any byte of it changes.
fn brief(text: impl AsRef<str>) -> String {
    let text = text.as_ref();
    let sum = text.bytes().fold(0u64, |sum, byte| {
        sum.wrapping_mul(31).wrapping_add(byte.into())
    });
    let beginning: String = text.chars().take(200).collect();
    format!("{} bytes, {sum:x}: {beginning:?}", text.len())
}

/// What a call of the crate returns, in words.
type Call = fn(&str, &Values<'_>) -> String;

const CALLS: [(&str, Call); 8] = [
    ("format", |text, values| {
        told(format(text, values).map(brief))
    }),
    ("format_escaped", |text, values| {
        told(format_escaped(Escape::Html, text, values).map(brief))
    }),
    ("write", written),
    ("check", |text, values| told(check(text, values))),
    ("check_alone", |text, _| told(check_alone(text))),
    ("faults", |text, values| told(faults(text, values))),
    ("explain_in", pictures),
    ("cost", |text, _| {
        told(cost(text, Limits { text: 9, items: 3 }))
    }),
];

fn told(what: impl fmt::Debug) -> String {
    format!("{what:?}")
}

fn written(text: &str, values: &Values<'_>) -> String {
    let mut out = String::new();
    let result = write(&mut out, text, values);
    told((result, brief(out)))
}

fn pictures(text: &str, values: &Values<'_>) -> String {
    let source = Source {
        name: "a file",
        first_line: 1,
        text,
        start: 0,
    };
    told(explain_in(&source, text, values))
}

/// Two rows, of which the second has a value that fails, or the first alone.
fn table(text: &str, has_second: bool) -> String {
    let columns = [
        ("name", Formattable::debug_display(&"")),
        ("float", Formattable::float(&0.0)),
    ];
    let cells = [
        Formattable::debug_display(&"Ann"),
        Formattable::float(&0.25),
        Formattable::debug_display(&"Bo"),
        Formattable::display(&Fails),
    ];
    let count = if has_second { 4 } else { 2 };
    let rows = rows(text, &columns, &cells[..count]);
    told(rows.map(|rows| rows.iter().map(brief).collect::<Vec<_>>()))
}

pub fn call_all(log: &mut Log) {
    for text in FORMATS {
        for (name, call) in CALLS {
            log.with_each_refused(&format!("{name} of {text}"), |log| {
                with_values(&mut |values| log.tell(&call(text, values)));
            });
        }
    }
    for text in TABLES {
        for has_second in [false, true] {
            log.with_each_refused(&format!("rows of {text}"), |log| {
                log.tell(&table(text, has_second));
            });
        }
    }
}

impl Log {
    fn tell(&mut self, what: &str) {
        self.text += "; ";
        self.text += what;
    }
}
