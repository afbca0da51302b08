//! Texts of `crates/interpolator_bench` by `write` of the Rust crate `interpolator` 0.5.0, over a
//! context that is made once. `original WORKLOAD COUNT` makes one so often, and prints its length
//! and checksum; without a word it prints the names of all. `count.sh` builds this, and says how.
use interpolator::Formattable;
use std::collections::HashMap;
use std::hint::black_box;

include!("out/documents.rs");
include!("values.rs");

type Context<'a> = HashMap<&'a str, Formattable<'a>>;

const NAMES: [&str; 14] = [
    "log-line",
    "names-32-numbers",
    "names-18-texts",
    "letter-4k",
    "json",
    "table-row",
    "amounts",
    "specs",
    "radix",
    "exponents",
    "padded-texts",
    "list-1000",
    "list-1000-angled",
    "merge-10000-pairs",
];

fn main() {
    let words: Vec<String> = std::env::args().skip(1).collect();
    let [workload, count] = &words[..] else {
        return NAMES.iter().for_each(|name| println!("original-{name}"));
    };
    let count: u32 = count.parse().expect("COUNT is a number");
    let mut text = String::new();
    match workload.trim_start_matches("original-") {
        "merge-10000-pairs" => (0..count).for_each(|_| put_letters(&mut text)),
        name => repeat(name, count, &mut text),
    }
    println!(
        "{workload}: {} bytes, checksum {:016x}",
        text.len(),
        checksum_of(&text)
    );
}

/// The FNV-1a hash of the text's bytes, of 64 bits.
fn checksum_of(text: &str) -> u64 {
    text.bytes().fold(0xcbf2_9ce4_8422_2325, |sum, byte| {
        (sum ^ u64::from(byte)).wrapping_mul(0x100_0000_01b3)
    })
}

/// Makes a text by `write`, in room that it keeps.
fn repeat(name: &str, count: u32, text: &mut String) {
    let numbers: Vec<Formattable> = THOUSAND.iter().map(Formattable::display).collect();
    let (format, context) = format_of(name, &numbers);
    for _ in 0..count {
        text.clear();
        interpolator::write(text, black_box(&format), &context).expect("no fault");
    }
}

fn format_of<'a>(name: &str, numbers: &'a [Formattable<'a>]) -> (String, Context<'a>) {
    match name {
        "log-line" => (
            "{time} {level} [{module}] {message} (line {line})".to_string(),
            log_context(),
        ),
        "names-32-numbers" => (
            names_format(&NUMBER_NAMES),
            pairs(&NUMBER_NAMES, &NUMBERS, Formattable::integer),
        ),
        "names-18-texts" => (
            names_format(&TEXT_NAMES),
            pairs(&TEXT_NAMES, &TEXTS, Formattable::display),
        ),
        "letter-4k" => (letter!().to_string(), letter_context()),
        "json" => (json!().to_string(), order_context()),
        "table-row" => (
            "{id:>6}|{goods:<16}|{city:^12}|{count:5}|{price:>10}|{change:>+8}|{code:#010x}|\
             {name:20}\n"
                .to_string(),
            row_context(),
        ),
        "amounts" => (
            "net {net:>10.2} tax {tax:>10.2} paid {paid:>10.2} open {open:>10.2}".to_string(),
            pairs(
                &["net", "tax", "paid", "open"],
                &AMOUNTS,
                Formattable::float,
            ),
        ),
        "specs" => (
            under(&["", ":+", ":6", ":06", ":+08", ":<8", ":^9", ":>+12"], 4),
            pairs(&NUMBER_NAMES, &SIGNED, Formattable::integer),
        ),
        "radix" => (
            under(&[":b", ":o", ":x", ":X", ":#b", ":#o", ":#010x", ":8X"], 4),
            pairs(&NUMBER_NAMES, &BITS, Formattable::integer),
        ),
        "exponents" => (
            under(&[":e", ":E", ":.2e", ":+12.3E"], 4),
            pairs(&NUMBER_NAMES, &POWERS, Formattable::integer),
        ),
        "padded-texts" => (
            under(&[":12", ":>16", ":^10.4"], 6),
            pairs(&NUMBER_NAMES, &WORDS, Formattable::display),
        ),
        "list-1000" => ("{l:i({})(, )}".to_string(), list_context(numbers)),
        "list-1000-angled" => ("{l:i(<{}>)}".to_string(), list_context(numbers)),
        _ => panic!("no such workload"),
    }
}

const NUMBER_NAMES: [&str; 32] = [
    "a", "b", "c", "d", "e", "f", "g", "h", "i", "j", "k", "l", "m", "n", "o", "p", "q", "r", "s",
    "t", "u", "v", "w", "x", "y", "z", "aa", "bb", "cc", "dd", "ee", "ff",
];

const TEXT_NAMES: [&str; 18] = [
    "name", "title", "street", "city", "country", "phone", "email", "company", "job", "topic",
    "greeting", "closing", "sender", "office", "unit", "date", "place", "motto",
];

/// A format that uses each name, with a space after each.
fn names_format(names: &[&str]) -> String {
    names.iter().map(|name| format!("{{{name}}} ")).collect()
}

/// A format of so many names under each spec, with a space after each.
fn under(specs: &[&str], count: usize) -> String {
    let mut text = String::new();
    for name in &NUMBER_NAMES[..count] {
        for spec in specs {
            text += &format!("{{{name}{spec}}} ");
        }
    }
    text
}

fn pairs<'a, T>(
    names: &[&'a str],
    values: &'a [T],
    make: fn(&'a T) -> Formattable<'a>,
) -> Context<'a> {
    names.iter().copied().zip(values.iter().map(make)).collect()
}

/// A context of the fields of a record.
macro_rules! fields {
    ($values:expr; $($make:ident $name:ident),*) => {
        HashMap::from([$((stringify!($name), Formattable::$make(&$values.$name))),*])
    };
}

#[rustfmt::skip]
fn log_context() -> Context<'static> {
    fields!(LOG; display time, display level, display module, display message, integer line)
}

#[rustfmt::skip]
fn letter_context() -> Context<'static> {
    fields!(LETTER; integer order, display company, display shop, display street, integer postcode,
        display city, display country, display date, display title, display name, display goods,
        integer count, display amount, display closing, display sender)
}

#[rustfmt::skip]
fn order_context() -> Context<'static> {
    fields!(ORDER; integer order, display placed, display name, display mail, display street,
        display city, integer points, display goods, integer count, display amount,
        display currency, display until)
}

#[rustfmt::skip]
fn row_context() -> Context<'static> {
    fields!(ROW; integer id, display goods, display city, integer count, display price,
        integer change, integer code, display name)
}

fn list_context<'a>(numbers: &'a [Formattable<'a>]) -> Context<'a> {
    HashMap::from([("l", Formattable::iter(numbers))])
}

/// A letter for each of 10,000 records, with a context for each.
fn put_letters(text: &mut String) {
    text.clear();
    for order in 0..10_000 {
        let record = record_of(order);
        let context = fields!(record; display name, display city, integer count, display goods,
            integer order);
        let format = "Dear {name} of {city}, your {count} {goods} are order {order}.\n";
        interpolator::write(text, black_box(format), &context).expect("no fault");
    }
}
