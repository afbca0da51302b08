//! Makes a text again and again, from a `HashMap` that is made once, and prints its length and 64-bit
//! FNV-1a checksum: those of the workloads of `crates/interpolator_bench` with the same names. After
//! `std-` a name stands for the same text by std.
//!
//! `cargo run --release --example bench -- WORKLOAD COUNT`, or `all COUNT`. Instructions for one text
//! are the difference of two counts under `valgrind --tool=callgrind`.
mod by_std;

use interpolator::{format, Formattable};
use std::collections::HashMap;
use std::env;
use std::hint::black_box;
use std::process::ExitCode;

type Values<'a> = HashMap<&'a str, Formattable<'a>>;

/// Makes a text so often, and returns the last one.
type Task = fn(u32) -> String;

const WORKLOADS: [(&str, Task); 31] = [
    ("log-line", log_line),
    ("names-32-numbers", number_names),
    ("names-18-texts", text_names),
    ("format-specs", specs),
    ("format-radix", radix),
    ("format-exponents", exponents),
    ("format-padded-texts", padded_texts),
    ("format-starred-texts", starred_texts),
    ("format-wide", wide),
    ("table-row", table_row),
    ("amounts", amounts),
    ("list-1000", list),
    ("list-1000-angled", angled_list),
    ("lists-32-deep", nested_lists),
    ("literal-64k", literal),
    ("braces-64k", braces),
    ("floats", floats),
    ("list-1000-floats", float_list),
    ("std-log-line", by_std::log_line),
    ("std-names-32-numbers", by_std::number_names),
    ("std-names-18-texts", by_std::text_names),
    ("std-format-specs", by_std::specs),
    ("std-format-radix", by_std::radix),
    ("std-format-exponents", by_std::exponents),
    ("std-format-padded-texts", by_std::padded_texts),
    ("std-format-starred-texts", by_std::starred_texts),
    ("std-format-wide", by_std::wide),
    ("std-list-1000", by_std::list),
    ("std-list-1000-angled", by_std::angled_list),
    ("std-floats", by_std::floats),
    ("std-list-1000-floats", by_std::float_list),
];

fn main() -> ExitCode {
    let words: Vec<String> = env::args().skip(1).collect();
    let [name, count] = &words[..] else {
        eprintln!("usage: bench WORKLOAD COUNT");
        return ExitCode::from(2);
    };
    let Ok(count) = count.parse() else {
        eprintln!("bad count: {count}");
        return ExitCode::from(2);
    };
    for (workload, task) in WORKLOADS {
        if name == workload || name == "all" {
            let text = task(count);
            println!(
                "{workload}: {} bytes, checksum {:016x}",
                text.len(),
                checksum(&text)
            );
        }
    }
    ExitCode::SUCCESS
}

fn checksum(text: &str) -> u64 {
    text.bytes().fold(0xcbf29ce484222325, |sum: u64, byte| {
        (sum ^ u64::from(byte)).wrapping_mul(0x100000001b3)
    })
}

fn repeat(format_text: &str, values: &Values<'_>, count: u32) -> String {
    let mut text = String::new();
    for _ in 0..count {
        text = format(black_box(format_text), black_box(values)).expect("the format has no fault");
    }
    text
}

fn log_line(count: u32) -> String {
    let values = HashMap::from([
        ("time", Formattable::display(&"2024-05-17T12:34:56Z")),
        ("level", Formattable::display(&"INFO")),
        ("module", Formattable::display(&"store::index")),
        (
            "message",
            Formattable::display(&"rebuilt the index of all orders"),
        ),
        ("line", Formattable::integer(&217u64)),
    ]);
    repeat(
        "{time} {level} [{module}] {message} (line {line})",
        &values,
        count,
    )
}

fn names_format(names: &[&str]) -> String {
    names.iter().map(|name| format!("{{{name}}} ")).collect()
}

fn number_names(count: u32) -> String {
    let names = [
        "a", "b", "c", "d", "e", "f", "g", "h", "i", "j", "k", "l", "m", "n", "o", "p", "q", "r",
        "s", "t", "u", "v", "w", "x", "y", "z", "aa", "bb", "cc", "dd", "ee", "ff",
    ];
    let numbers = [
        0u32, 1, 2, 3, 5, 8, 13, 21, 34, 55, 89, 144, 233, 377, 610, 987, 4, 6, 9, 10, 12, 14, 15,
        16, 18, 20, 22, 24, 25, 26, 27, 28,
    ];
    let numbers = numbers.each_ref().map(Formattable::integer);
    let values = names.into_iter().zip(numbers).collect();
    repeat(&names_format(&names), &values, count)
}

fn text_names(count: u32) -> String {
    let names = [
        "name", "title", "street", "city", "country", "phone", "email", "company", "job", "topic",
        "greeting", "closing", "sender", "office", "unit", "date", "place", "motto",
    ];
    let texts = [
        "Ann Svensson",
        "Dr",
        "Long Street 12",
        "Oslo",
        "Norway",
        "555-0199",
        "ann@example.org",
        "Acme",
        "baker",
        "bread",
        "Dear",
        "Yours",
        "Bob",
        "North",
        "B4",
        "2024-05-17",
        "Bergen",
        "onwards",
    ];
    let texts = texts.each_ref().map(Formattable::display);
    let values = names.into_iter().zip(texts).collect();
    repeat(&names_format(&names), &values, count)
}

/// Each value under each spec.
fn repeat_specs(values: &[Formattable<'_>], specs: &[&str], count: u32) -> String {
    let named: Vec<_> = ["a", "b", "c", "d", "e", "f"]
        .into_iter()
        .zip(values.iter().copied())
        .collect();
    let mut format_text = String::new();
    for (name, _) in &named {
        for spec in specs {
            format_text.push_str(&format!("{{{name}{spec}}} "));
        }
    }
    repeat(&format_text, &named.into_iter().collect(), count)
}

fn specs(count: u32) -> String {
    let values = [0i64, 7, -42, 12345];
    let specs = ["", ":+", ":6", ":06", ":+08", ":<8", ":^9", ":>+12"];
    repeat_specs(&values.each_ref().map(Formattable::integer), &specs, count)
}

fn radix(count: u32) -> String {
    let values = [5u32, 255, 4096, 48879];
    let specs = [":b", ":o", ":x", ":X", ":#b", ":#o", ":#010x", ":8X"];
    repeat_specs(&values.each_ref().map(Formattable::integer), &specs, count)
}

fn exponents(count: u32) -> String {
    let values = [7u64, 1200, 123456, 987654321];
    let specs = [":e", ":E", ":.2e", ":+12.3E"];
    repeat_specs(&values.each_ref().map(Formattable::integer), &specs, count)
}

const TEXTS: [&str; 6] = ["é", "naïve", "smörgåsbord", "日本語", "Привет", "plain"];

fn padded_texts(count: u32) -> String {
    let specs = [":12", ":>16", ":^10.4"];
    repeat_specs(&TEXTS.each_ref().map(Formattable::display), &specs, count)
}

fn starred_texts(count: u32) -> String {
    let specs = [":*<12", ":*>16", ":*^10.4"];
    repeat_specs(&TEXTS.each_ref().map(Formattable::display), &specs, count)
}

fn wide(count: u32) -> String {
    let values = [Formattable::display(&"wide"), Formattable::display(&42u32)];
    repeat_specs(
        &values,
        &[":1000", ":<1000", ":^1000", ":>1000", ":01000"],
        count,
    )
}

fn table_row(count: u32) -> String {
    let values = HashMap::from([
        ("id", Formattable::integer(&48213u64)),
        ("goods", Formattable::display(&"rye")),
        ("city", Formattable::display(&"Oslo")),
        ("count", Formattable::integer(&3u64)),
        ("price", Formattable::display(&"147.50")),
        ("change", Formattable::integer(&-12i64)),
        ("code", Formattable::integer(&48879u64)),
        ("name", Formattable::display(&"Ann Svensson")),
    ]);
    repeat(
        "{id:>6}|{goods:<16}|{city:^12}|{count:5}|{price:>10}|{change:>+8}|{code:#010x}|{name:20}\n",
        &values,
        count,
    )
}

fn amounts(count: u32) -> String {
    let values = HashMap::from([
        ("net", Formattable::float(&12345.67)),
        ("tax", Formattable::float(&2469.1340)),
        ("paid", Formattable::float(&-14000.0)),
        ("open", Formattable::float(&814.80)),
    ]);
    repeat(
        "net {net:>10.2} tax {tax:>10.2} paid {paid:>10.2} open {open:>10.2}",
        &values,
        count,
    )
}

fn repeat_list(format_text: &str, count: u32) -> String {
    let numbers: Vec<u32> = (0..1000).collect();
    let items: Vec<_> = numbers.iter().map(Formattable::integer).collect();
    repeat(
        format_text,
        &HashMap::from([("n", Formattable::iter(&items))]),
        count,
    )
}

fn list(count: u32) -> String {
    repeat_list("{n:i({})(, )}", count)
}

fn angled_list(count: u32) -> String {
    repeat_list("{n:i(<{}>)}", count)
}

fn nested_lists(count: u32) -> String {
    let depth = 32;
    let mut format_text = String::new();
    for signs in (0..depth).rev() {
        format_text.push_str(&format!("{{:i{}(", "#".repeat(signs)));
    }
    format_text.push_str("{}");
    for signs in 0..depth {
        format_text.push_str(&format!("){}}}", "#".repeat(signs)));
    }
    nested_list(Formattable::integer(&7u32), depth, &format_text, count)
}

/// The value, so deep in lists of one item.
fn nested_list(value: Formattable<'_>, depth: usize, format_text: &str, count: u32) -> String {
    if depth == 0 {
        return repeat(format_text, &HashMap::from([("", value)]), count);
    }
    nested_list(Formattable::iter(&[value]), depth - 1, format_text, count)
}

fn literal(count: u32) -> String {
    let line = "A line of plain text, sixty-four bytes long with its line end..\n";
    repeat(&line.repeat(1024), &HashMap::new(), count)
}

fn braces(count: u32) -> String {
    repeat(&"{{}}".repeat(16 * 1024), &HashMap::new(), count)
}

fn floats(count: u32) -> String {
    let values = [0.5, -3.25159, 1e21, 2.0];
    let specs = ["", ":.2", ":>10.3", ":+08.1", ":e"];
    repeat_specs(&values.each_ref().map(Formattable::float), &specs, count)
}

fn float_list(count: u32) -> String {
    let numbers: Vec<f64> = (0..1000).map(|number| f64::from(number) / 4.0).collect();
    let items: Vec<_> = numbers.iter().map(Formattable::float).collect();
    repeat(
        "{n:i({:.2})(, )}",
        &HashMap::from([("n", Formattable::iter(&items))]),
        count,
    )
}
