//! Compares both crates on formats that are put together at random: `formats COUNT SEED`. It prints
//! how many were alike, and how many differed in which of the ways that the README foretells; a
//! difference of any other kind is a failure.
use std::cell::RefCell;
use std::collections::BTreeMap;
use std::env;
use std::fmt::{self, Debug, Display};
use std::panic::{catch_unwind, set_hook, AssertUnwindSafe};
use std::process::ExitCode;

/// What a side makes of a format.
#[derive(Debug, PartialEq, Clone)]
enum Made {
    /// What `write` wrote, and the fault, as `Debug` shows it.
    Written(String, Option<String>),
    /// What it panicked with.
    Panicked(String),
}

thread_local! {
    static PANIC: RefCell<String> = const { RefCell::new(String::new()) };
}

/// A value with all traits by those of another.
struct Own<T>(T);

macro_rules! own {
    ($($name:ident)*) => {$(
        impl<T: fmt::$name> fmt::$name for Own<T> {
            fn fmt(&self, f: &mut fmt::Formatter<'_>) -> fmt::Result {
                self.0.fmt(f)
            }
        }
    )*};
}
own! { Binary Debug Display LowerExp LowerHex Octal UpperExp UpperHex }

/// Writes the spec that it gets.
struct Spec;

impl Display for Spec {
    fn fmt(&self, f: &mut fmt::Formatter<'_>) -> fmt::Result {
        let align = f.align().map(|align| match align {
            fmt::Alignment::Left => '<',
            fmt::Alignment::Right => '>',
            fmt::Alignment::Center => '^',
        });
        let flags = [
            f.sign_plus(),
            f.sign_minus(),
            f.alternate(),
            f.sign_aware_zero_pad(),
        ];
        write!(
            f,
            "{align:?}{flags:?}{:?}{:?}{}",
            f.width(),
            f.precision(),
            f.fill()
        )
    }
}

impl Debug for Spec {
    fn fmt(&self, f: &mut fmt::Formatter<'_>) -> fmt::Result {
        f.debug_list().entries([&Own(10), &Own(-1)]).finish()?;
        Display::fmt(self, f)
    }
}

/// Fails after it wrote a part.
struct Fails;

impl Display for Fails {
    fn fmt(&self, f: &mut fmt::Formatter<'_>) -> fmt::Result {
        f.write_str("part")?;
        Err(fmt::Error)
    }
}

/// A text that is padded.
struct Padded;

impl Display for Padded {
    fn fmt(&self, f: &mut fmt::Formatter<'_>) -> fmt::Result {
        f.pad("padded")
    }
}

macro_rules! side {
    ($side:ident) => {
        mod $side {
            use super::{Fails, Made, Own, Padded, Spec};
            use ::$side::{format, write, Formattable};
            use std::collections::HashMap;

            pub type Values = HashMap<&'static str, Formattable<'static>>;

            fn kept<T>(value: T) -> &'static T {
                Box::leak(Box::new(value))
            }

            /// Values of each kind.
            pub fn values() -> Values {
                let numbers = kept([12, -5, 0, i32::MIN].map(kept).map(Formattable::integer));
                let mixed = kept([
                    Formattable::debug_display(kept("a\"b")),
                    Formattable::float(kept(2.5)),
                    Formattable::debug_display(kept(Own('c'))),
                    Formattable::integer(kept(Own(-12i64))),
                ]);
                let some = kept([Formattable::display(kept(1)), Formattable::debug(kept(2))]);
                let lists = kept([
                    Formattable::iter(numbers),
                    Formattable::iter(some).and_display(kept("list")),
                    Formattable::iter(kept([])),
                ]);
                let failing = kept([Formattable::display(kept(3)), Formattable::display(&Fails)]);
                HashMap::from([
                    ("n", numbers[0]),
                    ("m", Formattable::integer(kept(i128::MIN + 7))),
                    ("g", Formattable::integer(kept(u64::MAX))),
                    ("h", Formattable::integer(kept(Own(-77i16)))),
                    ("t", Formattable::debug_display(kept("naïve\u{301}\t\""))),
                    ("s", Formattable::debug_display(kept(String::from("word")))),
                    ("c", Formattable::debug_display(kept('é'))),
                    ("y", Formattable::debug_display(kept(true))),
                    ("f", Formattable::float(kept(2.5))),
                    ("e", Formattable::float(kept(-1.0e-9))),
                    ("k", Formattable::float(kept(f32::MAX))),
                    ("j", Formattable::float(kept(f64::NAN))),
                    ("d", Formattable::display(kept(999.995))),
                    ("v", Formattable::debug_display(&Spec).and_binary(kept(5))),
                    ("w", Formattable::display(&Padded)),
                    ("z", Formattable::display(&Fails)),
                    ("a", Formattable::iter(numbers)),
                    ("l", Formattable::iter(mixed).and_display(kept(0.5))),
                    ("o", Formattable::iter(lists)),
                    ("i", Formattable::iter(failing)),
                    ("é b", Formattable::display(kept("named"))),
                    ("", Formattable::display(kept(0.25))),
                ])
            }

            pub fn made(format_text: &str, values: &Values) -> Made {
                let mut out = String::new();
                let result = write(&mut out, format_text, values);
                let whole = format(format_text, values);
                match (&result, &whole) {
                    (Ok(()), Ok(text)) => assert_eq!(text, &out, "{format_text:?}"),
                    (one, other) => {
                        assert_eq!(one.as_ref().err(), other.as_ref().err(), "{format_text:?}")
                    }
                }
                Made::Written(out, result.err().map(|error| format!("{error:?}")))
            }
        }
    };
}
side!(here);
side!(there);

/// Parts of formats, each as likely.
const PARTS: [&str; 60] = [
    "{", "}", "{n", "{t", "{f", "{v", "{w", "{z", "{l:i", "{a:i", "{o:i", "{i:i", "{n:", "{t:",
    "{e:", "{v:", "{", "}", ":", "{{", "}}", "(", ")", "#", "#(", ")#", "##(", ")##", "({})",
    "({:i})", "({", "({:", "0", "1", "7", "12", "-", "+", ".", "..", "..=", "<", "^", ">", "*<",
    "é>", "x", "X", "b", "o", "e", "E", "?", "x?", "i", "p", "é", " ", "{c}", "{d:.1}",
];

/// Numbers that look random, the same for a seed.
struct Numbers(u64);

impl Numbers {
    fn below(&mut self, bound: usize) -> usize {
        self.0 = self
            .0
            .wrapping_mul(6364136223846793005)
            .wrapping_add(1442695040888963407);
        (self.0 >> 33) as usize % bound
    }

    fn of<'a>(&mut self, choices: &[&'a str]) -> &'a str {
        choices[self.below(choices.len())]
    }

    /// Parts in any order.
    fn soup(&mut self) -> String {
        let count = 1 + self.below(9);
        (0..count).map(|_| self.of(&PARTS)).collect()
    }

    /// A spec up to the trait.
    fn spec(&mut self) -> String {
        let fill = self.of(&["", "", "", "", "", "", "", "", "*", "é"]);
        let align = self.of(&["", "", "<", "^", ">"]);
        let fill = if align.is_empty() { "" } else { fill };
        let sign = self.of(&["", "", "", "+", "-"]);
        let flag = self.of(&["", "", "", "#"]);
        let zero = self.of(&["", "", "", "0"]);
        let width = self.of(&["", "", "1", "5", "9", "20", "300"]);
        let precision = self.of(&["", "", ".0", ".1", ".3", ".17", ".400"]);
        format!("{fill}{align}{sign}{flag}{zero}{width}{precision}")
    }

    /// An argument of a name, of the item, or of a list with groups.
    fn argument(&mut self, depth: usize) -> String {
        const NAMES: [&str; 26] = [
            "n", "m", "g", "h", "t", "s", "c", "y", "f", "e", "k", "j", "d", "v", "w", "z", "a",
            "l", "o", "i", "é b", "", "", "q", " n", "n ",
        ];
        if depth < 4 && self.below(3) == 0 {
            return self.list(depth);
        }
        let name = self.of(&NAMES);
        let spec = self.spec();
        let letter = self.of(&[
            "", "", "", "", "?", "?", "x", "X", "b", "o", "e", "E", "x?", "X?", "i", "p", "y",
        ]);
        if spec.is_empty() && letter.is_empty() && self.below(2) == 0 {
            return format!("{{{name}}}");
        }
        format!("{{{name}:{spec}{letter}}}")
    }

    fn list(&mut self, depth: usize) -> String {
        let name = self.of(&["a", "l", "o", "i", "", "", "n"]);
        let width = self.of(&["", "", "", "3", "9", ">30", "<30", "^30", "é^30", "+"]);
        let range = self.of(&[
            "", "", "", "0", "1", "-1", "..", "1..", "..-1", "0..=1", "2..1", "-9..9", "..=-1", "7",
        ]);
        let pounds = "#".repeat(4usize.saturating_sub(depth));
        let mut groups = String::new();
        for _ in 0..self.below(3) {
            let inner = self.text(depth + 1, 2);
            groups.push_str(&format!("{pounds}({inner}){pounds}"));
        }
        format!("{{{name}:{width}i{range}{groups}}}")
    }

    fn text(&mut self, depth: usize, most: usize) -> String {
        let mut text = String::new();
        for _ in 0..=self.below(most) {
            match self.below(6) {
                0 => text.push_str(self.of(&["a", "é", "{{", "}}", ", ", "}"])),
                _ => text.push_str(&self.argument(depth)),
            }
        }
        text
    }

    fn format(&mut self) -> String {
        let mut format_text = match self.below(3) {
            0 => return self.soup(),
            _ => self.text(0, 3),
        };
        // One of five loses its end, or a character, or gets one more.
        let places: Vec<usize> = format_text.char_indices().map(|(at, _)| at).collect();
        let at = places[self.below(places.len())];
        match self.below(15) {
            0 => format_text.truncate(at),
            1 => drop(format_text.remove(at)),
            2 => format_text.insert_str(at, self.of(&PARTS)),
            _ => {}
        }
        format_text
    }
}

/// The groups of a list, and where its argument ends, if the brace of an argument is at this place.
fn groups(format_text: &str, brace: usize) -> Option<(Vec<(usize, usize)>, usize)> {
    let bytes = format_text.as_bytes();
    let skip = |mut at: usize, are: &dyn Fn(u8) -> bool| {
        while bytes.get(at).is_some_and(|byte| are(*byte)) {
            at += 1;
        }
        at
    };
    let colon = skip(brace + 1, &|byte| byte != b':' && byte != b'}');
    if bytes.get(colon) != Some(&b':') {
        return Some((Vec::new(), colon));
    }
    // One character that ends the format behind a colon is no spec.
    if format_text[colon + 1..].chars().nth(1).is_none() {
        return Some((Vec::new(), colon + 1));
    }
    let mut at = skip(colon + 1, &|byte| b"<^>+-#0123456789.".contains(&byte));
    let mut groups = Vec::new();
    if bytes.get(at) != Some(&b'i') {
        return Some((groups, skip(at, &|byte| byte != b'}')));
    }
    let bound = |at| skip(at, &|byte| b"-0123456789".contains(&byte));
    at = bound(at + 1);
    if format_text[at..].starts_with("..") {
        at = bound(at + 2 + usize::from(bytes.get(at + 2) == Some(&b'=')));
    }
    while groups.len() < 2 && matches!(bytes.get(at), Some(b'#' | b'(')) {
        let open = skip(at, &|byte| byte == b'#');
        let end = format!("){}", "#".repeat(open - at));
        let length = format_text.get(open + 1..)?.find(&end)?;
        groups.push((open + 1, open + 1 + length));
        at = open + 1 + length + end.len();
    }
    Some((groups, at))
}

/// The place of a fault there, where a group counts from its own beginning, and what is counted is
/// added to the end of its list's spec. That of `Fmt` is not moved.
fn place_there(format_text: &str, place: usize, is_fmt: bool) -> Option<usize> {
    let mut at = 0;
    while at < format_text.len() {
        let rest = &format_text[at..];
        if rest.starts_with("{{") || rest.starts_with("}}") {
            at += 2;
        } else if rest.starts_with('{') {
            let Some((groups, end)) = groups(format_text, at) else {
                return Some(place);
            };
            for (first, last) in &groups {
                if (*first..=*last).contains(&place) {
                    let inner = place_there(&format_text[*first..*last], place - first, is_fmt)?;
                    return Some(if is_fmt { inner } else { inner + end });
                }
            }
            if place <= end {
                // An item without a format that fails has the place 0 there.
                let is_item = is_fmt && is_list(&format_text[at..end]);
                return Some(if is_item { 0 } else { place });
            }
            at = end + 1;
        } else {
            at += rest.chars().next()?.len_utf8();
        }
    }
    Some(place)
}

/// Whether an argument's trait is `i`.
fn is_list(argument: &str) -> bool {
    let spec = argument.split_once(':').map_or("", |(_, spec)| spec);
    spec.trim_start_matches(|c: char| "<^>+-#0123456789.".contains(c))
        .starts_with('i')
}

/// A fault without its place, and the place.
fn parted(fault: &str) -> (String, usize) {
    let end = fault.trim_end_matches(')');
    let digits = end.len() - end.trim_end_matches(|c: char| c.is_ascii_digit()).len();
    let (kind, place) = end.split_at(end.len() - digits);
    (kind.to_string(), place.parse().unwrap())
}

/// How what is made is foretold where the crate panics, or none if it is not.
fn forecast_of_panic(panic: &str, fault: Option<&String>) -> Option<&'static str> {
    if panic.contains("Formatting argument out of range") {
        return Some("a width or precision above 65535, where the crate panics");
    }
    let fault = fault?;
    if panic.contains("the len is 1 but the index is 1") {
        return Some("cut behind an x, where the crate panics");
    }
    let is_cut = panic.contains("the len is 0 but the index is 0")
        && fault.starts_with("Parse(FormatSpecUnclosed");
    is_cut.then_some("cut in a spec, where the crate panics")
}

/// How a difference is foretold, or none if it is not.
fn forecast(format_text: &str, here: &Made, there: &Made) -> Option<&'static str> {
    let Made::Written(text, fault) = here else {
        return None;
    };
    let (text_there, fault_there) = match there {
        Made::Written(text, Some(fault)) => (text, fault),
        Made::Written(_, None) => return None,
        Made::Panicked(panic) => return forecast_of_panic(panic, fault.as_ref()),
    };
    if fault_there.starts_with("Parse(Fill(") {
        let is_fill = text.starts_with(text_there.as_str());
        return is_fill.then_some("a fill");
    }
    let (kind, place) = parted(fault.as_ref()?);
    let (kind_there, place_of_there) = parted(fault_there);
    let is_fmt = kind.starts_with("Fmt");
    if kind != kind_there || Some(place_of_there) != place_there(format_text, place, is_fmt) {
        return None;
    }
    match text_there.strip_prefix(text.as_str())? {
        "" => Some("a place in a group"),
        "part" if is_fmt && place == place_of_there => Some("a part of a value that fails"),
        "part" if is_fmt => Some("both a part of a value that fails, and a place in a group"),
        _ => None,
    }
}

/// What a side makes, or that it panicked.
fn caught(make: impl FnOnce() -> Made) -> Made {
    catch_unwind(AssertUnwindSafe(make)).unwrap_or_else(|_| Made::Panicked(PANIC.take()))
}

fn main() -> ExitCode {
    let numbers: Vec<u64> = env::args()
        .skip(1)
        .map_while(|word| word.parse().ok())
        .collect();
    let [count, seed] = numbers[..] else {
        eprintln!("usage: formats COUNT SEED");
        return ExitCode::from(2);
    };
    set_hook(Box::new(|panic| PANIC.set(panic.to_string())));
    let (values, values_there) = (here::values(), there::values());
    let mut random = Numbers(seed);
    let mut counts: BTreeMap<&str, usize> = BTreeMap::new();
    let mut unforetold = 0;
    for _ in 0..count {
        let format_text = random.format();
        let here = caught(|| here::made(&format_text, &values));
        let there = caught(|| there::made(&format_text, &values_there));
        let kind = match (&here, &there) {
            (here, there) if here == there => match here {
                Made::Written(_, None) => "alike, a text",
                _ => "alike, a fault",
            },
            _ => forecast(&format_text, &here, &there).unwrap_or("unforetold"),
        };
        *counts.entry(kind).or_default() += 1;
        if kind == "unforetold" && unforetold < 20 {
            unforetold += 1;
            eprintln!("{format_text:?}\n  here:  {here:?}\n  there: {there:?}");
        }
    }
    for (kind, count) in &counts {
        println!("{count:>8} {kind}");
    }
    ExitCode::from(u8::from(unforetold > 0))
}
