//! The forms of the macros, each with what it makes. All of them are also forms of the crate
//! `interpolator` 0.5.0, by which `tests/origin.rs` compiles this file too.
use interpolator::{context, format, iformat, iwrite, iwriteln, list, Formattable};
use std::collections::HashMap;
use std::fmt::Write;

/// A form, as it stands in this file, what it makes, and what it is to make.
pub struct Form {
    pub source: &'static str,
    pub made: String,
    pub wanted: &'static str,
}

/// Made by a macro.
pub trait Made {
    fn shown(&self) -> String;
}

const SPECS: [&str; 8] = ["", "?", "b", "o", "x", "X", "e", "E"];

/// The texts of a value under each trait that it has, and of its items in brackets.
fn slots(value: Formattable<'_>) -> String {
    let context = HashMap::from([("v", value)]);
    let text = |spec: &str| format(&format!("{{v:{spec}}}"), &context).ok();
    let texts = SPECS
        .iter()
        .filter_map(|spec| Some(format!(" {spec}={}", text(spec)?)));
    let items = (0..9).map_while(|place| {
        let item = |spec: &str| format!("{{v:i{place}({{:{spec}}})}}");
        let is_there = format(&format!("{{v:i{place}(.)}}"), &context).as_deref() == Ok(".");
        let texts = SPECS
            .iter()
            .filter_map(|spec| Some((spec, format(&item(spec), &context).ok()?)));
        let texts = texts.map(|(spec, text)| format!(" {spec}={text}"));
        is_there.then(|| format!(" [{} ]", texts.collect::<String>()))
    });
    texts.chain(items).collect()
}

impl Made for HashMap<&str, Formattable<'_>> {
    fn shown(&self) -> String {
        let mut names: Vec<_> = self.keys().copied().collect();
        names.sort_unstable();
        let values = names
            .iter()
            .map(|name| format!("{name}{}", slots(self[name])));
        values.collect::<Vec<_>>().join("; ")
    }
}

impl<const N: usize> Made for [Formattable<'_>; N] {
    fn shown(&self) -> String {
        slots(Formattable::iter(self))
    }
}

impl<E: std::fmt::Display> Made for Result<String, E> {
    fn shown(&self) -> String {
        match self {
            Ok(text) => text.clone(),
            Err(error) => error.to_string(),
        }
    }
}

macro_rules! forms {
    ($($form:expr => $wanted:literal,)*) => {
        vec![$(Form {
            source: stringify!($form),
            made: $form.shown(),
            wanted: $wanted,
        }),*]
    };
}

/// How the traits and the value of an entry may be written.
pub fn entries() -> Vec<Form> {
    let (a, b) = (5, "t");
    forms! {
        context! {} => "",
        context! { a } => "a =5",
        context! { a, } => "a =5",
        context! { a: } => "a =5",
        context! { a:, } => "a =5",
        context! { a:: } => "a =5",
        context! { a: : } => "a =5",
        context! { a = 6 } => "a =6",
        context! { a = 6, } => "a =6",
        context! { a: = 6 } => "a =6",
        context! { a: = 6, } => "a =6",
        context! { a:? } => "a ?=5",
        context! { a:?, } => "a ?=5",
        context! { a:? = 6 } => "a ?=6",
        context! { a: ? = b } => "a ?=\"t\"",
        context! { a:debug = b } => "a ?=\"t\"",
        context! { a: :? } => "a =5 ?=5",
        context! { a::? } => "a =5 ?=5",
        context! { a:?: } => "a =5 ?=5",
        context! { a:?:, b } => "a =5 ?=5; b =t",
        context! { a:?:: } => "a =5 ?=5",
        context! { a: :? = b } => "a =t ?=\"t\"",
        context! { a::? = b } => "a =t ?=\"t\"",
        context! { a: :debug = b, } => "a =t ?=\"t\"",
        context! { a:?:x } => "a ?=5 x=5",
        context! { a:?:x = 10 } => "a ?=10 x=a",
        context! { a:debug:lower_hex = 10 } => "a ?=10 x=a",
        context! { a: debug : lower_hex = 10 } => "a ?=10 x=a",
        context! { a::?:x = 10 } => "a =10 ?=10 x=a",
        context! { a: :?:x = 10 } => "a =10 ?=10 x=a",
        context! { a:?::x = 10 } => "a =10 ?=10 x=a",
        context! { a:?: :x = 10 } => "a =10 ?=10 x=a",
        context! { a:b:o:x:X:e:E = 10 } => "a b=1010 o=12 x=a X=A e=1e1 E=1E1",
        context! { a: set_debug = b } => "a ?=\"t\"",
        context! { a: set_debug_display:? = b } => "a =t ?=\"t\"",
        context! { r#type = 5 } => "r#type =5",
        context! { type = 5, fn: ? = 6 } => "fn ?=6; type =5",
    }
}

/// Each trait, by each of its names.
pub fn traits() -> Vec<Form> {
    let (n, f, l) = (12, 0.5, list!["a", 1]);
    let (kept, part) = (vec![Formattable::display(&n)], &l[1..]);
    forms! {
        context! { n: display } => "n =12",
        context! { n: debug } => "n ?=12",
        context! { n: ? } => "n ?=12",
        context! { n: binary } => "n b=1100",
        context! { n: b } => "n b=1100",
        context! { n: octal } => "n o=14",
        context! { n: o } => "n o=14",
        context! { n: lower_hex } => "n x=c",
        context! { n: x } => "n x=c",
        context! { n: upper_hex } => "n X=C",
        context! { n: X } => "n X=C",
        context! { n: lower_exp } => "n e=1.2e1",
        context! { n: e } => "n e=1.2e1",
        context! { n: upper_exp } => "n E=1.2E1",
        context! { n: E } => "n E=1.2E1",
        context! { n: integer } => "n =12 ?=12 b=1100 o=14 x=c X=C e=1.2e1 E=1.2E1",
        context! { f: float } => "f =0.5 ?=0.5 e=5e-1 E=5E-1",
        context! { f: e:E:? = 0.25 } => "f ?=0.25 e=2.5e-1 E=2.5E-1",
        context! { l: iter } => "l [ =a ] [ =1 ]",
        context! { l: i } => "l [ =a ] [ =1 ]",
        context! { l: i = kept } => "l [ =12 ]",
        context! { l: i = part } => "l [ =1 ]",
        list![debug, X: ; n] => " [ =12 ?=12 X=C ]",
    }
}

/// Names that are given twice: slots that both fill have the later value.
pub fn names_given_twice() -> Vec<Form> {
    let (a, b, l) = ("hello", 7, list![1, 2]);
    forms! {
        context! { a = 1, a: debug = 2 } => "a =1 ?=2",
        context! { a: debug = 2, a = 1 } => "a =1 ?=2",
        context! { a = 1, a = 2 } => "a =2",
        context! { a = 1, a = "t" } => "a =t",
        context! { a = "", a:? = "" } => "a = ?=\"\"",
        context! { a: integer = 7, a = 'c' } => "a =c ?=7 b=111 o=7 x=7 X=7 e=7e0 E=7E0",
        context! { a = 'c', a: integer = 7 } => "a =7 ?=7 b=111 o=7 x=7 X=7 e=7e0 E=7E0",
        context! { a: float = 0.5, a:? = 7u8, a:e = 5u8 } => "a =0.5 ?=7 e=5e0 E=5E-1",
        context! { a, a:?, a: :?, a = 5, a:?:x = 5 } => "a =5 ?=5 x=5",
        context! { a, b = 1, a:x = 10, b:?, b: :E = 2.0 } => "a =hello x=a; b =2 ?=7 E=2E0",
        context! { a, a: i = l } => "a =hello [ =1 ] [ =2 ]",
        context! { a: i = l, a:i = [] } => "a",
    }
}

/// How the traits and the values of a list may be written.
pub fn lists() -> Vec<Form> {
    let (a, b) = (5, 16);
    forms! {
        list![a] => " [ =5 ]",
        list![a,] => " [ =5 ]",
        list![a, b] => " [ =5 ] [ =16 ]",
        list!["test", 10, 'c',] => " [ =test ] [ =10 ] [ =c ]",
        list![;] => "",
        list![; a] => " [ =5 ]",
        list![; a, b] => " [ =5 ] [ =16 ]",
        list![;"test", 10,] => " [ =test ] [ =10 ]",
        list![: ; a, b] => " [ =5 ] [ =16 ]",
        list![:; "test", 10] => " [ =test ] [ =10 ]",
        list![: : ; a] => " [ =5 ]",
        list![:: ; a] => " [ =5 ]",
        list![:?; "a", 1] => " [ ?=\"a\" ] [ ?=1 ]",
        list![: ? ; a] => " [ ?=5 ]",
        list![:debug; a] => " [ ?=5 ]",
        list![:debug; a, b] => " [ ?=5 ] [ ?=16 ]",
        list![: :?; a] => " [ =5 ?=5 ]",
        list![::?; a] => " [ =5 ?=5 ]",
        list![:?:; a] => " [ =5 ?=5 ]",
        list![:?::; a] => " [ =5 ?=5 ]",
        list![: :?:X; 4, 0x10, 0xa4] => " [ =4 ?=4 X=4 ] [ =16 ?=16 X=10 ] [ =164 ?=164 X=A4 ]",
        list![::?:X; 2, 1] => " [ =2 ?=2 X=2 ] [ =1 ?=1 X=1 ]",
        list![:x:?; b] => " [ ?=16 x=10 ]",
        list![:x::?; b] => " [ =16 ?=16 x=10 ]",
        list![:x: :?; b] => " [ =16 ?=16 x=10 ]",
        list![::x::?; b] => " [ =16 ?=16 x=10 ]",
        list![:lower_hex:display; b] => " [ =16 x=10 ]",
        list![:integer; 8u8] => " [ =8 ?=8 b=1000 o=10 x=8 X=8 e=8e0 E=8E0 ]",
        list![:float; 0.5] => " [ =0.5 ?=0.5 e=5e-1 E=5E-1 ]",
        list![debug; a, b] => " [ ?=5 ] [ ?=16 ]",
        list![debug, x; a, b] => " [ ?=5 x=5 ] [ ?=16 x=10 ]",
        list![debug: ; a] => " [ =5 ?=5 ]",
        list![debug, x: ; a] => " [ =5 ?=5 x=5 ]",
        list![debug:x; a] => " [ ?=5 x=5 ]",
        list![debug:?; a] => " [ ?=5 ]",
        list![debug::x; a] => " [ =5 ?=5 x=5 ]",
        list![debug::x::?; a] => " [ =5 ?=5 x=5 ]",
        list![debug, o::?:X; b] => " [ =16 ?=16 o=20 X=10 ]",
        list![:?, x; a] => " [ ?=5 x=5 ]",
        list![::o, x:?, e; a] => " [ =5 ?=5 o=5 x=5 e=5e0 ]",
        list![:set_debug_display; a] => " [ =5 ?=5 ]",
        list![(a), b] => " [ =5 ] [ =16 ]",
    }
}

/// The macros that write.
pub fn texts() -> Vec<Form> {
    let (a, words) = (10, list!["test", 10, "another"]);
    let numbers = list![: :?:X; 4, 0x10, 0xa4];
    let mut forms = forms! {
        iformat!("{a}", a) => "10",
        iformat!("plain",) => "plain",
        iformat!("{a}, {b:?}", a = 10, b:? = "test") => "10, \"test\"",
        iformat!("{a}, {b:?}", a, b:debug = "test",) => "10, \"test\"",
        iformat!(&String::from("{a}"), a = 1, a:? = 2) => "1",
        iformat!("{words:i({})(, )}", words:i) => "test, 10, another",
        iformat!("{list:i({})(, )}", list:iter = words) => "test, 10, another",
        iformat!("{numbers:i({} {:?} {:X})(, )}", numbers:i) => "4 4 4, 16 16 10, 164 164 A4",
        iformat!("{b}", a) => "specified value not in context `b` at 1",
    };
    for (wanted, writes) in [
        ("10, \"test\"", write_once as fn(&mut String)),
        ("a\n10, \"test\"\nb\n", write_lines),
    ] {
        let mut made = String::new();
        writes(&mut made);
        forms.push(Form {
            source: "iwrite!, iwriteln!",
            made,
            wanted,
        });
    }
    forms
}

fn write_once(out: &mut String) {
    iwrite!(out, "{a}, {b:?}", a = 10, b:? = "test").unwrap();
}

fn write_lines(mut out: &mut String) {
    let (a, items) = (10, list!["b"]);
    iwriteln!(out, "a",).unwrap();
    iwriteln!(&mut out, "{a}, {b:?}", a, b: :? = "test").unwrap();
    iwriteln!(&mut *out, "{a:i}", a:i = items).unwrap();
}

pub fn all() -> Vec<Form> {
    let tables = [entries(), traits(), names_given_twice(), lists(), texts()];
    tables.into_iter().flatten().collect()
}
