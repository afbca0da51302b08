//! Values under each trait and spec.
mod common;

use common::{fault, map, text, Own};
use interpolator::{format, Context, Error, Formattable, Trait};
use std::borrow::Cow;
use std::collections::{BTreeMap, HashMap};
use std::fmt;
use std::net::Ipv4Addr;
use std::path::Path;

#[test]
fn numbers_under_each_trait() {
    let v = [("v", Formattable::integer(&42))];
    let each = "{v:b} {v:?} {v:} {v:e} {v:x} {v:o} {v:E} {v:X} {v:x?} {v:#X?}";
    assert_eq!(text(each, &v), "101010 42 42 4.2e1 2a 52 4.2E1 2A 2a 0x2A");
    let byte = [("v", Formattable::integer(&-1i8))];
    assert_eq!(
        text("{v:#010x};{v:+x};{v:^7};{v:<#6o};", &byte),
        "0x000000ff;+ff;  -1   ;0o377 ;"
    );
    assert_eq!(
        text("{value:+05}", &[("value", Formattable::display(&12))]),
        "+0012"
    );
}

#[test]
fn whole_numbers_of_each_type() {
    macro_rules! each {
        ($($number:expr),*) => {$(
            let number = $number;
            let n = [("n", Formattable::integer(&number))];
            assert_eq!(text("{n} {n:?} {n:#x} {n:o} {n:b} {n:+09} {n:e}", &n),
                format!("{number} {number:?} {number:#x} {number:o} {number:b} {number:+09} {number:e}"));
        )*};
    }
    each!(
        i8::MIN,
        i16::MIN,
        i32::MIN,
        i64::MIN,
        i128::MIN,
        isize::MIN,
        -1i8,
        -1i16,
        -1i32,
        -1i64
    );
    each!(
        u8::MAX,
        u16::MAX,
        u32::MAX,
        u64::MAX,
        u128::MAX,
        usize::MAX,
        -1i128,
        -1isize,
        0u128,
        7i128
    );
    let n = 7u64;
    let by_reference = &&n;
    assert_eq!(
        text("{n:#06x}", &[("n", Formattable::integer(by_reference))]),
        "0x0007"
    );
}

#[test]
fn texts_of_each_type() {
    let string = String::from("é\"a");
    let lent = string.as_str();
    let cow = Cow::Borrowed(lent);
    let boxed: Box<str> = Box::from(lent);
    let (twice, of_string) = (&lent, &string);
    let values = [
        Formattable::debug_display(&string),
        Formattable::debug_display(&lent),
        Formattable::debug_display(&twice),
        Formattable::debug_display(&of_string),
        Formattable::debug_display(&cow),
        Formattable::debug_display(&boxed),
    ];
    for t in values {
        let t = [("t", t)];
        assert_eq!(
            text("{t:.2}/{t:5}/{t:>05}/{t:_^7}/{t:?}", &t),
            "é\"/é\"a  /  é\"a/__é\"a__/\"é\\\"a\""
        );
    }
}

#[test]
fn truth_values_and_characters() {
    let values = [
        ("b", Formattable::debug_display(&true)),
        ("c", Formattable::debug_display(&'\'')),
    ];
    assert_eq!(
        text("{b:6?}/{c:?}/{b:.1}/{c:^3}", &values),
        "true  /'\\''/t/ ' "
    );
}

#[test]
fn debug_of_texts_is_that_of_std() {
    let text_past_ascii = "a\u{301}\u{200b}é\u{7f}\t\"'";
    let character = '\u{200b}';
    let values = [
        ("t", Formattable::debug_display(&text_past_ascii)),
        ("c", Formattable::debug_display(&character)),
    ];
    assert_eq!(
        text("{t:?} {c:?} {t}", &values),
        format!("{text_past_ascii:?} {character:?} {text_past_ascii}")
    );
}

#[test]
fn floats_under_each_spec() {
    let f = [
        ("f", Formattable::float(&3.25159)),
        ("n", Formattable::float(&-0.5f32)),
    ];
    assert_eq!(
        text(
            "{f} {f:.2} {f:8.3} {f:<8.3}| {f:^+8.1}| {f:08.2} {f:e} {f:.1E} {f:?}",
            &f
        ),
        "3.25159 3.25    3.252 3.252   |   +3.3  | 00003.25 3.25159e0 3.3E0 3.25159"
    );
    assert_eq!(
        text("{n:*^9.2} {n:é<6} {n:_>+06} {n:>5} {n:-}", &f),
        "**-0.50** -0.5éé -000.5  -0.5 -0.5"
    );
    let odd = [
        ("i", Formattable::display(&f64::INFINITY)),
        ("x", Formattable::display(&f64::NAN)),
    ];
    assert_eq!(text("{i:5} {x:>5} {i:+}", &odd), "  inf   NaN +inf");
}

struct Point {
    x: i32,
    y: i32,
}

impl fmt::Display for Point {
    fn fmt(&self, f: &mut fmt::Formatter<'_>) -> fmt::Result {
        write!(f, "({}, {})", self.x, self.y)
    }
}

#[allow(dead_code)] // they are read by Debug alone
#[derive(Debug)]
struct Named<'a> {
    name: &'a str,
    age: Option<u8>,
}

/// Writes the spec that it gets.
struct Spec;

impl fmt::Display for Spec {
    fn fmt(&self, f: &mut fmt::Formatter<'_>) -> fmt::Result {
        let flags = [
            f.sign_plus(),
            f.sign_minus(),
            f.alternate(),
            f.sign_aware_zero_pad(),
        ];
        let align = f.align().map(|align| match align {
            fmt::Alignment::Left => '<',
            fmt::Alignment::Right => '>',
            fmt::Alignment::Center => '^',
        });
        let (width, precision, fill) = (f.width(), f.precision(), f.fill());
        write!(
            f,
            "{width:?} {precision:?} {fill} {align:?} {:?}",
            flags.map(u8::from)
        )
    }
}

#[test]
fn types_of_the_callers_own() {
    let (point, name) = (Point { x: 1, y: -2 }, String::from("Zoë"));
    let named = Named {
        name: &name,
        age: Some(7),
    };
    let values = [
        ("p", Formattable::display(&point)),
        ("d", Formattable::debug(&named)),
        ("ip", Formattable::debug_display(&Ipv4Addr::LOCALHOST)),
    ];
    assert_eq!(
        text("{p} {p:>12}|{ip:>12}|{ip:*<12}|{ip:?}", &values),
        "(1, -2) (1, -2)|   127.0.0.1|127.0.0.1***|127.0.0.1"
    );
    assert_eq!(text("{d:?}", &values), format!("{named:?}"));
    assert_eq!(text("{d:#?}", &values), format!("{named:#?}"));
    assert_eq!(text("{d:*>5?}", &values), format!("{named:*>5?}"));
    assert_eq!(
        text("{d:#X?} {d:03?}", &values),
        format!("{named:#X?} {named:03?}")
    );
}

/// Compares the texts under a spec with std's, for each choice of its parts.
macro_rules! each_spec {
    ([$($parts:literal)*]) => {{
        let spec = concat!("{t:" $(, $parts)*, "}");
        let by_std = format!(concat!("{0:" $(, $parts)*, "}"), Spec);
        assert_eq!(text(spec, &[("t", Formattable::display(&Spec))]), by_std, "{spec}");
    }};
    ([$($parts:literal)*] [$($choice:literal)*] $($choices:tt)*) => {
        each_spec!([$($parts)*] $($choice)*; $($choices)*)
    };
    ([$($parts:literal)*] $choice:literal $($others:literal)*; $($choices:tt)*) => {
        each_spec!([$($parts)* $choice] $($choices)*);
        each_spec!([$($parts)*] $($others)*; $($choices)*)
    };
    ([$($parts:literal)*]; $($choices:tt)*) => {};
}

#[test]
fn a_value_gets_its_spec() {
    each_spec!([] ["" "<" "^" ">"] ["" "+" "-"] ["" "#"] ["" "0"] ["" "5"] ["" ".0"]);
}

/// Tells the fill that it gets, in place of writing it.
struct Fill;

impl fmt::Display for Fill {
    fn fmt(&self, f: &mut fmt::Formatter<'_>) -> fmt::Result {
        write!(f, "{:x}", u32::from(f.fill()))
    }
}

#[test]
fn a_fill_reaches_the_text_alone() {
    let values = [
        ("t", Formattable::display(&Spec)),
        ("f", Formattable::display(&Fill)),
    ];
    assert_eq!(text("{t:*>5}", &values), format!("{Spec:*>5}"));
    assert_eq!(text("{t:é<+9}", &values), format!("{Spec:é<+9}"));
    assert_eq!(text("{f:>5} {f:*>} {f:*>5}", &values), "20 20 10ffff");
}

#[test]
fn slots_with_values_of_their_own() {
    let (number, word) = (10, "test");
    let mixed = Formattable::display(&number)
        .and_debug(&word)
        .and_binary(&5u8);
    assert_eq!(
        text("{m} {m:?} {m:b} {m:>4}", &[("m", mixed)]),
        "10 \"test\" 101   10"
    );
    let point = Point { x: 1, y: 2 };
    let mut set = Formattable::default();
    set.set_display(&point);
    set.set_debug(&number);
    set.set_upper_hex(&255u8);
    assert_eq!(text("{s} {s:?} {s:X}", &[("s", set)]), "(1, 2) 10 FF");
    set.set_display(&word);
    assert_eq!(text("{s} {s:?} {s:X}", &[("s", set)]), "test 10 FF");
}

#[test]
fn the_slots_have_names() {
    let float = Formattable::float(&1.5);
    for (value, wanted) in [
        (Formattable::default(), "Formattable"),
        (Formattable::default().and_display(&1).and_debug(&1), "Formattable(debug, display)"),
        (Formattable::debug_display(&1), "Formattable(debug, display)"),
        (Formattable::integer(&1),
            "Formattable(debug, display, binary, lower_exp, lower_hex, octal, upper_exp, upper_hex)"),
        (float.and_iter(&[]), "Formattable(debug, display, lower_exp, upper_exp, iter)"),
    ] {
        assert_eq!(format!("{value:?}"), wanted);
    }
}

#[test]
fn an_empty_slot_is_a_missing_trait() {
    let point = Point { x: 1, y: 2 };
    let values = map(&[
        ("x", Formattable::display(&1)),
        ("p", Formattable::display(&point)),
        ("n", Formattable::default()),
        ("l", Formattable::iter(&[])),
        ("f", Formattable::float(&1.5)),
    ]);
    for (text, missing, place) in [
        ("{x:b}", Trait::Binary, 4),
        ("{x:?}", Trait::Debug, 4),
        ("{x:X?}", Trait::Debug, 5),
        ("{p:o}", Trait::Octal, 4),
        ("{f:x}", Trait::LowerHex, 4),
        ("{f:X}", Trait::UpperHex, 4),
        ("{p:e}", Trait::LowerExp, 4),
        ("{p:E}", Trait::UpperExp, 4),
        ("{n}", Trait::Display, 2),
        ("{l}", Trait::Display, 2),
        ("{x:i}", Trait::Iter, 4),
        ("{p:i}", Trait::Iter, 4),
    ] {
        assert_eq!(
            fault(text, &values),
            (String::new(), Error::MissingTraitImpl(missing, place)),
            "{text}"
        );
    }
}

struct Fails;

impl fmt::Display for Fails {
    fn fmt(&self, f: &mut fmt::Formatter<'_>) -> fmt::Result {
        f.write_str("a part")?;
        Err(fmt::Error)
    }
}

#[test]
fn a_value_that_fails_is_fmt_at_its_place() {
    let fails = map(&[
        ("v", Formattable::display(&Fails)),
        ("f", Formattable::display(&Own(1.5))),
    ]);
    assert_eq!(
        fault("a{v}b", &fails),
        ("a".to_string(), Error::Fmt(fmt::Error, 3))
    );
    assert_eq!(
        fault("{f}{f:70000}", &fails),
        ("1.5".to_string(), Error::Fmt(fmt::Error, 11))
    );
    assert_eq!(
        text("{f:65535}", &[("f", Formattable::display(&Own(1.5)))]).len(),
        65535
    );
    assert_eq!(
        text("{n:70000}", &[("n", Formattable::display(&1))]).len(),
        70000
    );
}

struct User {
    name: String,
    age: u8,
    home: Box<Path>,
}

impl Context for User {
    fn get(&self, key: &str) -> Option<Formattable<'_>> {
        match key {
            "name" => Some(Formattable::debug_display(&self.name)),
            "age" => Some(Formattable::integer(&self.age)),
            "home" => Some(Formattable::debug(&self.home)),
            _ => None,
        }
    }
}

#[test]
fn contexts_of_each_kind() {
    let user = User {
        name: "Ann".to_string(),
        age: 42,
        home: Path::new("/home/ann").into(),
    };
    assert_eq!(
        format("{ name} {age:x} {home:?}", &user).unwrap(),
        "Ann 2a \"/home/ann\""
    );
    let object: &dyn Context = &user;
    assert_eq!(format("{name}", object).unwrap(), "Ann");
    assert_eq!(format("{name}", &object).unwrap(), "Ann");
    assert_eq!(
        fault("{age}{nome}", &user),
        ("42".to_string(), Error::MissingValue("nome".to_string(), 6))
    );
    let owned: HashMap<String, Formattable<'_>> =
        HashMap::from([("a b".to_string(), Formattable::display(&1))]);
    assert_eq!(format("{a b}", &owned).unwrap(), "1");
    let ordered = BTreeMap::from([
        ("", Formattable::display(&1)),
        ("a{b", Formattable::display(&2)),
    ]);
    assert_eq!(format("{}{ }{a{b}", &ordered).unwrap(), "112");
}

#[test]
fn long_texts_and_formats() {
    let long = "é".repeat(100_000);
    let values = [
        ("t", Formattable::display(&long)),
        ("f", Formattable::display(&0.5)),
    ];
    assert_eq!(text("{t}{t}", &values).len(), 400_000);
    assert_eq!(text("{t}{f}{t}", &values).len(), 400_003);
    let format_text = "x{{}}".repeat(10_000);
    assert_eq!(text(&format_text, &[]), "x{}".repeat(10_000));
    let (before, error) = fault("{t}{f}{q}", &map(&values));
    assert_eq!(
        (before.len(), error),
        (200_003, Error::MissingValue("q".to_string(), 7))
    );
}
