//! Floats, against std.
mod common;

use common::{map, text, Own};
use interpolator::{check, format, Error, Formattable};
use std::fmt;

#[test]
fn a_float_is_written_as_by_std() {
    for number in [
        0.0,
        -0.0,
        0.5,
        2.5,
        999.995,
        1e21,
        -3.25159,
        5e-324,
        f64::NAN,
        f64::INFINITY,
    ] {
        let small = number as f32;
        let pairs = [
            ("f", Formattable::float(&number)),
            ("s", Formattable::float(&small)),
        ];
        let texts = text(
            "{f} {f:.0} {f:+9.2} {f:*^12.1} {f:012.3e} {s} {s:<9.1}|{s:?}",
            &pairs,
        );
        let by_std = format!(
            "{number} {number:.0} {number:+9.2} {number:*^12.1} {number:012.3e} {small} {small:<9.1}|{small:?}"
        );
        assert_eq!(texts, by_std);
    }
}

/// Compares the texts of floats under a spec with std's, for each choice of its parts.
macro_rules! each_spec {
    ([$($parts:literal)*]) => {
        for number in [0.0, -0.5, 2.5, 999.995, -0.005, 1e17, 12345678.125, f64::NAN, -1e-300] {
            let spec = concat!("{f:" $(, $parts)*, "}");
            let by_std = format!(concat!("{0:" $(, $parts)*, "}"), number);
            assert_eq!(text(spec, &[("f", Formattable::float(&number))]), by_std, "{spec}");
        }
    };
    ([$($parts:literal)*] [$($choice:literal)*] $($choices:tt)*) => {
        each_spec!([$($parts)*] $($choice)*; $($choices)*)
    };
    ([$($parts:literal)*] $choice:literal $($others:literal)*; $($choices:tt)*) => {
        each_spec!([$($parts)* $choice] $($choices)*);
        each_spec!([$($parts)*] $($others)*; $($choices)*)
    };
    ([$($parts:literal)*]; $($choices:tt)*) => {};
}

#[test]
fn a_float_under_each_spec() {
    each_spec!([] ["" "<" ">" "*<" "é^"] ["" "+"] ["" "#"] ["" "0"] ["" "9" "20"] ["" ".0" ".2" ".15"]);
    each_spec!([] ["" "*^"] ["12"] ["" ".0" ".3"] ["?" "e" "E"]);
}

#[test]
fn a_float_in_a_list() {
    let halves = [0.5, 1.5, 2.5, 0.125, 0.375, 999.5, 0.25, 9.75];
    let list = halves.each_ref().map(Formattable::float);
    let pairs = [("l", Formattable::iter(&list))];
    assert_eq!(
        text("{l:i({:.0} {:.1} {:.2})(, )}", &pairs),
        halves
            .map(|half| format!("{half:.0} {half:.1} {half:.2}"))
            .join(", ")
    );
}

#[test]
fn a_float_beside_values_of_other_types() {
    let (half, third) = (0.5, 1.0 / 3.0);
    let mixed = Formattable::display(&half).and_debug(&third);
    let other = Formattable::debug(&half).and_display(&"word");
    let mut last = Formattable::float(&half);
    last.set_display(&7);
    let pairs = [("m", mixed), ("o", other), ("l", last)];
    assert_eq!(
        text(
            "{m:.2} {m:.2?} {o:.2} {o:.2?} {l:.2} {l:.2?} {l:.1e}",
            &pairs
        ),
        "0.50 0.33 wo 0.50 7 0.50 5.0e-1"
    );
}

/// Compares the texts of a value with std's, under widths and precisions up to the greatest that
/// std takes, and under greater ones.
macro_rules! compare_at_the_border {
    ($name:literal, $value:ident in $context:ident: $($letter:literal)*) => {$(
        for count in 65_533..=65_537usize {
            let width = format!(concat!("{{", $name, ":{}", $letter, "}}"), count);
            let precision = format!(concat!("{{", $name, ":.{}", $letter, "}}"), count);
            let is_exponent = matches!($letter, "e" | "E");
            let by_std = (count <= 65_535)
                .then(|| format!(concat!("{0:1$", $letter, "}"), $value, count));
            compare(&width, &$context, by_std);
            let by_std = (count <= 65_535 - usize::from(is_exponent))
                .then(|| format!(concat!("{0:.1$", $letter, "}"), $value, count));
            compare(&precision, &$context, by_std);
        }
    )*};
}

#[track_caller]
fn compare(format_text: &str, context: &impl interpolator::Context, by_std: Option<String>) {
    let fault = Error::Fmt(fmt::Error, format_text.len() - 1);
    let wanted = by_std.ok_or(fault);
    assert!(format(format_text, context) == wanted, "{format_text}");
    assert_eq!(
        check(format_text, context),
        wanted.map(|_| ()),
        "{format_text}"
    );
}

#[test]
fn the_greatest_widths_and_precisions() {
    let number = Own(12);
    let context = map(&[("n", Formattable::integer(&number))]);
    compare_at_the_border!("n", number in context: "" "?" "b" "o" "x" "X" "e" "E" "x?" "X?");
}

/// The text of `{name:spec}`.
fn under(context: &impl interpolator::Context, name: &str, spec: &str) -> String {
    format(&format!("{{{name}:{spec}}}"), context).unwrap_or_else(|error| panic!("{spec}: {error}"))
}

/// What the library writes takes any width and precision: a text is that of a smaller one, with more
/// spaces or zeros.
#[test]
fn greater_widths_and_precisions() {
    let (double, single) = (2.5, 1e-30f32);
    let context = map(&[
        ("d", Formattable::float(&double)),
        ("s", Formattable::float(&single)),
        ("k", Formattable::integer(&12)),
    ]);
    for count in [65_533, 65_535, 65_536, 65_537, 100_000] {
        for letter in ["", "?", "e", "E"] {
            for name in ["d", "s", "k"] {
                let text = under(&context, name, &format!("{count}{letter}"));
                let short = under(&context, name, letter);
                assert_eq!(text.len(), count);
                assert_eq!(text.trim_start(), short);
            }
            for name in ["d", "s"] {
                let text = under(&context, name, &format!(".{count}{letter}"));
                let less = under(&context, name, &format!(".1000{letter}"));
                let digits = text.trim_end_matches(|c: char| "e-30E".contains(c));
                let fewer = less.trim_end_matches(|c: char| "e-30E".contains(c));
                assert_eq!(text.len() - less.len(), count - 1000);
                assert_eq!(digits, fewer);
            }
        }
    }
}

/// How many floats are tried by chance, each under ten specs: optimized, a million texts.
const BY_CHANCE: u32 = if cfg!(debug_assertions) {
    20_000
} else {
    100_000
};

/// Each float as std writes it, at each number of digits that it often has and to a width, and without.
#[test]
fn floats_by_chance() {
    let mut state = 88172645463325252u64;
    let mut next = || {
        state ^= state << 13;
        state ^= state >> 7;
        state ^= state << 17;
        state
    };
    for kind in 0..BY_CHANCE {
        let number = match kind % 6 {
            0 => f64::from_bits(next()),
            1 => (next() % 100_000_000) as f64 / 1000.0,
            2 => (next() % 1_000_000) as f64 / 64.0,
            3 => f64::from_bits(next() >> 12 | (963 + next() % 80) << 52),
            4 => (next() % 2_000_001) as f64 / -2000.0,
            _ => f64::from(f32::from_bits(next() as u32)),
        };
        let (single, digits) = (number as f32, (next() % 18) as usize);
        let width = 1 + (next() % 40) as usize;
        let pairs = [
            ("d", Formattable::float(&number)),
            ("s", Formattable::float(&single)),
        ];
        let form = format!(
            "{{d}} {{d:?}} {{d:.{digits}}} {{d:.{digits}e}} {{s}} {{s:E}} {{s:.{digits}}} \
             {{d:+0{width}}} {{d:>{width}.{digits}}} {{s:*^{width}.{digits}e}}"
        );
        let by_std = format!(
            "{number} {number:?} {number:.digits$} {number:.digits$e} {single} {single:E} {single:.digits$} \
             {number:+0width$} {number:>width$.digits$} {single:*^width$.digits$e}"
        );
        assert_eq!(text(&form, &pairs), by_std);
    }
}
