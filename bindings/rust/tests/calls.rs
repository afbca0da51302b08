//! How often a value's own `fmt` is called, and what a context is asked.
mod common;

use common::{fault, map};
use interpolator::{format, Context, Error, Formattable};
use std::cell::{Cell, RefCell};
use std::fmt;

/// Counts the calls of its `fmt`.
#[derive(Default)]
struct Counted(Cell<u32>);

impl fmt::Display for Counted {
    fn fmt(&self, f: &mut fmt::Formatter<'_>) -> fmt::Result {
        self.0.set(self.0.get() + 1);
        f.pad("c")
    }
}

impl fmt::Debug for Counted {
    fn fmt(&self, f: &mut fmt::Formatter<'_>) -> fmt::Result {
        fmt::Display::fmt(self, f)
    }
}

#[test]
fn fmt_is_called_once_for_each_spec() {
    let list = [1, 2].map(|_| Counted::default());
    let items = list.each_ref().map(Formattable::display);
    for (text, wanted) in [
        ("{c}", 1),
        ("{c}{c}{c}", 1),
        ("{c}{c:?}{c:3}{c:?}{c:3}", 3),
        ("{c:*>3}", 2),
        ("{x}", 0),
        ("{x} {{c}}", 0),
        ("{nome}{c}", 1),
        ("{c}{nome}", 1),
        ("{x}{c:b}", 0),
        ("{x:b}{c}", 1),
        ("{c}{x:+q}", 1),
        ("{c}{x", 1),
        ("{x:i({c})}{c}", 1),
    ] {
        let value = Counted::default();
        let context = map(&[
            ("c", Formattable::debug_display(&value)),
            ("x", Formattable::display(&"x")),
            ("l", Formattable::iter(&items)),
        ]);
        let _ = format(text, &context);
        assert_eq!(value.0.get(), wanted, "{text}");
    }
    let context = map(&[("l", Formattable::iter(&items))]);
    assert_eq!(format("{l:i0({}{}{:2})}", &context).as_deref(), Ok("ccc "));
    assert_eq!(list.each_ref().map(|item| item.0.get()), [2, 2]);
}

/// A context that is asked for each name by itself, and notes which.
struct Asked<'a> {
    value: &'a Counted,
    names: RefCell<Vec<String>>,
}

impl Context for Asked<'_> {
    fn get(&self, key: &str) -> Option<Formattable<'_>> {
        self.names.borrow_mut().push(key.to_string());
        match key {
            "c" => Some(Formattable::display(self.value)),
            "t" => Some(Formattable::display(&"t")),
            _ => None,
        }
    }
}

#[test]
fn a_context_of_ones_own_gives_the_same() {
    let value = Counted::default();
    let asked = Asked {
        value: &value,
        names: RefCell::default(),
    };
    assert_eq!(format("{t}{c}{c:2}{t}{c}", &asked).as_deref(), Ok("tcc tc"));
    assert_eq!(value.0.get(), 2);
    let names = asked.names.take();
    assert!(names.iter().all(|name| name == "t" || name == "c"));
    assert_eq!(
        fault("{t}{c}{q}{c}", &asked),
        ("tc".to_string(), Error::MissingValue("q".to_string(), 7))
    );
    // Once for each of the two calls.
    assert_eq!(value.0.get(), 4);
}

#[test]
fn many_arguments_and_many_values() {
    let names: Vec<String> = (0..200).map(|place| format!("n{place}")).collect();
    let halves: Vec<f64> = (0..200).map(|place| f64::from(place) / 2.0).collect();
    let pairs: Vec<_> = names
        .iter()
        .zip(&halves)
        .map(|(name, half)| (name.as_str(), Formattable::float(half)))
        .collect();
    let context = map(&pairs);
    for count in [1, 7, 63, 64, 65, 200] {
        let text: String = names[..count]
            .iter()
            .map(|name| format!("{{{name}:.1}},"))
            .collect();
        let wanted: String = halves[..count]
            .iter()
            .map(|half| format!("{half:.1},"))
            .collect();
        assert_eq!(format(&text, &context), Ok(wanted));
    }
}

#[test]
fn lists_that_share_lists() {
    let words = ["a", "b"].each_ref().map(Formattable::display);
    let mut list: &[Formattable<'_>] = &words;
    // Each level has the one below it twice, so that there are 2 to 31 words.
    for _ in 0..30 {
        list = Vec::leak(vec![Formattable::iter(list); 2]);
    }
    let context = map(&[("l", Formattable::iter(list))]);
    assert_eq!(format("{l:i0..0}", &context).as_deref(), Ok(""));
    assert_eq!(format("{l:i#({:i0..0})#}", &context).as_deref(), Ok(""));
}
