//! The macros.
#[path = "common/forms.rs"]
mod forms;

use interpolator::{
    context, format, ieprint, ieprintln, iformat, iprint, iprintln, iwrite, iwriteln, list, Error,
};
use std::fmt::{self, Write};
use std::rc::Rc;

#[test]
fn each_form_makes_what_it_says() {
    for form in forms::all() {
        assert_eq!(form.made, form.wanted, "{}", form.source);
    }
}

#[test]
fn names_that_are_strings() {
    let b = 10;
    let context = context! { "a string" = b, "a string": ? = b, "": :x = 11, };
    let text = format("{a string} {a string:?} {} {:x}", &context);
    assert_eq!(text.as_deref(), Ok("10 10 11 b"));
}

#[test]
fn more_than_the_crate_takes() -> Result<(), Error> {
    let list = list![: ?; "a", 1,];
    assert_eq!(iformat!("{list:i({:?})(,)}", list: i)?, "\"a\",1");
    assert_eq!(iformat!("{n} {n:?} {n:x}", n:?::x: = 10)?, "10 10 a");
    assert_eq!(iformat!("{n} {n:?}", n: debug_display = 10)?, "10 10");
    let numbers = list![i8::MAX, u8::MAX,];
    assert_eq!(iformat!("{numbers:i({})(,)}", numbers: i)?, "127,255");
    let shared = Rc::new(Vec::from(numbers));
    assert_eq!(iformat!("{shared:i0({})}", shared: i)?, "127");
    assert_eq!(iformat!("no values")?, "no values");
    let none = list![];
    assert_eq!(none.len(), 0);
    Ok(())
}

#[test]
fn values_that_are_made_on_the_spot() {
    let name = String::from("ann");
    let text = iformat!("{upper} {lines:i({})(/)} {sum:.1}", upper = name.to_uppercase(),
        lines: iter = list![name.len() + 1, name.repeat(2)], sum = 1.0 + 0.25,);
    assert_eq!(text.unwrap(), "ANN 4/annann 1.2");
    let mut calls = 0;
    let mut next = || {
        calls += 1;
        calls
    };
    assert_eq!(iformat!("{n}{n:?}", n: :? = next()).unwrap(), "11");
    assert_eq!(calls, 1);
    let text = iformat!("{list:i({:?})(,)}", list: i = list![:?; "test", name.len()]);
    assert_eq!(text.as_deref(), Ok("\"test\",3"));
}

fn to_any(out: &mut impl fmt::Write) -> Result<(), Error> {
    iwrite!(out, "{a}, ", a: display = 10)?;
    iwriteln!(out, "{b:?}", b: debug = "test")
}

#[test]
fn writers() {
    let mut out = String::new();
    iwriteln!(out, "{a}, {b:?}", a = 10, b: debug = "test").unwrap();
    to_any(&mut out).unwrap();
    iwrite!(&mut out, "{{}}").unwrap();
    let context = context! { a = 1 };
    iwrite!(out, "{a}", &context).unwrap();
    iwriteln!(out, "{a}{q}", &context).unwrap_err();
    assert_eq!(out, "10, \"test\"\n10, \"test\"\n{}11");
    assert_eq!(iformat!("{a}", &context).unwrap(), "1");
}

struct One(String);

impl fmt::Write for One {
    fn write_str(&mut self, text: &str) -> fmt::Result {
        if self.0.len() + text.len() > 1 {
            return Err(fmt::Error);
        }
        self.0.push_str(text);
        Ok(())
    }
}

#[test]
fn a_newline_that_is_refused() {
    let mut one = One(String::new());
    assert_eq!(iwriteln!(one, "{a}", a = 1), Err(Error::Fmt(fmt::Error, 0)));
    assert_eq!(one.0, "1");
}

#[test]
fn printing() {
    let a = 10;
    iprint!("{a}, {b:?}\n", a, b: debug = "test").unwrap();
    iprintln!("{a}, {b:?}", a: display, b: debug = "test").unwrap();
    ieprint!("{a}\n", a).unwrap();
    ieprintln!("{a}", a).unwrap();
    assert_eq!(
        iprintln!("{q}"),
        Err(Error::MissingValue("q".to_string(), 1))
    );
}
