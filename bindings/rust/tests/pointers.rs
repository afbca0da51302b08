//! The feature `pointer`: a program that names it compiles; a format that has a `p` has a fault.
#![cfg(feature = "pointer")]
use interpolator::{check, context, explain, format, iformat, Error, Formattable, Trait};

#[test]
fn values_under_pointer() {
    let (number, text) = (&5, "t");
    let mut set = Formattable::debug_display(&text);
    set.set_pointer(&number);
    assert_eq!(format!("{set:?}"), "Formattable(debug, display, pointer)");
    let both = Formattable::pointer(&number).and_iter(&[]);
    assert_eq!(format!("{both:?}"), "Formattable(pointer, iter)");
    let context = context! { number: p, text: pointer = number, text = "t", number: :x = 6 };
    assert_eq!(
        format("{number} {number:x} {text}", &context).as_deref(),
        Ok("6 6 t")
    );
    assert_eq!(
        format!("{:?}", context["text"]),
        "Formattable(display, pointer)"
    );
    let fault = Error::MissingTraitImpl(Trait::Display, 2);
    assert_eq!(iformat!("{p}", p: p = number), Err(fault));
}

#[test]
fn a_format_with_a_p() {
    let number = &5;
    let context = context! { number: :p };
    let fault = Error::UnsupportedOption("p", "pointer", 8);
    assert_eq!(format("{number:p}", &context), Err(fault.clone()));
    assert_eq!(check("{number:p}", &context), Err(fault));
    let name = "is not supported without feature";
    assert_eq!(
        explain(name, 1, "{number:p}", &context)
            .unwrap()
            .lines()
            .next(),
        Some(
            "is not supported without feature:1:9: \
            option `p` is not supported even with feature `pointer` at 8"
        )
    );
    assert_eq!(Trait::Pointer, Trait::Pointer);
}
