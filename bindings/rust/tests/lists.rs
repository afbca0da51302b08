//! Lists under `i`.
mod common;

use common::{fault, map, text};
use interpolator::{Error, Formattable, ParseError, Trait};

#[test]
fn ranges_items_and_joins() {
    let list = [1, 5];
    let list = list.each_ref().map(Formattable::display);
    let h = [("h", Formattable::iter(&list))];
    for (format, wanted) in [
        ("{h:i(`{:+05}`)#() )#}", "`+0001`) `+0005`"),
        ("{h:i(``)}", "````"),
        ("{h:i..({})}", "15"),
        ("{h:i1..({})}", "5"),
        ("{h:i1..1({})}", ""),
        ("{h:i2..1({})}", ""),
        ("{h:i-1..({})}", "5"),
        ("{h:i..-1({})}", "1"),
        ("{h:i..-2({})}", ""),
        ("{h:i-5..-10({})}", ""),
        ("{h:i-1({})}", "5"),
        ("{h:i1}", "5"),
        ("{h:i..}", "15"),
        ("{h:i}", "15"),
        ("{h:i..1}", "1"),
        ("{h:i1..}", "5"),
        ("{h:i..=-1}", "15"),
        ("{h:i..=-5}", "1"),
        ("{h:i5({z)}", ""),
        ("{h:*>6i({})(,)}", "***1,5"),
        ("{h:>6i({})(,)}", "   1,5"),
    ] {
        assert_eq!(text(format, &h), wanted, "{format}");
    }
}

#[test]
fn greetings() {
    let words = ["hello", "hi", "hey"];
    let words = words.each_ref().map(Formattable::display);
    let pairs = [
        ("items", Formattable::iter(&words)),
        ("outside", Formattable::display(&'!')),
    ];
    assert_eq!(
        text(
            "Greetings: {items:i..-1(`{}{outside}`)(, )} and `{items:i-1}{outside}`",
            &pairs
        ),
        "Greetings: `hello!`, `hi!` and `hey!`"
    );
    assert_eq!(
        fault(
            "Greetings: {items:i..-1(`{it}`)(, )} and {items:i-1..(`{it}`)}",
            &map(&pairs)
        ),
        (
            "Greetings: `".to_string(),
            Error::MissingValue("it".to_string(), 26)
        )
    );
}

#[test]
fn items_of_several_types_under_several_specs() {
    let (half, ip) = (0.5, std::net::Ipv4Addr::LOCALHOST);
    let list = [
        Formattable::debug_display(&half),
        Formattable::debug_display(&"a"),
        Formattable::debug_display(&ip),
        Formattable::debug_display(&7u128),
    ];
    let pairs = [
        ("l", Formattable::iter(&list)),
        ("half", Formattable::display(&half)),
    ];
    assert_eq!(text("{l:i({})(, )}", &pairs), "0.5, a, 127.0.0.1, 7");
    assert_eq!(text("{l:i}", &pairs), "0.5a127.0.0.17");
    assert_eq!(text("{l:i({:>10}|{:?}|{half:.2})( {half} )}|{l:i0({:.3})}", &pairs),
        "       0.5|0.5|0.50 0.5          a|\"a\"|0.50 0.5  127.0.0.1|127.0.0.1|0.50 0.5          7|7|0.50|0.500");
}

#[test]
fn lists_in_lists() {
    let (one, two) = ([0.5, 1.5], [2.5]);
    let one = one.each_ref().map(Formattable::display);
    let two = two.each_ref().map(Formattable::display);
    let outer = [
        Formattable::iter(&one).and_display(&"unused"),
        Formattable::iter(&two),
        Formattable::iter(&[]),
    ];
    let pairs = [
        ("o", Formattable::iter(&outer)),
        ("x", Formattable::display(&9.0)),
    ];
    assert_eq!(
        text("{o:i#([{:i({:.2})(,)}])#(; )}", &pairs),
        "[0.50,1.50]; [2.50]; []"
    );
    assert_eq!(
        text("{o:i#({:i})#(/)} {o:i0#({:>8i({:.0}{x})(-)})#}", &pairs),
        "0.51.5/2.5/    09-29"
    );
    assert_eq!(
        fault("{o:i#({:i({z})})#}", &map(&pairs)),
        (String::new(), Error::MissingValue("z".to_string(), 11))
    );
}

#[test]
fn the_join_means_what_it_does_around_the_list() {
    let inner = [1, 2].map(|_| Formattable::display(&"i"));
    let outer = [Formattable::iter(&inner)];
    let empty = [
        ("o", Formattable::iter(&outer)),
        ("", Formattable::display(&1.25)),
    ];
    // The join of the outer list has the context's empty name; that of the inner one the outer item.
    assert_eq!(text("{} {o:i#({:i({})})#({:.1})}", &empty), "1.25 ii");
    let twice = [outer[0], outer[0]];
    let empty = [
        ("o", Formattable::iter(&twice)),
        ("", Formattable::display(&1.25)),
    ];
    assert_eq!(text("{o:i#({:i({})})#({:.1})}", &empty), "ii1.2ii");
    let lists = [[Formattable::iter(&inner)]];
    let lists = lists.each_ref().map(|list| Formattable::iter(list));
    let pairs = [("o", Formattable::iter(&lists))];
    assert_eq!(text("{o:i##({:i#({:i({})({:i0})})#})##}", &pairs).len(), 3);
}

#[test]
fn what_a_list_may_not_be() {
    let list = [Formattable::binary(&1)];
    let pairs = map(&[
        ("b", Formattable::iter(&list)),
        ("h", Formattable::iter(&[])),
    ]);
    assert_eq!(
        fault("{b:i}", &pairs),
        (String::new(), Error::MissingTraitImpl(Trait::Display, 4))
    );
    assert_eq!(
        fault("{h:+i}", &pairs),
        (String::new(), Error::Parse(ParseError::Iter(5)))
    );
    assert_eq!(
        fault("{h:.2i}", &pairs),
        (String::new(), Error::Parse(ParseError::Iter(6)))
    );
    assert_eq!(
        text("{b:i({:b})}{b:i0..0}", &[("b", Formattable::iter(&list))]),
        "1"
    );
}

#[test]
fn a_list_with_other_slots() {
    let list = [Formattable::display(&1), Formattable::display(&2)];
    let both = Formattable::iter(&list).and_display(&"all").and_debug(&2.5);
    let pairs = [("x", both)];
    assert_eq!(
        text("{x:i({})(,)} {x:>5} {x:.3?}", &pairs),
        "1,2   all 2.500"
    );
    assert_eq!(text("{x}", &pairs), "all");
    assert_eq!(
        fault("{x:i}{x:b}", &map(&pairs)),
        ("12".to_string(), Error::MissingTraitImpl(Trait::Binary, 9))
    );
    let nested = [both];
    assert_eq!(
        text(
            "{o:i#({}={:i({})(+)})#}",
            &[("o", Formattable::iter(&nested))]
        ),
        "all=1+2"
    );
}

#[test]
fn a_long_list() {
    let numbers: Vec<u32> = (0..10_000).collect();
    let halves: Vec<f64> = numbers
        .iter()
        .map(|number| f64::from(*number) / 2.0)
        .collect();
    let list: Vec<_> = numbers
        .iter()
        .zip(&halves)
        .flat_map(|(n, h)| [Formattable::display(n), Formattable::display(h)])
        .collect();
    let wanted: Vec<_> = numbers
        .iter()
        .zip(&halves)
        .map(|(n, h)| format!("{n:.1},{h:.1}"))
        .collect();
    assert_eq!(
        text("{l:i({:.1})(,)}", &[("l", Formattable::iter(&list))]),
        wanted.join(",")
    );
}
