//! Checks, costs and tables.
mod common;

use common::map;
use interpolator::{
    check, check_alone, cost, explain, explain_in, faults, rows, Error, Formattable, Limits,
    ParseError, RowsError, Source, Trait,
};
use std::fmt;

#[test]
fn checks_look_at_all_of_a_format() {
    let item = [Formattable::debug_display(&0.5)];
    let example = map(&[
        ("name", Formattable::display(&"Ann")),
        ("items", Formattable::iter(&item)),
        ("none", Formattable::iter(&[])),
        ("x", Formattable::float(&1.5)),
    ]);
    let missing = |name: &str, place| Err(Error::MissingValue(name.to_string(), place));
    assert_eq!(
        check(
            "{name:>5} {x:.2} {items:i({:?})(, )} {none:i({:>5}{x})}",
            &example
        ),
        Ok(())
    );
    assert_eq!(check("{items:i9({nome})}", &example), missing("nome", 11));
    assert_eq!(
        check("{items:i({})({nome})}", &example),
        missing("nome", 14)
    );
    assert_eq!(check("{none:i({nome})}", &example), missing("nome", 9));
    assert_eq!(
        check("{items:i({:x})}", &example),
        Err(Error::MissingTraitImpl(Trait::LowerHex, 12))
    );
    assert_eq!(
        check("{name:x}", &example),
        Err(Error::MissingTraitImpl(Trait::LowerHex, 7))
    );
    assert_eq!(
        check("{name} {x", &example),
        Err(ParseError::FormatSpecUnclosed(8).into())
    );
    assert_eq!(check("", &example), Ok(()));
}

#[test]
fn a_format_by_itself() {
    assert_eq!(check_alone("{any:x}{l:i({})}"), Ok(()));
    assert_eq!(
        check_alone("{x:y}"),
        Err(ParseError::Expected("}", 3).into())
    );
    assert_eq!(
        check_alone("{h:i###a"),
        Err(ParseError::Expected("(", 7).into())
    );
    assert_eq!(
        check_alone("{x:p}"),
        Err(Error::UnsupportedOption("p", "pointer", 3))
    );
}

#[test]
fn all_faults_in_order() {
    let example = map(&[("name", Formattable::display(&"Ann"))]);
    assert_eq!(
        faults("{name:x}{q:i({name:y})}{", &example),
        [
            Error::MissingTraitImpl(Trait::LowerHex, 7),
            Error::MissingValue("q".to_string(), 9),
            ParseError::Expected("}", 19).into(),
            ParseError::FormatSpecUnclosed(24).into(),
        ]
    );
    assert_eq!(faults("{name}", &example), []);
    let many = "{q}".repeat(100);
    assert_eq!(faults(&many, &example).len(), 100);
}

#[test]
fn explanations_of_a_line() {
    let example = map(&[("name", Formattable::display(&"Ann"))]);
    let line = "é = {name:x} {q}";
    let source = Source {
        name: "m.txt",
        first_line: 7,
        text: line,
        start: 5,
    };
    assert_eq!(
        explain_in(&source, &line[5..], &example),
        [
            "\
m.txt:7:12: trait `LowerHex` not implemented, used by format argument at 7 (byte 7 of the format)
  |
7 | é = {name:x} {q}
  |     ~~~~~~~^",
            "\
m.txt:7:15: specified value not in context `q` at 10 (byte 10 of the format)
  |
7 | é = {name:x} {q}
  |              ~^~"
        ]
    );
    assert!(explain_in(&source, "{name}", &example).is_empty());
}

#[test]
fn explanations_point_at_the_argument() {
    let example = map(&[("name", Formattable::display(&"Ann"))]);
    assert_eq!(
        explain("a.txt", 3, "{name}\nDear {nome},", &example).unwrap(),
        "\
a.txt:4:7: specified value not in context `nome` at 13
  |
4 | Dear {nome},
  |      ~^~~~~"
    );
    assert_eq!(explain("a.txt", 3, "{name}", &example), None);
    let long = "é".repeat(3_000);
    let picture = explain(&long, 1, "{nome", &example).unwrap();
    assert!(picture.starts_with(&long) && picture.ends_with("~^~~~"));
}

#[test]
fn no_text_is_longer_than_its_cost() {
    let limits = Limits { text: 10, items: 3 };
    assert_eq!(cost("{a}{b}--", limits).characters, 82);
    assert_eq!(cost("{l:>99i({:.2})(, )}", limits).buffered, 133);
    assert_eq!(
        cost("{l:i({x:99999999999999999999})}", limits).characters,
        0
    );
    assert_eq!(
        cost("{x:18446744073709551615}{x}", limits).characters,
        usize::MAX
    );
}

#[test]
fn tables() {
    let columns = [
        ("name", Formattable::debug_display(&"")),
        ("price", Formattable::float(&0.0)),
        ("unused", Formattable::display(&1)),
    ];
    let names = ["nut", "bolt", "Schraube"];
    let prices = [0.125, 12.5, 100.0];
    let cells: Vec<_> = names
        .iter()
        .zip(&prices)
        .flat_map(|(name, price)| {
            [
                Formattable::debug_display(name),
                Formattable::float(price),
                Formattable::default(),
            ]
        })
        .collect();
    let table = rows("{name:<9}{price:>8.2} {name:?}", &columns, &cells).unwrap();
    assert_eq!(
        table.iter().collect::<Vec<_>>(),
        [
            "nut          0.12 \"nut\"",
            "bolt        12.50 \"bolt\"",
            "Schraube   100.00 \"Schraube\""
        ]
    );
    assert_eq!(
        (table.len(), table.is_empty(), table.get(3)),
        (3, false, None)
    );
    assert_eq!(table.text().len(), table.iter().map(str::len).sum());
    assert!(rows("{name}", &columns, &[]).unwrap().is_empty());
    assert!(rows("", &[], &[]).unwrap().is_empty());
}

struct Fails;

impl fmt::Display for Fails {
    fn fmt(&self, _: &mut fmt::Formatter<'_>) -> fmt::Result {
        Err(fmt::Error)
    }
}

#[test]
fn faults_of_tables() {
    let columns = [
        ("n", Formattable::display(&1)),
        ("t", Formattable::display(&"a")),
    ];
    let (one, a) = (Formattable::display(&1), Formattable::display(&"a"));
    assert_eq!(
        rows("{n}", &columns, &[one]),
        Err(RowsError::Cells {
            cells: 1,
            columns: 2
        })
    );
    assert_eq!(
        rows("{n}", &[], &[one]),
        Err(RowsError::Cells {
            cells: 1,
            columns: 0
        })
    );
    let missing = Error::MissingValue("q".to_string(), 1);
    assert_eq!(
        rows("{q}", &columns, &[]),
        Err(RowsError::Fault {
            row: 0,
            error: missing
        })
    );
    let fails = Formattable::display(&Fails);
    let error = Error::Fmt(fmt::Error, 2);
    assert_eq!(
        rows("{n}", &columns, &[one, a, one, a, fails, a]),
        Err(RowsError::Fault { row: 2, error })
    );
    let list = Formattable::iter(&[]);
    assert_eq!(rows("{n:i}", &[("n", list)], &[]), Err(RowsError::List));
}
