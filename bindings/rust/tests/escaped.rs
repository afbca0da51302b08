//! Formats whose values are written escaped: rows of crates/interpolator_tests/src/escaped.rt.
use interpolator::{format_escaped, Error, Escape, EscapeError, Formattable, Why};
use std::collections::HashMap;
use std::fmt;

/// A value that the library does not write itself.
struct Own;

impl fmt::Display for Own {
    fn fmt(&self, f: &mut fmt::Formatter<'_>) -> fmt::Result {
        f.pad("<own>")
    }
}

fn by(escape: Escape, format: &str) -> Result<String, EscapeError> {
    let marks = ["<", "\""].each_ref().map(Formattable::display);
    let context = HashMap::from([
        ("a", Formattable::debug_display(&"<&>\"x")),
        ("b", Formattable::display(&"it's")),
        ("c", Formattable::debug_display(&"\t\\")),
        ("n", Formattable::integer(&-7i32)),
        ("l", Formattable::iter(&marks)),
        ("own", Formattable::display(&Own)),
    ]);
    format_escaped(escape, format, &context)
}

#[test]
fn values_are_escaped() {
    let rows = [
        (
            Escape::Html,
            "{a:<^9}{n:&>4}",
            "&lt;&lt;&lt;&amp;&gt;&quot;x&lt;&lt;&amp;&amp;-7",
        ),
        (
            Escape::Html,
            "{l:i(<b>{}</b>)(, )}{l:i}",
            "<b>&lt;</b>, <b>&quot;</b>&lt;&quot;",
        ),
        (Escape::Html, "<i>{own:>7.4}</i>", "<i>   &lt;own</i>"),
        (
            Escape::Csv,
            "\"{a:.4}\",\"{a:>6}\"",
            "\"<&>\"\"\",\" <&>\"\"x\"",
        ),
        (
            Escape::Json,
            "[{l:i(\"{}\")(, )}]",
            "[\"\\u003c\", \"\\\"\"]",
        ),
        (
            Escape::Json,
            "[{c:?}, {n:?}]",
            "[\"\\t\\\\\", -7]",
        ),
        (
            Escape::Shell,
            "echo '{b}' -- '{c}'",
            "echo 'it'\\''s' -- '\t\\'",
        ),
        (Escape::Line, "{a} {b} {c}", "<&>\"x it's \\t\\\\"),
    ];
    for (escape, format, text) in rows {
        assert_eq!(by(escape, format).as_deref(), Ok(text));
    }
}

#[test]
fn a_value_out_of_place_is_told() {
    let rows = [
        (Escape::Html, "<p id={a}>", 6, Why::Value),
        (Escape::Html, "{l:i(<b>{}</b)}", 0, Why::Item),
        (Escape::Html, "{l:i({})(<br)}", 0, Why::Join),
        (Escape::Csv, "\"{a}\",{n}", 6, Why::Value),
        (Escape::Json, "{{\"n\": {n}}}", 7, Why::Value),
        (Escape::Shell, "echo {b}", 5, Why::Value),
        (Escape::Line, "{a}{l:\t>9i({})}", 3, Why::Fill),
    ];
    for (escape, format, place, why) in rows {
        assert_eq!(by(escape, format), Err(EscapeError::Misplaced(why, place)));
    }
    let error = by(Escape::Html, "<p id={a}>").unwrap_err();
    assert_eq!(error.to_string(), "at 6: this value is out of place");
    let fault = Error::MissingValue("q".to_string(), 4);
    assert_eq!(by(Escape::Html, "<b>{q}</b>"), Err(fault.into()));
}

#[test]
fn a_long_text_is_whole() {
    let value = "\"".repeat(70_000);
    let context = HashMap::from([("v", Formattable::display(&value))]);
    let text = format_escaped(Escape::Csv, "\"{v}\"", &context).unwrap();
    assert_eq!(text, "\"".repeat(140_002));
}
