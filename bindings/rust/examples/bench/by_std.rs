//! The same texts by std's `format!`, whose formats the compiler reads.
use std::fmt::Write;
use std::hint::black_box;

fn repeat(count: u32, make: impl Fn() -> String) -> String {
    let mut text = String::new();
    for _ in 0..count {
        text = make();
    }
    text
}

pub fn log_line(count: u32) -> String {
    repeat(count, || {
        format!(
            "{time} {level} [{module}] {message} (line {line})",
            time = black_box("2024-05-17T12:34:56Z"),
            level = black_box("INFO"),
            module = black_box("store::index"),
            message = black_box("rebuilt the index of all orders"),
            line = black_box(217u64),
        )
    })
}

/// Each of some values, displayed plainly, with a space after it.
macro_rules! plainly {
    ($($value:expr)*) => {
        format!(concat!($(plainly!(@ $value)),*), $(black_box($value)),*)
    };
    (@ $value:expr) => { "{} " };
}

pub fn number_names(count: u32) -> String {
    repeat(count, || {
        plainly!(0u32 1u32 2u32 3u32 5u32 8u32 13u32 21u32 34u32 55u32 89u32 144u32 233u32 377u32
            610u32 987u32 4u32 6u32 9u32 10u32 12u32 14u32 15u32 16u32 18u32 20u32 22u32 24u32
            25u32 26u32 27u32 28u32)
    })
}

pub fn text_names(count: u32) -> String {
    repeat(count, || {
        plainly!("Ann Svensson" "Dr" "Long Street 12" "Oslo" "Norway" "555-0199"
            "ann@example.org" "Acme" "baker" "bread" "Dear" "Yours" "Bob" "North" "B4"
            "2024-05-17" "Bergen" "onwards")
    })
}

/// Each of some values under each spec.
macro_rules! under {
    ($specs:tt $($name:ident = $value:expr),*) => {
        format!(concat!($(under!(@ $name $specs)),*), $($name = black_box($value)),*)
    };
    (@ $name:ident [$($spec:literal)*]) => {
        concat!($("{", stringify!($name), $spec, "} "),*)
    };
}

pub fn specs(count: u32) -> String {
    repeat(count, || {
        under!(["" ":+" ":6" ":06" ":+08" ":<8" ":^9" ":>+12"]
            a = 0i64, b = 7i64, c = -42i64, d = 12345i64)
    })
}

pub fn radix(count: u32) -> String {
    repeat(count, || {
        under!([":b" ":o" ":x" ":X" ":#b" ":#o" ":#010x" ":8X"]
            a = 5u32, b = 255u32, c = 4096u32, d = 48879u32)
    })
}

pub fn exponents(count: u32) -> String {
    repeat(count, || {
        under!([":e" ":E" ":.2e" ":+12.3E"]
            a = 7u64, b = 1200u64, c = 123456u64, d = 987654321u64)
    })
}

pub fn padded_texts(count: u32) -> String {
    repeat(count, || {
        under!([":12" ":>16" ":^10.4"]
            a = "é", b = "naïve", c = "smörgåsbord", d = "日本語", e = "Привет", f = "plain")
    })
}

pub fn starred_texts(count: u32) -> String {
    repeat(count, || {
        under!([":*<12" ":*>16" ":*^10.4"]
            a = "é", b = "naïve", c = "smörgåsbord", d = "日本語", e = "Привет", f = "plain")
    })
}

pub fn wide(count: u32) -> String {
    repeat(
        count,
        || under!([":1000" ":<1000" ":^1000" ":>1000" ":01000"] a = "wide", b = 42u32),
    )
}

pub fn floats(count: u32) -> String {
    repeat(count, || {
        under!(["" ":.2" ":>10.3" ":+08.1" ":e"]
            a = 0.5, b = -3.25159, c = 1e21, d = 2.0)
    })
}

/// A list, by a loop over its items, since `format!` has none.
fn items<T>(count: u32, values: &[T], join: &str, put: impl Fn(&mut String, &T)) -> String {
    repeat(count, || {
        let mut text = String::new();
        for (place, value) in black_box(values).iter().enumerate() {
            if place > 0 {
                text.push_str(join);
            }
            put(&mut text, value);
        }
        text
    })
}

pub fn list(count: u32) -> String {
    let numbers: Vec<u32> = (0..1000).collect();
    items(count, &numbers, ", ", |text, number| {
        write!(text, "{number}").expect("a String takes every text");
    })
}

pub fn angled_list(count: u32) -> String {
    let numbers: Vec<u32> = (0..1000).collect();
    items(count, &numbers, "", |text, number| {
        write!(text, "<{number}>").expect("a String takes every text");
    })
}

pub fn float_list(count: u32) -> String {
    let numbers: Vec<f64> = (0..1000).map(|number| f64::from(number) / 4.0).collect();
    items(count, &numbers, ", ", |text, number| {
        write!(text, "{number:.2}").expect("a String takes every text");
    })
}
