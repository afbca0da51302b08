//! The texts of `crates/interpolator_bench` that are written escaped, as one writes them by hand: a
//! loop over characters (`loop-`), a loop over runs of bytes that need no escape (`runs-`), and, as
//! Go's `html` does, a pass that counts how long the text gets, and one that writes it by runs into a
//! new text of that length (`passes-`). `escapes WORKLOAD COUNT` makes one so often, and prints its
//! length and checksum; without a word it prints the names of all. `count.sh escapes` builds and
//! counts this.
use std::fmt::Write;
use std::hint::black_box;

const PLAIN: &str =
    "Prose of eighty bytes in which nothing is escaped, over and over and over again ";

/// An escape: its name, what stands around a value, its prose, and what it writes for a byte.
struct Escape {
    name: &'static str,
    around: (&'static str, &'static str),
    prose: &'static str,
    of: fn(u8) -> Option<&'static str>,
}

const ESCAPES: [Escape; 5] = [
    Escape {
        name: "html",
        around: ("<p>", "</p>"),
        prose: "Tom & Ann said \"no\" to a < b and to b > a, and then they went home, it's late now ",
        of: |byte| match byte {
            b'&' => Some("&amp;"),
            b'<' => Some("&lt;"),
            b'>' => Some("&gt;"),
            b'"' => Some("&quot;"),
            b'\'' => Some("&#39;"),
            _ => None,
        },
    },
    Escape {
        name: "csv",
        around: ("\"", "\""),
        prose: "He said \"no\", she said \"yes\", and \"so on\" is what they all said to each other then ",
        of: |byte| (byte == b'"').then_some("\"\""),
    },
    Escape {
        name: "json",
        around: ("\"", "\""),
        prose: "He said \"no\" and she said \"yes\", by a path C:\\one\\two, which is where they were then ",
        of: |byte| match byte {
            b'"' => Some("\\\""),
            b'\\' => Some("\\\\"),
            b'\n' => Some("\\n"),
            b'\r' => Some("\\r"),
            b'\t' => Some("\\t"),
            b'<' => Some("\\u003c"),
            _ => None,
        },
    },
    Escape {
        name: "shell",
        around: ("echo '", "'"),
        prose: "It's late, isn't it, and that's all that's said of what he's done and she's not done ",
        of: |byte| (byte == b'\'').then_some("'\\''"),
    },
    // its escapes are of characters: `line_escaped`
    Escape {
        name: "line",
        around: ("", ""),
        prose: "A path C:\\one\\two and a tab\tor two\twith a bell\u{7} and a path D:\\ once more, and so on",
        of: |_| None,
    },
];

/// Whether a character is a control of a line, or a mark of direction.
fn is_control(c: char) -> bool {
    matches!(c, '\0'..='\x1f' | '\x7f'..='\u{9f}' | '\u{61c}' | '\u{200e}' | '\u{200f}'
        | '\u{2028}'..='\u{202e}' | '\u{2066}'..='\u{2069}')
}

/// Writes a character of a line, if it is escaped.
#[inline(always)]
fn line_escaped(out: &mut String, c: char) -> bool {
    match c {
        '\\' => out.push_str("\\\\"),
        '\n' => out.push_str("\\n"),
        '\r' => out.push_str("\\r"),
        '\t' => out.push_str("\\t"),
        c if c < '\u{100}' && is_control(c) => write!(out, "\\x{:02x}", c as u32).unwrap(),
        c if is_control(c) => write!(out, "\\u{:04x}", c as u32).unwrap(),
        _ => return false,
    }
    true
}

/// How many bytes more a character of a line takes escaped.
fn line_growth(c: char) -> usize {
    match c {
        '\\' | '\n' | '\r' | '\t' => 1,
        c if is_control(c) => {
            if c < '\u{100}' {
                4 - c.len_utf8()
            } else {
                6 - c.len_utf8()
            }
        }
        _ => 0,
    }
}

/// Character by character.
fn line_by_loop(out: &mut String, text: &str) {
    for c in text.chars() {
        if !line_escaped(out, c) {
            out.push(c);
        }
    }
}

/// Run by run: a byte at which no character that is escaped begins needs no more than a test.
fn line_by_runs(out: &mut String, text: &str) {
    let mut start = 0;
    for (place, byte) in text.bytes().enumerate() {
        if byte.is_ascii_control() || matches!(byte, b'\\' | 0xc2 | 0xd8 | 0xe2) {
            let c = text[place..].chars().next().unwrap();
            if byte < 0x80 || is_control(c) {
                out.push_str(&text[start..place]);
                line_escaped(out, c);
                start = place + c.len_utf8();
            }
        }
    }
    out.push_str(&text[start..]);
}

/// Character by character.
#[inline(always)]
fn by_loop(out: &mut String, text: &str, of: impl Fn(u8) -> Option<&'static str>) {
    for c in text.chars() {
        match u8::try_from(c).ok().and_then(&of) {
            Some(escaped) => out.push_str(escaped),
            None => out.push(c),
        }
    }
}

/// Run by run.
#[inline(always)]
fn by_runs(out: &mut String, text: &str, of: impl Fn(u8) -> Option<&'static str>) {
    let mut start = 0;
    for (place, byte) in text.bytes().enumerate() {
        if let Some(escaped) = of(byte) {
            out.push_str(&text[start..place]);
            out.push_str(escaped);
            start = place + 1;
        }
    }
    out.push_str(&text[start..]);
}

/// Run by run, into a new text of the length that was counted first.
#[inline(always)]
fn by_passes(out: &mut String, text: &str, of: impl Fn(u8) -> Option<&'static str>) {
    let growth: usize = text
        .bytes()
        .filter_map(&of)
        .map(|escaped| escaped.len() - 1)
        .sum();
    if growth == 0 {
        out.push_str(text);
        return;
    }
    let mut made = String::with_capacity(text.len() + growth);
    by_runs(&mut made, text, of);
    out.push_str(&made);
}

/// As `by_passes`, of a line.
fn line_by_passes(out: &mut String, text: &str) {
    let growth: usize = text.chars().map(line_growth).sum();
    if growth == 0 {
        out.push_str(text);
        return;
    }
    let mut made = String::with_capacity(text.len() + growth);
    line_by_runs(&mut made, text);
    out.push_str(&made);
}

#[inline(never)]
fn loops(out: &mut String, escape: &Escape, text: &str) {
    match escape.name {
        "html" => by_loop(out, text, |byte| (ESCAPES[0].of)(byte)),
        "csv" => by_loop(out, text, |byte| (ESCAPES[1].of)(byte)),
        "json" => by_loop(out, text, |byte| (ESCAPES[2].of)(byte)),
        "shell" => by_loop(out, text, |byte| (ESCAPES[3].of)(byte)),
        _ => line_by_loop(out, text),
    }
}

#[inline(never)]
fn runs(out: &mut String, escape: &Escape, text: &str) {
    match escape.name {
        "html" => by_runs(out, text, |byte| (ESCAPES[0].of)(byte)),
        "csv" => by_runs(out, text, |byte| (ESCAPES[1].of)(byte)),
        "json" => by_runs(out, text, |byte| (ESCAPES[2].of)(byte)),
        "shell" => by_runs(out, text, |byte| (ESCAPES[3].of)(byte)),
        _ => line_by_runs(out, text),
    }
}

#[inline(never)]
fn passes(out: &mut String, escape: &Escape, text: &str) {
    match escape.name {
        "html" => by_passes(out, text, |byte| (ESCAPES[0].of)(byte)),
        "csv" => by_passes(out, text, |byte| (ESCAPES[1].of)(byte)),
        "json" => by_passes(out, text, |byte| (ESCAPES[2].of)(byte)),
        "shell" => by_passes(out, text, |byte| (ESCAPES[3].of)(byte)),
        _ => line_by_passes(out, text),
    }
}

fn make(out: &mut String, way: &str, escape: &Escape, text: &str) {
    out.clear();
    out.push_str(escape.around.0);
    match way {
        "loop" => loops(out, escape, text),
        "runs" => runs(out, escape, text),
        _ => passes(out, escape, text),
    }
    out.push_str(escape.around.1);
}

fn main() {
    let words: Vec<String> = std::env::args().skip(1).collect();
    for way in ["loop", "runs", "passes"] {
        for escape in &ESCAPES {
            for (kind, piece) in [("plain", PLAIN), ("prose", escape.prose)] {
                let name = format!("{way}-{}-{kind}-1k", escape.name);
                let [workload, count] = &words[..] else {
                    println!("{name}");
                    continue;
                };
                if *workload != name {
                    continue;
                }
                let text = piece.repeat(1024_usize.div_ceil(piece.len()));
                let mut out = String::new();
                for _ in 0..count.parse::<u32>().expect("COUNT is a number") {
                    make(&mut out, way, escape, black_box(&text));
                    black_box(&out);
                }
                let sum = out.bytes().fold(0xcbf2_9ce4_8422_2325_u64, |sum, byte| {
                    (sum ^ u64::from(byte)).wrapping_mul(0x100_0000_01b3)
                });
                println!("{name}: {} bytes, checksum {sum:016x}", out.len());
            }
        }
    }
}
