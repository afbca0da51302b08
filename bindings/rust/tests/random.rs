//! Formats that are put together at random: values that the library writes, and the same values in a
//! type of its own, which std writes, give the same text and the same fault.
mod common;

use common::Own;
use interpolator::{check, format, write, Formattable};
use std::collections::HashMap;

/// Parts of formats, each as likely.
const PARTS: [&str; 44] = [
    "{", "}", "{n", "{t", "{l:i", "{n:", "{t:", ":", "{{", "}}", "(", ")", "#", "#(", ")#", "({}",
    "({:", "0", "1", "7", "12", "-", "+", ".", "..", "..=", "<", "^", ">", "*<", "é>", "x", "X",
    "b", "o", "e", "E", "?", "x?", "i", "p", "é", " ", "{c}",
];

/// Numbers that look random, the same in each run.
struct Numbers(u64);

impl Numbers {
    fn below(&mut self, bound: usize) -> usize {
        self.0 = self
            .0
            .wrapping_mul(6364136223846793005)
            .wrapping_add(1442695040888963407);
        (self.0 >> 33) as usize % bound
    }

    fn format(&mut self) -> String {
        let count = 1 + self.below(9);
        (0..count).map(|_| PARTS[self.below(PARTS.len())]).collect()
    }
}

/// Whether a width or precision may be past what std takes.
fn is_wide(format_text: &str) -> bool {
    let is_digit = |character: char| character.is_ascii_digit();
    format_text
        .split(|character| !is_digit(character))
        .any(|digits| digits.len() > 4)
}

#[test]
fn both_ways_give_the_same() {
    let numbers = [Own(12), Own(-5)];
    let known = [
        Formattable::integer(&numbers[0].0),
        Formattable::integer(&numbers[1].0),
    ];
    let own = [
        Formattable::integer(&numbers[0]),
        Formattable::integer(&numbers[1]),
    ];
    let (text, character) = (Own("a\"b"), Own('c'));
    let known = HashMap::from([
        ("n", known[0]),
        ("t", Formattable::debug_display(&text.0)),
        ("c", Formattable::debug_display(&character.0)),
        ("l", Formattable::iter(&known)),
    ]);
    let own = HashMap::from([
        ("n", own[0]),
        ("t", Formattable::debug_display(&text)),
        ("c", Formattable::debug_display(&character)),
        ("l", Formattable::iter(&own)),
    ]);
    let mut random = Numbers(1);
    let mut texts = 0;
    for _ in 0..20_000 {
        let format_text = random.format();
        if is_wide(&format_text) {
            continue;
        }
        let (mut by_library, mut by_std) = (String::new(), String::new());
        let result = write(&mut by_library, &format_text, &known);
        assert_eq!(
            write(&mut by_std, &format_text, &own),
            result,
            "{format_text:?}"
        );
        assert_eq!(by_std, by_library, "{format_text:?}");
        assert_eq!(
            check(&format_text, &known),
            check(&format_text, &own),
            "{format_text:?}"
        );
        if check(&format_text, &known).is_ok() {
            assert_eq!(
                format(&format_text, &known),
                Ok(by_library),
                "{format_text:?}"
            );
            texts += 1;
        }
    }
    assert!(texts > 2_000, "{texts} formats have no fault");
}
