//! Reads the rows of the conformance suite, as far as a Rust program runs them.
use interpolator::{Error, ParseError, Trait};
use std::collections::HashMap;
use std::fmt;
use std::fs;
use std::num::ParseIntError;
use std::path::Path;

/// What a slot shows; numbers by their bits.
#[derive(Clone, Debug)]
pub enum View {
    Signed(u32, i128),
    Unsigned(u32, u128),
    Truth(bool),
    /// A decimal, which is no value of this crate.
    Decimal,
    Character(char),
    Text(String),
    Plain(String),
    NotImplemented,
    Failed,
}

/// What is under a name, or an item of a list.
#[derive(Clone, Debug, Default)]
pub struct Slots {
    pub views: Vec<(Vec<String>, View)>,
    pub list: Option<Vec<Slots>>,
}

/// A fact of a row. `NoMemory` is no fault here.
#[derive(Clone, Debug)]
pub enum Fact {
    Text(String),
    Fault(Option<Error>),
    Other,
}

pub struct Row {
    pub name: String,
    pub context: HashMap<String, Slots>,
    pub facts: Vec<(String, Fact)>,
}

impl Slots {
    fn any(&self, is: &impl Fn(&Slots) -> bool) -> bool {
        is(self) || self.list.iter().flatten().any(|item| item.any(is))
    }

    pub fn is_list_and_value(&self) -> bool {
        self.any(&|slots| slots.list.is_some() && !slots.views.is_empty())
    }

    pub fn is_decimal(&self) -> bool {
        self.any(&|slots| {
            slots
                .views
                .iter()
                .any(|(_, view)| matches!(view, View::Decimal))
        })
    }

    pub fn is_past_ascii(&self) -> bool {
        self.any(&|slots| {
            slots.views.iter().any(|(_, view)| match view {
                View::Text(text) => !text.is_ascii(),
                View::Character(character) => !character.is_ascii(),
                _ => false,
            })
        })
    }
}

impl Row {
    pub fn fact(&self, key: &str) -> Option<&Fact> {
        self.facts
            .iter()
            .find(|(name, _)| name == key)
            .map(|(_, fact)| fact)
    }

    pub fn text(&self, key: &str) -> Option<String> {
        match self.fact(key) {
            Some(Fact::Text(text)) => Some(text.clone()),
            _ => None,
        }
    }

    pub fn fault(&self, key: &str) -> Option<Option<Error>> {
        match self.fact(key) {
            Some(Fact::Fault(fault)) => Some(fault.clone()),
            _ => None,
        }
    }
}

/// The rows of all files, but for those with a decimal under a name.
pub fn rows() -> Vec<Row> {
    let folder =
        Path::new(env!("CARGO_MANIFEST_DIR")).join("../../crates/interpolator_vectors/data");
    let files =
        fs::read_dir(&folder).unwrap_or_else(|error| panic!("{}: {error}", folder.display()));
    let mut files: Vec<_> = files.map(|file| file.unwrap().path()).collect();
    files.sort();
    let texts = files.iter().map(|file| fs::read_to_string(file).unwrap());
    let rows = texts.flat_map(|text| rows_of(&text));
    rows.filter(|row| !row.context.values().any(Slots::is_decimal))
        .collect()
}

fn rows_of(file: &str) -> Vec<Row> {
    let mut context: HashMap<String, Slots> = HashMap::new();
    let mut rows: Vec<Row> = Vec::new();
    let mut is_context = false;
    for line in file.lines().filter(|line| !line.trim().is_empty()) {
        if line.trim_start().starts_with('#') {
            continue;
        }
        let mut words = Words::of(line);
        if line.starts_with(' ') {
            match rows.last_mut() {
                Some(row) if !is_context => row.facts.push(words.fact()),
                _ => words.add_to(&mut context),
            }
        } else if words.plain() == "context" {
            is_context = true;
            context.clear();
        } else {
            is_context = false;
            let name = if words.is_empty() {
                String::new()
            } else {
                words.text()
            };
            rows.push(Row {
                name,
                context: context.clone(),
                facts: Vec::new(),
            });
        }
    }
    rows
}

#[derive(Clone, Debug, PartialEq)]
enum Word {
    Text(String),
    Plain(String),
    Open,
    Close,
}

/// The words of a line, the next one last.
struct Words(Vec<Word>);

impl Words {
    fn of(line: &str) -> Self {
        let mut words = Vec::new();
        let mut rest = line.trim();
        while let Some(first) = rest.chars().next() {
            let (word, end) = match first {
                '(' => (Word::Open, 1),
                ')' => (Word::Close, 1),
                '"' => {
                    let (text, end) = quoted(rest);
                    (Word::Text(text), end)
                }
                _ => {
                    let end = rest.find([' ', '(', ')', '"']).unwrap_or(rest.len());
                    (Word::Plain(rest[..end].to_string()), end)
                }
            };
            words.push(word);
            rest = rest[end..].trim_start();
        }
        words.reverse();
        Words(words)
    }

    fn is_empty(&self) -> bool {
        self.0.is_empty()
    }

    fn take(&mut self, word: &Word) -> bool {
        let is_next = self.0.last() == Some(word);
        if is_next {
            self.0.pop();
        }
        is_next
    }

    fn take_plain(&mut self, word: &str) -> bool {
        self.take(&Word::Plain(word.to_string()))
    }

    fn plain(&mut self) -> String {
        match self.0.pop() {
            Some(Word::Plain(word)) => word,
            word => panic!("a word is wanted, not {word:?}"),
        }
    }

    fn number<T: std::str::FromStr>(&mut self) -> T {
        let word = self.plain();
        word.parse()
            .unwrap_or_else(|_| panic!("a number is wanted, not {word}"))
    }

    /// Texts that are joined, some of them repeated.
    fn text(&mut self) -> String {
        let mut text = String::new();
        loop {
            match self.0.pop() {
                Some(Word::Text(part)) if self.take_plain("*") => {
                    text.push_str(&part.repeat(self.number()));
                }
                Some(Word::Text(part)) => text.push_str(&part),
                word => panic!("a text is wanted, not {word:?}"),
            }
            if !self.take_plain("+") {
                return text;
            }
        }
    }

    fn add_to(&mut self, context: &mut HashMap<String, Slots>) {
        let name = match self.0.last() {
            Some(Word::Text(_)) => self.text(),
            _ => self.plain(),
        };
        let slots = context.entry(name).or_default();
        self.add_slots(slots);
    }

    /// Slots up to the end of the line, or to a parenthesis that closes them.
    fn add_slots(&mut self, slots: &mut Slots) {
        while !self.is_empty() && self.0.last() != Some(&Word::Close) {
            if self.take_plain("list") {
                slots.list = Some(self.items());
            } else {
                let names = self.plain().split(',').map(str::to_string).collect();
                slots.views.push((names, self.view()));
            }
        }
    }

    fn items(&mut self) -> Vec<Slots> {
        let mut items = Vec::new();
        while self.take(&Word::Open) {
            let mut item = Slots::default();
            self.add_slots(&mut item);
            assert!(self.take(&Word::Close));
            items.push(item);
        }
        items
    }

    fn view(&mut self) -> View {
        let kind = self.plain();
        match kind.as_str() {
            "truth" => View::Truth(self.plain() == "true"),
            "decimal" => {
                self.number::<i128>();
                self.number::<u32>();
                View::Decimal
            }
            "character" => View::Character(self.text().chars().next().unwrap()),
            "text" => View::Text(self.text()),
            "plain" => View::Plain(self.text()),
            "not_implemented" => View::NotImplemented,
            "failed" => View::Failed,
            kind => match kind.split_at(1) {
                ("i", bits) => View::Signed(bits.parse().unwrap(), self.number()),
                (_, bits) => View::Unsigned(bits.parse().unwrap(), self.number()),
            },
        }
    }

    fn fact(&mut self) -> (String, Fact) {
        let key = self.plain();
        let fact = match key.as_str() {
            "format" | "text" => Fact::Text(self.text()),
            "fault" | "sample" | "prints" => self.fault(),
            _ => Fact::Other,
        };
        (key, fact)
    }

    /// A fault, also one of parsing by itself; other facts where it is none.
    fn fault(&mut self) -> Fact {
        let name = self.plain();
        Fact::Fault(match name.as_str() {
            "ok" | "NoMemory" => None,
            "MissingValue" => Some(Error::MissingValue(self.text(), self.number())),
            "MissingTraitImpl" => Some(Error::MissingTraitImpl(
                trait_of(&self.plain()),
                self.number(),
            )),
            "Fmt" => Some(Error::Fmt(fmt::Error, self.number())),
            "UnsupportedOption" => {
                assert_eq!(
                    (self.text().as_str(), self.text().as_str()),
                    ("p", "pointer")
                );
                Some(Error::UnsupportedOption("p", "pointer", self.number()))
            }
            "Parse" => {
                let name = self.plain();
                Some(Error::Parse(self.parse_error(&name).unwrap()))
            }
            name => match self.parse_error(name) {
                Some(error) => Some(Error::Parse(error)),
                None => return Fact::Other,
            },
        })
    }

    fn parse_error(&mut self, name: &str) -> Option<ParseError> {
        Some(match name {
            "FormatSpecUnclosed" => ParseError::FormatSpecUnclosed(self.number()),
            "Expected" => match self.text().as_str() {
                "}" => ParseError::Expected("}", self.number()),
                _ => ParseError::Expected("(", self.number()),
            },
            "Fill" => ParseError::Fill(self.number()),
            "Iter" => ParseError::Iter(self.number()),
            "InvalidWidth" => ParseError::InvalidWidth(number_error(&self.plain()), self.number()),
            "InvalidPrecision" => {
                ParseError::InvalidPrecision(number_error(&self.plain()), self.number())
            }
            "RangeBound" => ParseError::RangeBound(number_error(&self.plain()), self.number()),
            _ => return None,
        })
    }
}

fn number_error(name: &str) -> ParseIntError {
    let example = match name {
        "Empty" => "",
        "InvalidDigit" => "x",
        "PosOverflow" => "256",
        _ => "-256",
    };
    example.parse::<i8>().unwrap_err()
}

fn trait_of(name: &str) -> Trait {
    match name {
        "display" => Trait::Display,
        "debug" => Trait::Debug,
        "binary" => Trait::Binary,
        "lower_exp" => Trait::LowerExp,
        "lower_hex" => Trait::LowerHex,
        "octal" => Trait::Octal,
        "upper_exp" => Trait::UpperExp,
        "upper_hex" => Trait::UpperHex,
        _ => Trait::Iter,
    }
}

/// A text in quotes at the front, and where it ends.
fn quoted(line: &str) -> (String, usize) {
    let mut text = String::new();
    let mut characters = line.char_indices().skip(1);
    while let Some((at, character)) = characters.next() {
        match character {
            '"' => return (text, at + 1),
            '\\' => match characters.next() {
                Some((_, 'n')) => text.push('\n'),
                Some((_, 'r')) => text.push('\r'),
                Some((_, 't')) => text.push('\t'),
                Some((_, '0')) => text.push('\0'),
                Some((at, 'u')) => {
                    let end = at + line[at..].find('}').unwrap();
                    let code = u32::from_str_radix(&line[at + 2..end], 16).unwrap();
                    text.push(char::from_u32(code).unwrap());
                    let digits = end - at;
                    characters.nth(digits - 1);
                }
                Some((_, escaped)) => text.push(escaped),
                None => break,
            },
            _ => text.push(character),
        }
    }
    panic!("a text that does not end: {line}")
}
