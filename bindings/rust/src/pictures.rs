//! Faults as a compiler shows them.
//!
//! The library shows the fault of a number, and finds all of them each time. Many faults are shown by
//! pieces of the format instead, each of them one argument with what follows it, and by the lines that a
//! piece is in. Whether the pieces have the same faults as the format is looked at: if not, each is
//! shown by its number.
use crate::error::{self, Error};
use crate::laid;
use crate::row::Row;
use crate::sys::{self, code, Answer, Argument, Bytes, Fault, Field};
use crate::{found, Context, Source};

/// Up to so many faults are shown by their numbers.
const FEW: usize = 8;

/// The pictures of so many faults at most.
pub(crate) fn pictures(
    source: &Source<'_>,
    format: &str,
    context: &dyn Context,
    most: usize,
) -> Vec<String> {
    let row = match Row::of(format, context) {
        Ok(row) => row,
        Err(error) => return vec![format!("{}: {error}", source.name)],
    };
    row.lend(format, |fields, items, _| {
        let examples = Examples { fields, items };
        if most > FEW {
            if let Some(pictures) = examples.by_pieces(source, format) {
                return pictures;
            }
        }
        examples.by_numbers(source, format, most)
    })
}

/// A row of examples of a format's values.
struct Examples<'s> {
    fields: &'s [Field<'s>],
    items: &'s [Field<'s>],
}

/// A part of a format, and the lines that it is in.
struct Piece<'p> {
    format: &'p str,
    /// Where it begins in the whole format.
    first: usize,
    source: Source<'p>,
}

impl Examples<'_> {
    /// The fault of that number, and its picture.
    fn picture(&self, source: &Source<'_>, format: &str, which: usize) -> (Answer, String) {
        let from = sys::Source {
            name: Bytes::of(source.name.as_bytes()),
            text: Bytes::of(source.text.as_bytes()),
            first_line: source.first_line,
            start: source.start,
        };
        let mut room = String::with_capacity(laid::room_for(format));
        let mut answer = sys::explain(&from, format, self.fields, self.items, which, &mut room);
        if answer.message > room.capacity() {
            room.reserve_exact(answer.message);
            answer = sys::explain(&from, format, self.fields, self.items, which, &mut room);
        }
        if answer.code == code::UNSUPPORTED {
            error::name_option(&mut room, source.name.len());
        }
        (answer, room)
    }

    /// The pictures of so many faults at most.
    fn by_numbers(&self, source: &Source<'_>, format: &str, most: usize) -> Vec<String> {
        let mut pictures = Vec::new();
        while pictures.len() < most {
            let (answer, picture) = self.picture(source, format, pictures.len());
            match answer.code {
                code::OK => return pictures,
                code::MISSING_TRAIT..=code::UNSUPPORTED => pictures.push(picture),
                // Memory was refused, or lists lie too deep: so it is for each of them.
                _ => {
                    pictures.push(picture);
                    return pictures;
                }
            }
        }
        pictures
    }

    /// The pictures of all faults, by pieces of the format; none if there are few, or if the pieces
    /// have other faults.
    fn by_pieces(&self, source: &Source<'_>, format: &str) -> Option<Vec<String>> {
        let faults = found(format, self.fields, self.items)?;
        if faults.len() <= FEW {
            return None;
        }
        let mut pictures = Vec::with_capacity(faults.len());
        let mut rest = &faults[..];
        for piece in pieces(source, format)? {
            let end = piece.first + piece.format.len();
            let is_here = |fault: &&Fault| fault.place < end || end == format.len();
            let (here, later) = rest.split_at(rest.iter().take_while(is_here).count());
            rest = later;
            for (which, fault) in here.iter().enumerate() {
                let (answer, picture) = self.picture(&piece.source, piece.format, which);
                let told = piece.told_in(source, format, fault, &answer, picture);
                pictures.push(told?);
            }
        }
        rest.is_empty().then_some(pictures)
    }
}

impl Piece<'_> {
    /// The picture of a fault of the whole format, of which this is told of the piece; none if it is
    /// that of another fault.
    fn told_in(
        &self,
        source: &Source<'_>,
        format: &str,
        fault: &Fault,
        answer: &Answer,
        mut picture: String,
    ) -> Option<String> {
        let is_same = (answer.code, answer.detail) == (fault.code, fault.detail)
            && self.first + answer.place == fault.place;
        if !is_same {
            return None;
        }
        let here = sentence(answer.fault(), self.format, self.source.start);
        let behind = source.name.len();
        let at = behind + picture.get(behind..)?.find(&here)?;
        picture.replace_range(at..at + here.len(), &sentence(*fault, format, source.start));
        Some(picture)
    }
}

/// What a picture says of a fault of a format that begins at a byte of its text.
fn sentence(fault: Fault, format: &str, start: usize) -> String {
    let error = Error::of(fault, format);
    match start {
        0 => error.to_string(),
        _ => format!("{error} (byte {} of the format)", fault.place),
    }
}

/// A format by its arguments, each with what follows it; none if it is not where its source says.
fn pieces<'p>(source: &Source<'p>, format: &'p str) -> Option<Vec<Piece<'p>>> {
    let firsts = firsts(format, &sys::arguments(format)?);
    let mut pieces = Vec::with_capacity(firsts.len());
    // Where the line begins in which the last piece does, and the number of that line.
    let (mut line, mut number) = (0, source.first_line);
    for (index, first) in firsts.iter().enumerate() {
        let end = *firsts.get(index + 1).unwrap_or(&format.len());
        let start = source.start.checked_add(*first)?;
        let before = source.text.get(line..start)?;
        number = number.saturating_add(before.matches('\n').count());
        line += before.rfind('\n').map_or(0, |newline| newline + 1);
        let behind = source.text.get(source.start + end..)?;
        // With the newline, before which a carriage return is not shown.
        let lines_end = source.start + end + behind.find('\n').map_or(behind.len(), |at| at + 1);
        pieces.push(Piece {
            format: &format[*first..end],
            first: *first,
            source: Source {
                name: source.name,
                first_line: number,
                text: &source.text[line..lines_end],
                start: start - line,
            },
        });
    }
    Some(pieces)
}

/// Where the pieces of a format begin: at its front, and at each argument that is in no other's group.
fn firsts(format: &str, arguments: &[Argument]) -> Vec<usize> {
    let mut firsts = vec![0];
    let mut end = 0;
    for argument in arguments {
        if argument.name_first < end {
            continue;
        }
        end = argument
            .name_end
            .max(argument.item_end)
            .max(argument.join_end);
        // Between the brace and the name there is at most white space.
        match format[..argument.name_first].rfind('{') {
            Some(first) if first > 0 => firsts.push(first),
            _ => {}
        }
    }
    firsts
}

#[cfg(test)]
mod tests {
    use super::*;
    use crate::Formattable;
    use std::collections::HashMap;

    /// Arguments with and without faults, some of them broken, and what is between.
    const PARTS: [&str; 30] = [
        "{nobody}",
        "{a:x}",
        "{ a :e}",
        "{a}",
        "{l:i({:x}{nobody})(, )}",
        "{l:i#({:i({})}{a:x})#({nobody})}",
        "{l:i({})}",
        "{l}",
        "{b\n}",
        "{\u{202e}c\t:>5}",
        "{a at 7}",
        "{d é: (byte 1 of the format)}",
        "{a:q}",
        "{a:>",
        "{a:99999999999999999999}",
        "{l:+i}",
        "{l:i-}",
        "{a:p}",
        "{l:i({:x)}",
        "{l:i#({a}",
        "{",
        "}",
        "{{",
        "}}",
        "{}",
        "\r\n",
        "é ",
        "(",
        ")",
        "text",
    ];

    /// Calls with examples of a format's values, and with where it is: by itself, and in a file.
    fn shown(format: &str, mut call: impl FnMut(&Examples<'_>, &Source<'_>)) {
        let items = [Formattable::display(&"x")];
        let context = HashMap::from([
            ("a", Formattable::display(&"Ann")),
            ("l", Formattable::iter(&items)),
        ]);
        let file = format!("first line\nkey: {format}\nlast line");
        let row = Row::of(format, &context).expect(format);
        row.lend(format, |fields, items, _| {
            for (text, start) in [(format, 0), (&file, 16)] {
                let source = Source {
                    // A name that is also a sentence.
                    name: "specified value not in context `nobody` at 1",
                    first_line: 3,
                    text,
                    start,
                };
                call(&Examples { fields, items }, &source);
            }
        });
    }

    #[test]
    fn pieces_show_what_the_format_does() {
        let mut state = 88_172_645_463_325_252u64;
        let mut by_pieces = 0;
        for round in 0..300 {
            let mut format = String::new();
            for token in 0..24 {
                state ^= state << 13;
                state ^= state >> 7;
                state ^= state << 17;
                // Three in a format may be broken, which can end all later ones.
                let most = if token % 8 == round % 8 {
                    PARTS.len()
                } else {
                    11
                };
                format += PARTS[(state >> 32) as usize % most];
            }
            shown(&format, |examples, source| {
                if let Some(pictures) = examples.by_pieces(source, &format) {
                    by_pieces += 1;
                    let wanted = examples.by_numbers(source, &format, usize::MAX);
                    assert_eq!(pictures, wanted, "{format}");
                }
            });
        }
        assert!(by_pieces > 200, "{by_pieces}");
    }

    #[test]
    fn many_faults_are_shown_by_pieces() {
        for parts in [
            "{nobody} {a}\n{a:x}{l:i({nobody})}",
            "{nobody} {a}{a:x}{l:i({nobody})}",
        ] {
            let format = parts.repeat(700);
            shown(&format, |examples, source| {
                let pictures = examples.by_pieces(source, &format);
                let pictures = pictures.expect("the pieces have the faults");
                assert_eq!(pictures.len(), 2100);
                for which in [0, 1, 2, 1999, 2099] {
                    let wanted = examples.picture(source, &format, which).1;
                    assert_eq!(pictures[which], wanted);
                }
            });
        }
    }

    #[test]
    fn a_format_that_is_not_where_its_source_says() {
        let format = "{nobody}".repeat(20);
        shown(&format, |examples, source| {
            let astray = Source {
                start: 1000,
                ..*source
            };
            assert_eq!(examples.by_pieces(&astray, &format), None);
            assert_eq!(examples.by_numbers(&astray, &format, usize::MAX).len(), 20);
        });
    }
}
