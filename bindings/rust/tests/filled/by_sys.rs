//! The functions of `sys.rs`.
use std::collections::BTreeSet;

use crate::sys::{self, code, kind, Answer, Bytes, Field, Lent, Request, Source};
use crate::Log;

/// Codes that have no name in `sys.rs`, which needs none.
const NOT_UTF8: u32 = 7;
const LISTS: u32 = 8;
const TABLE: u32 = 10;
const NO_ESCAPE: u32 = 12;

/// The codes that each function has to return at some time: all that the header has for it, but
/// NOT_UTF8 only for the name or the text of a source, since what else is lent is a `str`.
/// `arguments` hands on no code: arguments are noted as OK here, and none as NO_MEMORY.
pub fn codes() -> BTreeSet<(&'static str, u32)> {
    const CODES: [(&str, &[u32]); 10] = [
        ("format", &[0, 1, 2, 3, 4, 5, 6, LISTS]),
        (
            "escaped",
            &[0, 1, 2, 3, 4, 5, 6, LISTS, code::MISPLACED, NO_ESCAPE],
        ),
        ("write", &[0, 1, 2, 3, 4, 5, 6, LISTS, code::FULL]),
        ("check", &[0, 1, 2, 3, 4, 5, 6, LISTS]),
        ("check_alone", &[0, 3, 5, 6]),
        ("faults", &[0, 6, LISTS]),
        ("explain", &[0, 1, 2, 3, 4, 5, 6, NOT_UTF8, LISTS]),
        ("rows", &[0, 1, 2, 3, 4, 5, 6, LISTS, TABLE]),
        ("cost", &[0, 6]),
        ("arguments", &[0, 6]),
    ];
    let each = CODES.iter();
    each.flat_map(|(call, codes)| codes.iter().map(|code| (*call, *code)))
        .collect()
}

/// Formats with each code of a fault, and each way to be broken.
const FORMATS: [&str; 20] = [
    "",
    "no argument {{}}",
    "{name}: {list:i({})(, )} {list} {lent:.1} é",
    "{list:>9i({})(, )}{number:#06x}",
    "{name}{name:x}",
    "{name}{lent:.2}",
    "{list:i({})}{failing}",
    "{name",
    "{name:y}",
    "{list:i###a",
    "{number:18446744073709551616}",
    "{number:5-3}",
    "{number:.}",
    "{number:{<5}",
    "{list:+i}",
    "{list:i-}",
    "{list:i9223372036854775808}",
    "{list:i-9223372036854775809}",
    "{name} {nobody} {nobody}{nobody}",
    "{name}{name:p}",
];

/// Calls a function for a format, with a room for so many bytes or places if it takes one.
type Function = fn(&mut Log, &Values, &str, usize);

/// The functions, with rooms for nothing, for little and for all.
const FUNCTIONS: [(&str, Function, &[usize]); 10] = [
    ("format", format, &[0, 21, 500]),
    ("escaped", escaped, &[0, 21, 500]),
    ("write", write, &[0, 21, 500]),
    ("check", check, &[0]),
    ("check_alone", check_alone, &[0]),
    ("faults", faults, &[0, 1, 9]),
    ("explain", explain, &[0, 21, 500]),
    ("rows", rows, &[0, 21, 500]),
    ("cost", cost, &[0]),
    ("arguments", arguments, &[0]),
];

/// Calls each function with each format, and with what no format brings up.
pub fn call_all(log: &mut Log) {
    for (name, function, rooms) in FUNCTIONS {
        for room in rooms {
            for format in FORMATS {
                let name = format!("sys::{name} of {format} in {room}");
                let values = Values::new();
                log.with_each_refused(&name, |log| function(log, &values, format, *room));
            }
            let name = format!("sys::{name} with a list that goes on behind the last item");
            let values = Values::astray();
            log.with_each_refused(&name, |log| function(log, &values, "{name}", *room));
        }
    }
    log.with_each_refused("sys::explain in other sources", explain_other_sources);
    log.with_each_refused("sys::rows of other columns and cells", other_rows);
}

/// The fields that the formats name, and the items of their lists.
struct Values {
    fields: Vec<Field<'static>>,
    items: Vec<Field<'static>>,
}

/// Texts that are lent: for a value with a precision, and for a list that is wanted as a value.
const LENT: [Lent<'static>; 2] = [
    Lent {
        request: Request {
            given: sys::PRECISION,
            precision: 1,
            ..Request::PLAIN
        },
        text: Bytes::of(b"0.5"),
    },
    Lent {
        request: Request::PLAIN,
        text: Bytes::of(b"[a, -1]"),
    },
];

const FAILING: Field<'static> = natural(kind::CHARACTER, 0xD800);

const fn natural(kind: u32, number: u64) -> Field<'static> {
    let mut field = Field::EMPTY;
    field.put_natural(kind, number);
    field
}

const fn signed(kind: u32, number: i64) -> Field<'static> {
    let mut field = Field::EMPTY;
    field.put_signed(kind, number);
    field
}

const fn text(text: &str) -> Field<'_> {
    let mut field = Field::EMPTY;
    field.put_text(text);
    field
}

impl Values {
    fn new() -> Self {
        let mut fields = vec![
            text("Ann").named("name"),
            natural(kind::UNSIGNED, 255).named("number"),
            FAILING.named("failing"),
            Field::lending((0, 1)).named("lent"),
            Field::list(0, 2, (1, 2)).named("list"),
        ];
        fields.iter_mut().for_each(|field| field.settle(&LENT));
        let items = vec![text("a"), signed(kind::SIGNED8, -1)];
        Values { fields, items }
    }

    /// With a list that goes on behind the last item.
    fn astray() -> Self {
        let mut values = Values::new();
        values
            .fields
            .push(Field::list(0, 9, (0, 0)).named("astray"));
        values
    }

    /// The fields as the columns of a table, where lists have no items and each value has a text.
    fn columns(&self) -> Vec<Field<'static>> {
        let mut columns = self.fields.clone();
        columns[2] = natural(kind::CHARACTER, 97).named("failing");
        columns[4] = Field::list(0, 0, (1, 2)).named("list");
        columns[4].settle(&LENT);
        columns
    }
}

impl Log {
    fn code(&mut self, call: &'static str, code: u32) {
        self.codes.insert((call, code));
        self.text += &format!("; {call} {code}");
    }

    fn number(&mut self, name: &str, number: usize) {
        self.text += &format!(" {name} {number}");
    }

    fn room(&mut self, room: &str) {
        self.text += &format!(" {room:?}");
    }

    /// Notes the fields of an answer that say something by its code in each call.
    fn answer(&mut self, call: &'static str, answer: &Answer) {
        self.code(call, answer.code);
        if matches!(
            answer.code,
            code::MISSING_TRAIT | code::PARSE | code::MISPLACED
        ) {
            self.number("detail", answer.detail as usize);
        }
        if matches!(
            answer.code,
            code::MISSING_TRAIT..=code::UNSUPPORTED | code::FULL | code::MISPLACED
        ) {
            self.number("place", answer.place);
        }
        if answer.code != code::OK {
            self.number("message", answer.message);
        }
    }
}

/// Calls twice with a room, so that it has at first nothing, and then what is in it.
fn twice(room: usize, mut call: impl FnMut(usize, &mut String)) {
    let mut room = String::with_capacity(room);
    call(0, &mut room);
    call(1, &mut room);
}

fn format(log: &mut Log, values: &Values, format: &str, room: usize) {
    twice(room, |_, room| {
        let answer = sys::format(format, &values.fields, &values.items, room);
        log.answer("format", &answer);
        if answer.code == code::OK {
            log.number("length", answer.length);
        }
        log.room(room);
    });
}

/// For a page, in its text and in a tag without quotes; and by a number that is no escape's.
fn escaped(log: &mut Log, values: &Values, format: &str, room: usize) {
    let in_tag = format!("<p id={format}>");
    for (escape, format) in [(2, format), (2, &in_tag), (6, format)] {
        twice(room, |_, room| {
            let answer = sys::escaped(escape, format, &values.fields, &values.items, room);
            log.answer("escaped", &answer);
            if answer.code == code::OK {
                log.number("length", answer.length);
            }
            log.room(room);
        });
    }
}

fn write(log: &mut Log, values: &Values, format: &str, room: usize) {
    twice(room, |_, room| {
        let answer = sys::write(format, &values.fields, &values.items, room);
        log.answer("write", &answer);
        log.number("length", answer.length);
        log.room(room);
    });
}

fn check(log: &mut Log, values: &Values, format: &str, _: usize) {
    let answer = sys::check(format, &values.fields, &values.items);
    log.answer("check", &answer);
}

fn check_alone(log: &mut Log, _: &Values, format: &str, _: usize) {
    log.answer("check_alone", &sys::check_alone(format));
}

fn faults(log: &mut Log, values: &Values, format: &str, places: usize) {
    let mut faults = Vec::with_capacity(places);
    let answer = sys::faults(format, &values.fields, &values.items, &mut faults);
    log.code("faults", answer.code);
    log.number("length", answer.length);
    for fault in faults {
        log.number("code", fault.code as usize);
        log.number("detail", fault.detail as usize);
        log.number("place", fault.place);
    }
}

fn explain(log: &mut Log, values: &Values, format: &str, room: usize) {
    let source = Source {
        name: Bytes::of(b"a file"),
        text: Bytes::of(format.as_bytes()),
        first_line: 1,
        start: 0,
    };
    explain_in(log, &source, values, format, room);
}

/// The first and the second fault.
fn explain_in(log: &mut Log, source: &Source<'_>, values: &Values, format: &str, room: usize) {
    twice(room, |which, room| {
        let answer = sys::explain(source, format, &values.fields, &values.items, which, room);
        log.answer("explain", &answer);
        log.room(room);
    });
}

/// A line of a file, and a name and a text that are not UTF-8.
fn explain_other_sources(log: &mut Log) {
    let (failed, text) = (Bytes::of(sys::FAILED), Bytes::of(b"two\nline = {nobody}\n"));
    for (name, text) in [(text, text), (failed, text), (text, failed)] {
        let source = Source {
            name,
            text,
            first_line: 7,
            start: 11,
        };
        explain_in(log, &source, &Values::new(), "{nobody}", 500);
    }
}

/// Three rows, of which the last has a value that fails.
fn rows(log: &mut Log, values: &Values, format: &str, room: usize) {
    let columns = values.columns();
    let mut cells = [&columns[..], &columns[..], &columns[..]].concat();
    cells[2 * columns.len() + 2] = FAILING;
    rows_of(log, (&columns, &cells), 3, format, room);
}

fn rows_of(log: &mut Log, table: (&[Field], &[Field]), count: usize, format: &str, room: usize) {
    let (columns, cells) = table;
    let mut ends = vec![0; count];
    twice(room, |_, room| {
        let answer = sys::rows(format, columns, cells, &mut ends, room);
        log.answer("rows", &answer);
        let ended = if answer.code == code::OK {
            log.number("length", answer.length);
            count
        } else {
            log.number("row", answer.row);
            answer.row
        };
        ends[..ended].iter().for_each(|end| log.number("end", *end));
        log.room(room);
    });
}

/// A table without rows, one with a cell too few, and one with a list that has items.
fn other_rows(log: &mut Log) {
    let mut columns = Values::new().columns();
    let cells = columns.clone();
    rows_of(log, (&columns, &[]), 0, "{name}", 500);
    rows_of(log, (&columns, &cells[1..]), 1, "{name}", 500);
    columns.push(Field::list(0, 1, (0, 0)));
    rows_of(log, (&columns, &columns), 1, "{name}", 500);
}

fn cost(log: &mut Log, _: &Values, format: &str, _: usize) {
    let answer = sys::cost(format, 9, 3);
    log.code("cost", answer.code);
    if answer.code == code::OK {
        log.number("characters", answer.characters);
        log.number("pieces", answer.pieces);
        log.number("buffered", answer.buffered);
    }
}

fn arguments(log: &mut Log, _: &Values, format: &str, _: usize) {
    let Some(arguments) = sys::arguments(format) else {
        log.code("arguments", code::NO_MEMORY);
        return;
    };
    log.code("arguments", code::OK);
    for argument in arguments {
        log.number("name", argument.name_first);
        log.number("to", argument.name_end);
        log.text += &format!(" {:?}", argument.request);
        log.number("item", argument.item_first);
        log.number("to", argument.item_end);
        log.number("join", argument.join_first);
        log.number("to", argument.join_end);
    }
}
