//! The structs and calls of `bindings/c/interpolator.h`, and safe functions over the calls.
//!
//! A struct here borrows what it points to, and is made only from slices: so each pointer and length
//! that a call gets are those of one slice that lives until the call returns.
//!
//! What a call wrote is read by what the header says of its answer. Its part "Answers" is what the
//! contracts of `crates/interpolator_c` say for every code: `Reported`, by which a text or a sentence lies
//! in a room if it fits; `Put`, by which what `interpolator_write` counts fits; and `FillsFront`, by
//! which an array begins with as many as it has places for. They are named where it is read. That
//! nothing else is relied on is tested by `tests/filled`.
use std::marker::PhantomData;
use std::ptr;

/// Bytes that are lent to a call.
#[repr(C)]
#[derive(Clone, Copy)]
pub(crate) struct Bytes<'a> {
    at: *const u8,
    length: usize,
    lent: PhantomData<&'a [u8]>,
}

impl<'a> Bytes<'a> {
    pub(crate) const fn of(bytes: &'a [u8]) -> Self {
        Bytes {
            at: bytes.as_ptr(),
            length: bytes.len(),
            lent: PhantomData,
        }
    }
}

/// A request without a fill.
pub(crate) const NO_FILL: u32 = u32::MAX;

/// The bit of `given` for a width.
pub(crate) const WIDTH: u32 = 1;

/// The bit of `given` for a precision.
pub(crate) const PRECISION: u32 = 2;

/// Bytes that are no UTF-8, for which the library returns the fault of a value that fails.
pub(crate) const FAILED: &[u8] = b"\xff";

/// The trait of a list in a request.
pub(crate) const ITER: u32 = 8;

/// How an argument wants its value written.
#[repr(C)]
#[derive(Clone, Copy, PartialEq, Eq, Debug)]
pub(crate) struct Request {
    pub(crate) slot: u32,
    pub(crate) fill: u32,
    pub(crate) alignment: u32,
    pub(crate) sign: u32,
    pub(crate) alternate: u32,
    pub(crate) zero: u32,
    pub(crate) hex_debug: u32,
    pub(crate) given: u32,
    pub(crate) width: usize,
    pub(crate) precision: usize,
}

impl Request {
    /// That of `{x}`.
    pub(crate) const PLAIN: Request = Request {
        slot: 0,
        fill: NO_FILL,
        alignment: 0,
        sign: 0,
        alternate: 0,
        zero: 0,
        hex_debug: 0,
        given: 0,
        width: 0,
        precision: 0,
    };

    /// Whether it has a trait alone.
    pub(crate) fn is_plain(&self) -> bool {
        *self
            == Request {
                slot: self.slot,
                ..Request::PLAIN
            }
    }
}

/// A text that was made for a request.
#[repr(C)]
#[derive(Clone, Copy)]
pub(crate) struct Lent<'a> {
    pub(crate) request: Request,
    pub(crate) text: Bytes<'a>,
}

/// The kinds of a field.
pub(crate) mod kind {
    pub(crate) const TEXT: u32 = 0;
    pub(crate) const TRUTH: u32 = 2;
    pub(crate) const CHARACTER: u32 = 3;
    pub(crate) const UNSIGNED: u32 = 4;
    pub(crate) const UNSIGNED128: u32 = 5;
    pub(crate) const SIGNED8: u32 = 6;
    pub(crate) const SIGNED16: u32 = 7;
    pub(crate) const SIGNED32: u32 = 8;
    pub(crate) const SIGNED64: u32 = 9;
    pub(crate) const SIGNED128: u32 = 10;
    pub(crate) const LIST: u32 = 11;
    pub(crate) const LENT: u32 = 12;
    pub(crate) const DOUBLE: u32 = 13;
    pub(crate) const FLOAT: u32 = 14;
    /// None of the header's: a value without slots.
    pub(crate) const NOTHING: u32 = u32::MAX;
}

/// The slots of the kinds.
mod slots {
    pub(super) const DEBUG_DISPLAY: u32 = 3;
    pub(super) const FLOAT: u32 = 195;
    pub(super) const ALL: u32 = 255;
}

/// A value under a name, or an item of a list.
#[repr(C)]
#[derive(Clone, Copy)]
pub(crate) struct Field<'a> {
    name: Bytes<'a>,
    text: Bytes<'a>,
    lent: *const Lent<'a>,
    lent_count: usize,
    kind: u32,
    slots: u32,
    number: i64,
    natural: u64,
    upper: u64,
    first: usize,
    end: usize,
    real: f64,
    single: f32,
    spare: u32,
    borrows: PhantomData<&'a [Lent<'a>]>,
}

impl<'a> Field<'a> {
    /// A value without slots.
    pub(crate) const NOTHING: Self = Field::of(kind::NOTHING);

    const fn of(kind: u32) -> Self {
        Field {
            name: Bytes::of(&[]),
            text: Bytes::of(&[]),
            lent: ptr::null(),
            lent_count: 0,
            kind,
            slots: 0,
            number: 0,
            natural: 0,
            upper: 0,
            first: 0,
            end: 0,
            real: 0.0,
            single: 0.0,
            spare: 0,
            borrows: PhantomData,
        }
    }

    /// An empty text, to be made another value.
    pub(crate) const EMPTY: Self = Field::of(kind::TEXT);

    /// Makes an empty field this text.
    pub(crate) const fn put_text(&mut self, text: &'a str) {
        self.text = Bytes::of(text.as_bytes());
    }

    /// Makes an empty field what is not negative and has at most 64 bits.
    pub(crate) const fn put_natural(&mut self, kind: u32, natural: u64) {
        self.kind = kind;
        self.natural = natural;
    }

    pub(crate) const fn put_signed(&mut self, kind: u32, number: i64) {
        self.kind = kind;
        self.number = number;
    }

    pub(crate) const fn put_unsigned128(&mut self, number: u128) {
        self.kind = kind::UNSIGNED128;
        self.upper = (number >> 64) as u64;
        self.natural = number as u64;
    }

    pub(crate) const fn put_signed128(&mut self, number: i128) {
        self.kind = kind::SIGNED128;
        self.number = (number >> 64) as i64;
        self.natural = number as u64;
    }

    pub(crate) const fn put_double(&mut self, real: f64) {
        self.kind = kind::DOUBLE;
        self.real = real;
    }

    pub(crate) const fn put_float(&mut self, single: f32) {
        self.kind = kind::FLOAT;
        self.single = single;
    }

    /// The items from `first` up to `end`, and for other slots the texts that [`settle`](Self::settle)
    /// puts in.
    pub(crate) const fn list(first: usize, end: usize, texts: (usize, usize)) -> Self {
        Field {
            first,
            end,
            ..Field::awaiting(kind::LIST, texts)
        }
    }

    /// A value by the texts that [`settle`](Self::settle) puts in: from one up to another.
    pub(crate) const fn lending(texts: (usize, usize)) -> Self {
        Field::awaiting(kind::LENT, texts)
    }

    /// From where to where it is put in stands in members that such a field leaves free.
    const fn awaiting(kind: u32, from_to: (usize, usize)) -> Self {
        Field {
            natural: from_to.0 as u64,
            upper: from_to.1 as u64,
            ..Field::of(kind)
        }
    }

    /// Puts in the texts that were made of the value, which are among these.
    #[inline]
    pub(crate) fn settle(&mut self, lent: &'a [Lent<'a>]) {
        if !matches!(self.kind, kind::LENT | kind::LIST) {
            return;
        }
        let (first, end) = (self.natural as usize, self.upper as usize);
        (self.natural, self.upper) = (0, 0);
        let lent = &lent[first..end];
        (self.lent, self.lent_count) = (lent.as_ptr(), lent.len());
        if self.kind == kind::LIST {
            let masks = lent.iter().map(|lent| 1 << lent.request.slot);
            self.slots = masks.fold(0, |slots, mask: u32| slots | mask);
        }
    }

    /// How many bytes its text has; 0 if it is no text.
    pub(crate) const fn text_bytes(&self) -> usize {
        self.text.length
    }

    /// Gives it these slots, or the mask 0 if they are those of its kind: the library takes such an
    /// item faster.
    #[inline]
    pub(crate) const fn put_slots(&mut self, slots: u32) {
        let own = match self.kind {
            kind::TEXT..=kind::CHARACTER => slots::DEBUG_DISPLAY,
            kind::DOUBLE | kind::FLOAT => slots::FLOAT,
            _ => slots::ALL,
        };
        self.slots = if slots == own { 0 } else { slots };
    }

    /// The same under a name.
    pub(crate) const fn named(self, name: &'a str) -> Self {
        Field {
            name: Bytes::of(name.as_bytes()),
            ..self
        }
    }

    /// The same with these slots.
    pub(crate) const fn with_slots(self, slots: u32) -> Self {
        Field { slots, ..self }
    }
}

/// What a call returned.
pub(crate) mod code {
    pub(crate) const OK: u32 = 0;
    pub(crate) const MISSING_TRAIT: u32 = 1;
    pub(crate) const FMT: u32 = 2;
    pub(crate) const PARSE: u32 = 3;
    pub(crate) const MISSING_VALUE: u32 = 4;
    pub(crate) const UNSUPPORTED: u32 = 5;
    pub(crate) const NO_MEMORY: u32 = 6;
    pub(crate) const FULL: u32 = 9;
    pub(crate) const MISPLACED: u32 = 11;
}

/// How a format is broken: the lower four bits of a fault's detail. Above them is what is wrong with a
/// number.
pub(crate) mod broken {
    pub(crate) const EXPECTED_BRACE: u32 = 2;
    pub(crate) const EXPECTED_BRACKET: u32 = 3;
    pub(crate) const WIDTH: u32 = 4;
    pub(crate) const PRECISION: u32 = 5;
    pub(crate) const FILL: u32 = 6;
    pub(crate) const LIST: u32 = 7;
    pub(crate) const RANGE: u32 = 8;
}

/// What a call returns.
#[repr(C)]
#[derive(Clone, Copy, Debug)]
pub(crate) struct Answer {
    pub(crate) code: u32,
    pub(crate) detail: u32,
    pub(crate) place: usize,
    pub(crate) length: usize,
    pub(crate) message: usize,
    pub(crate) row: usize,
}

/// A fault of a format.
#[repr(C)]
#[derive(Clone, Copy)]
pub(crate) struct Fault {
    pub(crate) code: u32,
    pub(crate) detail: u32,
    pub(crate) place: usize,
}

impl Answer {
    /// The fault that it says.
    pub(crate) fn fault(&self) -> Fault {
        Fault {
            code: self.code,
            detail: self.detail,
            place: self.place,
        }
    }
}

/// Where a format is.
#[repr(C)]
#[derive(Clone, Copy)]
pub(crate) struct Source<'a> {
    pub(crate) name: Bytes<'a>,
    pub(crate) text: Bytes<'a>,
    pub(crate) first_line: usize,
    pub(crate) start: usize,
}

/// What `interpolator_cost` returns.
#[repr(C)]
#[derive(Clone, Copy)]
pub(crate) struct CostAnswer {
    pub(crate) code: u32,
    detail: u32,
    pub(crate) characters: usize,
    pub(crate) pieces: usize,
    pub(crate) buffered: usize,
}

/// An argument of a format.
#[repr(C)]
#[derive(Clone, Copy)]
pub(crate) struct Argument {
    pub(crate) name_first: usize,
    pub(crate) name_end: usize,
    pub(crate) request: Request,
    pub(crate) item_first: usize,
    pub(crate) item_end: usize,
    pub(crate) join_first: usize,
    pub(crate) join_end: usize,
}

impl Argument {
    /// The name that stands in the argument of this format; of an item it is empty.
    pub(crate) fn name<'f>(&self, format: &'f str) -> &'f str {
        &format[self.name_first..self.name_end]
    }
}

mod library {
    use super::{Answer, Argument, CostAnswer, Fault, Field, Source};

    extern "C" {
        pub(super) fn interpolator_format(
            format: *const u8,
            format_length: usize,
            fields: *const Field<'_>,
            field_count: usize,
            items: *const Field<'_>,
            item_count: usize,
            room: *mut u8,
            room_length: usize,
        ) -> Answer;

        pub(super) fn interpolator_escaped(
            escape: u32,
            format: *const u8,
            format_length: usize,
            fields: *const Field<'_>,
            field_count: usize,
            items: *const Field<'_>,
            item_count: usize,
            room: *mut u8,
            room_length: usize,
        ) -> Answer;

        pub(super) fn interpolator_write(
            format: *const u8,
            format_length: usize,
            fields: *const Field<'_>,
            field_count: usize,
            items: *const Field<'_>,
            item_count: usize,
            room: *mut u8,
            room_length: usize,
            sentence: *mut u8,
            sentence_length: usize,
        ) -> Answer;

        pub(super) fn interpolator_check(
            format: *const u8,
            format_length: usize,
            fields: *const Field<'_>,
            field_count: usize,
            items: *const Field<'_>,
            item_count: usize,
            room: *mut u8,
            room_length: usize,
        ) -> Answer;

        pub(super) fn interpolator_check_alone(
            format: *const u8,
            format_length: usize,
            room: *mut u8,
            room_length: usize,
        ) -> Answer;

        pub(super) fn interpolator_faults(
            format: *const u8,
            format_length: usize,
            fields: *const Field<'_>,
            field_count: usize,
            items: *const Field<'_>,
            item_count: usize,
            faults: *mut Fault,
            fault_count: usize,
        ) -> Answer;

        pub(super) fn interpolator_explain(
            source: *const Source<'_>,
            format: *const u8,
            format_length: usize,
            fields: *const Field<'_>,
            field_count: usize,
            items: *const Field<'_>,
            item_count: usize,
            which: usize,
            room: *mut u8,
            room_length: usize,
        ) -> Answer;

        pub(super) fn interpolator_rows(
            format: *const u8,
            format_length: usize,
            columns: *const Field<'_>,
            column_count: usize,
            cells: *const Field<'_>,
            cell_count: usize,
            ends: *mut usize,
            row_count: usize,
            room: *mut u8,
            room_length: usize,
        ) -> Answer;

        pub(super) fn interpolator_cost(
            format: *const u8,
            format_length: usize,
            text: usize,
            items: usize,
        ) -> CostAnswer;

        pub(super) fn interpolator_arguments(
            format: *const u8,
            format_length: usize,
            arguments: *mut Argument,
            argument_count: usize,
        ) -> Answer;
    }
}

/// Sets the length of a room to what a call wrote at its front: nothing, if it did not fit.
///
/// # Safety
/// If `written` is at most the room's capacity, the room begins with so many bytes of UTF-8 that were
/// written: a text of so many bytes lies in it if it fits ("Answers" of the header).
unsafe fn settle(room: &mut String, written: usize) {
    let length = if written <= room.capacity() {
        written
    } else {
        0
    };
    // SAFETY: the caller says that so many bytes are there, and that they are UTF-8.
    unsafe { room.as_mut_vec().set_len(length) }
}

/// How many bytes the text or the sentence has that a call put into its one room: by the header's
/// "Answers", `length` of the code OK, and `message` of any other.
fn written(answer: &Answer) -> usize {
    if answer.code == code::OK {
        answer.length
    } else {
        answer.message
    }
}

/// The text of a format, or the sentence of its fault, in the room if its capacity is enough.
pub(crate) fn format(
    format: &str,
    fields: &[Field<'_>],
    items: &[Field<'_>],
    room: &mut String,
) -> Answer {
    // SAFETY: the declaration is the header's; each pointer and length are those of one slice, and the
    // room is the capacity of a String that nothing else borrows.
    let answer = unsafe {
        library::interpolator_format(
            format.as_ptr(),
            format.len(),
            fields.as_ptr(),
            fields.len(),
            items.as_ptr(),
            items.len(),
            room.as_mut_ptr(),
            room.capacity(),
        )
    };
    // SAFETY: by `Reported` in `FormatAnswers`, of every code: OK has a text of `length` bytes, which
    // lies in the room if it fits; any other a sentence of `message` bytes, likewise ("Answers").
    unsafe { settle(room, written(&answer)) };
    answer
}

/// The text of a format, each value escaped, or the sentence of what is wrong, in the room if its
/// capacity is enough.
pub(crate) fn escaped(
    escape: u32,
    format: &str,
    fields: &[Field<'_>],
    items: &[Field<'_>],
    room: &mut String,
) -> Answer {
    // SAFETY: as in `format`.
    let answer = unsafe {
        library::interpolator_escaped(
            escape,
            format.as_ptr(),
            format.len(),
            fields.as_ptr(),
            fields.len(),
            items.as_ptr(),
            items.len(),
            room.as_mut_ptr(),
            room.capacity(),
        )
    };
    // SAFETY: by `Reported` in `FormatAnswers`, `EscapedBy` and `ReportedCode`, of every code: as in `format`.
    unsafe { settle(room, written(&answer)) };
    answer
}

/// The text of a format up to its first fault, or as much of it as the room's capacity takes.
pub(crate) fn write(
    format: &str,
    fields: &[Field<'_>],
    items: &[Field<'_>],
    room: &mut String,
) -> Answer {
    // SAFETY: as in `format`; the second room is empty.
    let answer = unsafe {
        library::interpolator_write(
            format.as_ptr(),
            format.len(),
            fields.as_ptr(),
            fields.len(),
            items.as_ptr(),
            items.len(),
            room.as_mut_ptr(),
            room.capacity(),
            ptr::null_mut(),
            0,
        )
    };
    // SAFETY: by `Put` in `WriteAnswers`, of OK, the codes 1 to 5, NO_MEMORY and FULL the room
    // begins with `length` bytes of whole characters, which are at most its own; of NOT_UTF8 and
    // LISTS `length` is 0.
    unsafe { settle(room, answer.length) };
    answer
}

/// The first fault with a row of examples.
pub(crate) fn check(format: &str, fields: &[Field<'_>], items: &[Field<'_>]) -> Answer {
    // SAFETY: as in `format`; the room is empty.
    unsafe {
        library::interpolator_check(
            format.as_ptr(),
            format.len(),
            fields.as_ptr(),
            fields.len(),
            items.as_ptr(),
            items.len(),
            ptr::null_mut(),
            0,
        )
    }
}

/// The first fault of a format by itself.
pub(crate) fn check_alone(format: &str) -> Answer {
    // SAFETY: as in `check`.
    unsafe { library::interpolator_check_alone(format.as_ptr(), format.len(), ptr::null_mut(), 0) }
}

/// The faults with a row of examples, as many as the capacity takes; and how many there are.
pub(crate) fn faults(
    format: &str,
    fields: &[Field<'_>],
    items: &[Field<'_>],
    faults: &mut Vec<Fault>,
) -> Answer {
    // SAFETY: as in `format`; the array is the capacity of a Vec that nothing else borrows.
    let answer = unsafe {
        library::interpolator_faults(
            format.as_ptr(),
            format.len(),
            fields.as_ptr(),
            fields.len(),
            items.as_ptr(),
            items.len(),
            faults.as_mut_ptr(),
            faults.capacity(),
        )
    };
    // SAFETY: by `FaultsAnswers`: of OK the array begins with as many of `length` faults as it has
    // places for (`FillsFront`), and of any other code `length` is 0 (`CodedAside`).
    unsafe { faults.set_len(answer.length.min(faults.capacity())) };
    answer
}

/// The picture of the fault of that number with a row of examples, in the room if its capacity is
/// enough.
pub(crate) fn explain(
    source: &Source<'_>,
    format: &str,
    fields: &[Field<'_>],
    items: &[Field<'_>],
    which: usize,
    room: &mut String,
) -> Answer {
    // SAFETY: as in `format`; the source is borrowed.
    let answer = unsafe {
        library::interpolator_explain(
            source,
            format.as_ptr(),
            format.len(),
            fields.as_ptr(),
            fields.len(),
            items.as_ptr(),
            items.len(),
            which,
            room.as_mut_ptr(),
            room.capacity(),
        )
    };
    // SAFETY: by `ExplainAnswers`: `message` is the length of the picture or of the sentence, which
    // lies in the room if it fits (`Reported`), and 0 of OK (`ReportedNone`).
    unsafe { settle(room, answer.message) };
    answer
}

/// The texts of a table's rows, or the sentence of the first fault, in the room if its capacity is
/// enough; and where each row ends.
pub(crate) fn rows(
    format: &str,
    columns: &[Field<'_>],
    cells: &[Field<'_>],
    ends: &mut [usize],
    room: &mut String,
) -> Answer {
    // SAFETY: as in `format`; `ends` is a slice that nothing else borrows.
    let answer = unsafe {
        library::interpolator_rows(
            format.as_ptr(),
            format.len(),
            columns.as_ptr(),
            columns.len(),
            cells.as_ptr(),
            cells.len(),
            ends.as_mut_ptr(),
            ends.len(),
            room.as_mut_ptr(),
            room.capacity(),
        )
    };
    // SAFETY: by `Reported` in `RowsAnswers`: as in `format`, with all rows for the text. All of `ends`
    // has values, whatever the call wrote of it.
    unsafe { settle(room, written(&answer)) };
    answer
}

/// How much a format can write.
pub(crate) fn cost(format: &str, text: usize, items: usize) -> CostAnswer {
    // SAFETY: the declaration is the header's; the pointer and length are those of the format.
    unsafe { library::interpolator_cost(format.as_ptr(), format.len(), text, items) }
}

/// The arguments of a format, or none if memory was refused.
pub(crate) fn arguments(format: &str) -> Option<Vec<Argument>> {
    // Each argument begins with a brace of its own.
    let most = format.bytes().filter(|byte| *byte == b'{').count();
    let mut arguments = Vec::with_capacity(most);
    // SAFETY: the declaration is the header's; the array is the capacity of a Vec.
    let answer = unsafe {
        library::interpolator_arguments(
            format.as_ptr(),
            format.len(),
            arguments.as_mut_ptr(),
            arguments.capacity(),
        )
    };
    if answer.code != code::OK || answer.length > arguments.capacity() {
        return None;
    }
    // SAFETY: by `FillsFront` in `ArgumentAnswers`: of OK the array begins with as many of `length`
    // arguments as it has places for, which is all of them.
    unsafe { arguments.set_len(answer.length) };
    Some(arguments)
}

#[cfg(test)]
mod tests {
    use super::*;
    use std::mem::{offset_of, size_of};

    #[repr(C)]
    #[derive(Debug, PartialEq)]
    struct Sizes {
        request: usize,
        lent: usize,
        field: usize,
        answer: usize,
        argument: usize,
        cost_answer: usize,
        fault: usize,
        source: usize,
        request_width: usize,
        lent_text: usize,
        field_kind: usize,
        field_number: usize,
        field_first: usize,
        field_real: usize,
        field_single: usize,
        answer_place: usize,
        argument_request: usize,
        argument_item: usize,
    }

    extern "C" {
        fn interpolator_version() -> u32;
        fn interpolator_layout() -> Sizes;
    }

    #[test]
    fn the_library_has_this_layout() {
        let here = Sizes {
            request: size_of::<Request>(),
            lent: size_of::<Lent<'_>>(),
            field: size_of::<Field<'_>>(),
            answer: size_of::<Answer>(),
            argument: size_of::<Argument>(),
            cost_answer: size_of::<CostAnswer>(),
            fault: size_of::<Fault>(),
            source: size_of::<Source<'_>>(),
            request_width: offset_of!(Request, width),
            lent_text: offset_of!(Lent<'_>, text),
            field_kind: offset_of!(Field<'_>, kind),
            field_number: offset_of!(Field<'_>, number),
            field_first: offset_of!(Field<'_>, first),
            field_real: offset_of!(Field<'_>, real),
            field_single: offset_of!(Field<'_>, single),
            answer_place: offset_of!(Answer, place),
            argument_request: offset_of!(Argument, request),
            argument_item: offset_of!(Argument, item_first),
        };
        // SAFETY: the declarations are the header's; the calls take nothing.
        let (version, layout) = unsafe { (interpolator_version(), interpolator_layout()) };
        assert_eq!(version, 1);
        assert_eq!(layout, here);
    }
}
