//! Fields and items as the library takes them, with the texts of the values that it cannot write by
//! itself.
use crate::formattable::Formattable;
use crate::request::write_value;
use crate::sys::{Bytes, Field, Lent, Request, FAILED};

/// The most bytes of room for a text beyond its format, if its values are short.
const MOST_MORE: usize = 256;

/// The most bytes that are expected of the format of an item and of what is between two items.
const MOST_BETWEEN: usize = 64;

/// From where to where a text lies.
type Span = (usize, usize);

/// That of a value that failed: no text has it.
const FAILED_SPAN: Span = (usize::MAX, usize::MAX);

/// Fields, the items of their lists, and the texts that were made of values.
pub(crate) struct Laid<'a> {
    pub(crate) fields: Vec<Field<'a>>,
    pub(crate) items: Vec<Field<'a>>,
    /// All texts that were made.
    texts: String,
    /// The request of each text, and where the text is.
    made: Vec<(Request, Span)>,
    /// How many bytes the texts have that the library writes, about.
    bytes: usize,
    /// Whether a value was written here, or failed.
    is_made: bool,
}

impl<'a> Laid<'a> {
    /// Nothing, with room for so many fields.
    #[inline]
    pub(crate) fn new(fields: usize) -> Self {
        Laid {
            fields: Vec::with_capacity(fields),
            items: Vec::new(),
            texts: String::new(),
            made: Vec::new(),
            bytes: 0,
            is_made: false,
        }
    }

    /// Adds the field of a value of which the library writes all by itself.
    #[inline(always)]
    pub(crate) fn push_known(&mut self, name: &'a str, value: &Formattable<'a>) {
        let field = value.known_field().named(name);
        self.bytes += field.text_bytes();
        self.fields.push(field);
    }

    /// Adds the items of such values. If one of them is no such value, adds none, and returns false.
    pub(crate) fn push_known_items(&mut self, values: &[Formattable<'a>], format: &str) -> bool {
        if values
            .first()
            .is_some_and(|value| !value.is_known_in(format))
        {
            return false;
        }
        let first = self.items.len();
        let mut bytes = 0;
        self.items.resize(first + values.len(), Field::EMPTY);
        for (item, value) in self.items[first..].iter_mut().zip(values) {
            if !value.is_known_in(format) {
                self.items.truncate(first);
                return false;
            }
            bytes += value.put_known(item);
        }
        self.bytes += bytes;
        true
    }

    /// Takes room for so many items.
    pub(crate) fn expect_items(&mut self, count: usize, format: &str) {
        self.items.reserve(count);
        self.bytes += count * format.len().min(MOST_BETWEEN);
    }

    /// The field, without a name, of a value that is wanted under these requests, of which each is
    /// another.
    pub(crate) fn field(&mut self, value: &Formattable<'a>, requests: &[Request]) -> Field<'a> {
        if requests.iter().all(|request| value.is_known_by(request)) {
            let (field, bytes) = value.known_alike();
            self.bytes += bytes;
            return field;
        }
        Field::lending(self.make(value, requests))
    }

    /// Makes the texts of a value under those of these requests whose slots it has, and returns
    /// which they are: from one up to another.
    pub(crate) fn make(&mut self, value: &Formattable<'_>, requests: &[Request]) -> Span {
        let first = self.made.len();
        for request in requests.iter().filter(|request| value.has(request.slot)) {
            let span = self.write(value, request);
            self.made.push((*request, span));
        }
        (first, self.made.len())
    }

    fn write(&mut self, value: &Formattable<'_>, request: &Request) -> Span {
        let first = self.texts.len();
        if !self.is_made {
            self.is_made = true;
            self.texts.reserve(MOST_MORE);
        }
        if write_value(&mut self.texts, value, request).is_ok() {
            return (first, self.texts.len());
        }
        self.texts.truncate(first);
        FAILED_SPAN
    }

    /// Calls with the fields, the items, and how many bytes the text of a format over them has,
    /// about.
    #[inline(always)]
    pub(crate) fn lend<R>(
        self,
        format: &str,
        call: impl FnOnce(&[Field<'_>], &[Field<'_>], usize) -> R,
    ) -> R {
        let texts = self.texts.as_bytes();
        let lent = lent(texts, &self.made);
        let (mut fields, mut items): (Vec<Field<'_>>, Vec<Field<'_>>) = (self.fields, self.items);
        if self.is_made {
            settle(&mut fields, &lent);
            settle(&mut items, &lent);
        }
        call(&fields, &items, room_for(format) + self.bytes + texts.len())
    }
}

fn lent<'t>(texts: &'t [u8], made: &[(Request, Span)]) -> Vec<Lent<'t>> {
    let lent = made.iter().map(|(request, (first, end))| Lent {
        request: *request,
        text: Bytes::of(texts.get(*first..*end).unwrap_or(FAILED)),
    });
    lent.collect()
}

#[inline(never)]
fn settle<'t>(fields: &mut [Field<'t>], lent: &'t [Lent<'t>]) {
    for field in fields {
        field.settle(lent);
    }
}

/// The bytes of a room that most texts of a format fit in whose values are short, and each sentence
/// but that of a long name.
pub(crate) fn room_for(format: &str) -> usize {
    format.len() + format.len().clamp(MOST_MORE / 2, MOST_MORE)
}
