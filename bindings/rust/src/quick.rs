//! The short way, for values that the library all writes by itself, and for simple formats.
//!
//! It does not get the arguments from the library first: it hands over all values of a small map,
//! or looks for names itself, and makes the texts that it reads that a format asks for. If it reads
//! amiss, the library finds no value of a name, or no text for a request, and returns a fault; then
//! the caller takes the long way.
use std::slice;

use crate::formattable::Formattable;
use crate::laid::Laid;
use crate::simple;
use crate::sys::{self, Field, Request};
use crate::Context;

/// How many values a map may have beyond the names of a format, if all of them are handed over.
const FEW: usize = 8;

/// The most items that lists within lists may have, if they are handed over without a look at how
/// the format uses them.
const MOST_NESTED: usize = 4096;

/// The most levels of lists within lists, if they are handed over so: the library takes 64 with
/// those that hold them.
const MOST_LEVELS: usize = 60;

/// Calls with the fields of a format, its items, and how many bytes its text has, about, and returns
/// what that returns. None if the short way does not lead there, or to a fault that may not be that
/// of the format.
#[inline]
pub(crate) fn lend<R>(
    format: &str,
    context: &dyn Context,
    call: impl FnOnce(&[Field<'_>], &[Field<'_>], usize) -> R,
    has_fault: impl FnOnce(&R) -> bool,
) -> Option<R> {
    lend_read_so(format, None, context, call, has_fault)
}

/// The same, with this for how the format uses names, if it was read before.
#[inline(always)]
fn lend_read_so<'f, R>(
    format: &'f str,
    uses: Option<Vec<(&'f str, Request)>>,
    context: &dyn Context,
    call: impl FnOnce(&[Field<'_>], &[Field<'_>], usize) -> R,
    has_fault: impl FnOnce(&R) -> bool,
) -> Option<R> {
    let mut fields = Fields::new(format, uses);
    fields.find(context);
    if fields.is_stuck {
        return None;
    }
    let result = fields.laid.lend(format, call);
    let is_of_format =
        !has_fault(&result) || fields.is_whole || is_read_right(format, fields.uses.as_deref());
    is_of_format.then_some(result)
}

/// The fields of a format, as they are found.
struct Fields<'a> {
    format: &'a str,
    laid: Laid<'a>,
    /// How the format uses names, once a value needs it.
    uses: Option<Vec<(&'a str, Request)>>,
    /// The requests for one value, if they are several.
    requests: Vec<Request>,
    /// How many levels of lists within lists there are, at most.
    levels: usize,
    /// Whether the fields have all that any format can ask of the context.
    is_whole: bool,
    /// Whether there is a value that the short way does not take. Then none was written here.
    is_stuck: bool,
}

impl<'a> Fields<'a> {
    #[inline]
    fn new(format: &'a str, uses: Option<Vec<(&'a str, Request)>>) -> Self {
        Fields {
            format,
            laid: Laid::new(FEW),
            uses,
            requests: Vec::new(),
            levels: 0,
            is_whole: true,
            is_stuck: false,
        }
    }

    #[inline]
    fn find(&mut self, context: &'a dyn Context) {
        let most = FEW + self.format.len() / 64;
        if !context.each(most, &mut |name, value| self.take(name, value)) {
            self.find_among_many(context);
        }
    }

    fn find_among_many(&mut self, context: &'a dyn Context) {
        let format = self.format;
        let braces = format.bytes().filter(|byte| *byte == b'{').count();
        if context.each(braces + FEW, &mut |name, value| self.take(name, value)) {
            return;
        }
        self.is_whole = false;
        // The names whose values the library does not write all by itself.
        let mut others = Vec::new();
        for name in Names::of(format) {
            match context.get(name) {
                Some(value) if value.is_known_in(format) => self.laid.push_known(name, &value),
                Some(value) if !others.contains(&name) => {
                    others.push(name);
                    self.take_other(name, &value);
                }
                Some(_) => {}
                None => self.is_stuck = self.uses.is_none(),
            }
            if self.is_stuck {
                return;
            }
        }
    }

    #[inline(never)]
    fn take(&mut self, name: &'a str, value: &Formattable<'a>) {
        if value.is_known_in(self.format) {
            self.laid.push_known(name, value);
        } else {
            self.take_other(name, value);
        }
    }

    #[inline(never)]
    fn take_other(&mut self, name: &'a str, value: &Formattable<'a>) {
        if self.is_stuck {
            return;
        }
        match value.list_alone() {
            Some(list) if self.uses.is_none() => self.take_list(name, list),
            _ => self.make(name, value),
        }
    }

    /// Lays a list, if the format names it.
    fn take_list(&mut self, name: &'a str, list: &'a [Formattable<'a>]) {
        if !Names::of(self.format).any(|used| used == name) {
            self.is_whole = false;
            return;
        }
        match self.lay(list) {
            Some(field) => self.laid.fields.push(field.named(name)),
            None => self.is_stuck = true,
        }
    }

    /// Lays the items of a list, and of the lists among them, level by level; none if the library
    /// does not write all of them by itself, or if there are many lists within lists.
    fn lay(&mut self, list: &'a [Formattable<'a>]) -> Option<Field<'a>> {
        let first = self.laid.items.len();
        let end = first + list.len();
        let mut reserved = end;
        let mut inner: Vec<&'a [Formattable<'a>]> = Vec::new();
        let (mut next, mut level_end) = (0, 0);
        let mut items = list;
        loop {
            self.laid.expect_items(items.len(), self.format);
            if !self.laid.push_known_items(items, self.format) {
                for item in items {
                    let list = item.list_alone()?;
                    inner.push(list);
                    let first = reserved;
                    reserved += list.len();
                    self.laid.items.push(Field::list(first, reserved, (0, 0)));
                }
            }
            if !inner.is_empty() && reserved > MOST_NESTED {
                return None;
            }
            let Some(list) = inner.get(next) else {
                return Some(Field::list(first, end, (0, 0)));
            };
            if next == level_end {
                level_end = inner.len();
                self.levels += 1;
                if self.levels > MOST_LEVELS {
                    return None;
                }
            }
            (items, next) = (list, next + 1);
        }
    }

    /// Writes a value here under the requests that the format has for it, if the format is simple.
    fn make(&mut self, name: &'a str, value: &Formattable<'a>) {
        if self.uses.is_none() {
            self.uses = simple::uses(self.format);
        }
        let Some(uses) = &self.uses else {
            self.is_stuck = true;
            return;
        };
        self.is_whole = false;
        self.requests.clear();
        let mut first = None;
        for (_, request) in uses.iter().filter(|(used, _)| is_same(used, name)) {
            match first {
                None => first = Some(request),
                Some(one) if one == request || self.requests.contains(request) => {}
                Some(one) => {
                    if self.requests.is_empty() {
                        self.requests.push(*one);
                    }
                    self.requests.push(*request);
                }
            }
        }
        let requests = match first {
            Some(one) if self.requests.is_empty() => slice::from_ref(one),
            _ => &self.requests,
        };
        let field = self.laid.field(value, requests);
        self.laid.fields.push(field.named(name));
    }
}

/// Whether the library reads the same names and requests in a format as were read here. Then the
/// fields are those of the long way, but for lists and names that are not used.
#[inline(never)]
pub(crate) fn is_read_right(format: &str, uses: Option<&[(&str, Request)]>) -> bool {
    let (Some(uses), Some(arguments)) = (uses, sys::arguments(format)) else {
        return false;
    };
    let names = arguments.iter().map(|argument| argument.name(format));
    let requests = arguments.iter().map(|argument| argument.request);
    names.clone().eq(Names::of(format)) && names.zip(requests).eq(uses.iter().copied())
}

/// Whether two names are the same. Most differ in their length or in their first byte.
#[inline]
fn is_same(one: &str, other: &str) -> bool {
    one.len() == other.len() && one.as_bytes().first() == other.as_bytes().first() && one == other
}

/// What stands after each opening brace, up to a colon or a closing brace.
struct Names<'f> {
    format: &'f str,
    at: usize,
}

impl<'f> Names<'f> {
    fn of(format: &'f str) -> Self {
        Names { format, at: 0 }
    }

    /// Goes on to the next of these bytes.
    fn skip_to(&mut self, wanted: impl Fn(u8) -> bool) -> Option<()> {
        let bytes = self.format.as_bytes();
        while let Some(byte) = bytes.get(self.at) {
            if wanted(*byte) {
                return Some(());
            }
            self.at += 1;
        }
        None
    }
}

impl<'f> Iterator for Names<'f> {
    type Item = &'f str;

    fn next(&mut self) -> Option<&'f str> {
        loop {
            self.skip_to(|byte| byte == b'{')?;
            self.at += 1;
            let first = self.at;
            if self.format.as_bytes().get(first) == Some(&b'{') {
                self.at += 1;
                continue;
            }
            self.skip_to(|byte| byte == b':' || byte == b'}')?;
            return Some(self.format[first..self.at].trim_start());
        }
    }
}

#[cfg(test)]
mod tests {
    use super::*;
    use crate::row::Row;
    use crate::{whole, Result};
    use std::collections::HashMap;
    use std::fmt::{self, Debug, Display, LowerExp, UpperExp};

    /// A float of a type that the library does not know.
    struct Other(f64);

    macro_rules! written_as_its_float {
        ($($by:ident)*) => {$(
            impl $by for Other {
                fn fmt(&self, f: &mut fmt::Formatter<'_>) -> fmt::Result {
                    $by::fmt(&self.0, f)
                }
            }
        )*};
    }

    written_as_its_float!(Debug Display LowerExp UpperExp);

    /// What the short way leads to, if the format is read as another one is.
    fn read_as(other: &str, format: &str, context: &dyn Context) -> Option<Result<String>> {
        lend_read_so(
            format,
            simple::uses(other),
            context,
            |fields, items, bytes| whole(format, fields, items, bytes),
            Result::is_err,
        )
    }

    fn by_long_way(format: &str, context: &dyn Context) -> Result<String> {
        let call =
            |fields: &[Field<'_>], items: &[Field<'_>], bytes| whole(format, fields, items, bytes);
        Row::of(format, context)?.lend(format, call)
    }

    #[test]
    fn a_wrong_reading_gives_no_wrong_text() {
        const SPECS: [&str; 16] = [
            "", ":?", ":.1", ":.2", ":+.1", ":-.1", ":8.1", ":<8.1", ":>8.1", ":*<8.1", ":08.1",
            ":#.1", ":e", ":E", ":x?", ":X?",
        ];
        let context = HashMap::from([
            ("f", Formattable::float(&Other(2.5))),
            ("u", Formattable::debug_display(&"e\u{301}\u{200b}")),
        ]);
        for name in ["f", "u"] {
            let formats = SPECS.map(|spec| format!("{{{name}{spec}}}"));
            for format in &formats {
                let wanted = by_long_way(format, &context);
                for other in formats.iter().map(String::as_str).chain(["", "{q}"]) {
                    let is_right = format == other;
                    match read_as(other, format, &context) {
                        Some(result) => assert_eq!(result, wanted, "{format} as {other}"),
                        None => assert!(!is_right, "{format}"),
                    }
                    if name == "f" && !is_right {
                        assert_eq!(
                            read_as(other, format, &context),
                            None,
                            "{format} as {other}"
                        );
                    }
                }
            }
        }
    }
}
