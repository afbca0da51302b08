//! The arguments of a simple format, read without the library: one without a list, and without a
//! fault of its own.
//!
//! The library reads the format again when it writes it. A wrong reading here can cost time, but gives
//! no wrong text: each text that is made by it is lent under the request that was read, the library,
//! which is proved, takes it only where it reads that request itself, and at a fault the caller
//! compares both readings, and lays the fields anew by the library's if they differ.
use crate::formattable::slot;
use crate::sys::{Request, PRECISION, WIDTH};

/// The most arguments that are read here.
const MOST: usize = 64;

/// The names of a format, in order, with the requests under which it writes their values; none if
/// it is not simple, or has many.
pub(crate) fn uses(format: &str) -> Option<Vec<(&str, Request)>> {
    let mut reader = Reader {
        format,
        bytes: format.as_bytes(),
        at: 0,
    };
    let mut uses = Vec::with_capacity(8);
    while reader.skip_literal() {
        if uses.len() == MOST {
            return None;
        }
        uses.push((reader.name()?, Request::PLAIN));
        let (_, request) = uses.last_mut()?;
        reader.rest(request)?;
    }
    Some(uses)
}

/// A place in a format.
struct Reader<'f> {
    format: &'f str,
    bytes: &'f [u8],
    at: usize,
}

impl<'f> Reader<'f> {
    #[inline]
    fn byte(&self) -> Option<u8> {
        self.bytes.get(self.at).copied()
    }

    /// Goes past this byte, if it is here.
    #[inline]
    fn eat(&mut self, byte: u8) -> bool {
        let is_here = self.byte() == Some(byte);
        self.at += usize::from(is_here);
        is_here
    }

    /// Goes past the next opening brace of an argument, or returns false if there is none.
    #[inline]
    fn skip_literal(&mut self) -> bool {
        while let Some(byte) = self.byte() {
            self.at += 1;
            if byte == b'{' && !self.eat(b'{') {
                return true;
            }
        }
        false
    }

    /// The name that begins here, up to a colon or a closing brace.
    #[inline]
    fn name(&mut self) -> Option<&'f str> {
        let first = self.at;
        while !matches!(self.byte()?, b':' | b'}') {
            self.at += 1;
        }
        Some(trimmed(self.format.get(first..self.at)?))
    }

    /// Fills in what is behind the name, up to the closing brace.
    #[inline]
    fn rest(&mut self, request: &mut Request) -> Option<()> {
        if self.eat(b':') && self.byte() != Some(b'}') {
            self.spec(request)?;
        }
        self.eat(b'}').then_some(())
    }

    /// Fills in what is behind the colon.
    fn spec(&mut self, request: &mut Request) -> Option<()> {
        self.fill(request)?;
        request.alignment = self.alignment();
        request.sign = self.sign();
        request.alternate = u32::from(self.eat(b'#'));
        request.zero = u32::from(self.eat(b'0'));
        if self.byte()?.is_ascii_digit() {
            request.width = self.number()?;
            request.given |= WIDTH;
        }
        if self.eat(b'.') {
            request.precision = self.number()?;
            request.given |= PRECISION;
        }
        self.slot(request)
    }

    /// The first character, if an alignment follows it.
    #[inline]
    fn fill(&mut self, request: &mut Request) -> Option<()> {
        let length = match self.byte()? {
            0..=0x7f => 1,
            _ => self.format.get(self.at..)?.chars().next()?.len_utf8(),
        };
        let after = self.at + length;
        if alignment(*self.bytes.get(after)?) != 0 {
            let fill = self.format.get(self.at..)?.chars().next()?;
            if fill == '{' {
                return None;
            }
            request.fill = u32::from(fill);
            self.at = after;
        }
        Some(())
    }

    /// The number of the alignment here; 0 if there is none.
    #[inline]
    fn alignment(&mut self) -> u32 {
        let alignment = self.byte().map_or(0, alignment);
        self.at += usize::from(alignment != 0);
        alignment
    }

    /// The number of the sign here; 0 if there is none.
    #[inline]
    fn sign(&mut self) -> u32 {
        if self.eat(b'+') {
            1
        } else if self.eat(b'-') {
            2
        } else {
            0
        }
    }

    /// The number whose digits are here, at least one.
    #[inline]
    fn number(&mut self) -> Option<usize> {
        let first = self.at;
        let mut number = 0usize;
        while let Some(digit @ b'0'..=b'9') = self.byte() {
            let digit = usize::from(digit - b'0');
            number = number.checked_mul(10)?.checked_add(digit)?;
            self.at += 1;
        }
        (self.at > first).then_some(number)
    }

    #[inline]
    fn slot(&mut self, request: &mut Request) -> Option<()> {
        let letter = self.byte()?;
        request.slot = match letter {
            b'}' => return Some(()),
            b'?' => slot::DEBUG,
            b'b' => slot::BINARY,
            b'o' => slot::OCTAL,
            b'x' => slot::LOWER_HEX,
            b'X' => slot::UPPER_HEX,
            b'e' => slot::LOWER_EXP,
            b'E' => slot::UPPER_EXP,
            _ => return None,
        };
        self.at += 1;
        if matches!(letter, b'x' | b'X') && self.eat(b'?') {
            request.hex_debug = if letter == b'x' { 1 } else { 2 };
            request.slot = slot::DEBUG;
        }
        Some(())
    }
}

/// The number of an alignment; 0 if the byte is none.
#[inline]
fn alignment(byte: u8) -> u32 {
    match byte {
        b'<' => 1,
        b'^' => 2,
        b'>' => 3,
        _ => 0,
    }
}

/// The name without the white space before it.
#[inline]
fn trimmed(name: &str) -> &str {
    match name.as_bytes().first() {
        Some(byte) if byte.is_ascii_graphic() => name,
        _ => name.trim_start(),
    }
}

#[cfg(test)]
mod tests {
    use super::*;
    use crate::{quick, sys};

    /// What the library reads, if no argument is a list or broken.
    fn by_library(format: &str) -> Option<Vec<(&str, Request)>> {
        if sys::check_alone(format).code != sys::code::OK {
            return None;
        }
        let arguments = sys::arguments(format)?;
        let is_list = |argument: &sys::Argument| argument.request.slot == sys::ITER;
        if arguments.iter().any(is_list) {
            return None;
        }
        let named = arguments
            .iter()
            .map(|argument| (argument.name(format), argument.request));
        Some(named.collect())
    }

    #[test]
    fn the_library_reads_the_same() {
        const PARTS: [&str; 38] = [
            "{", "}", "{a", "{ b", "{c }", "{", "}", ":", ":", "{{", "}}", "0", "1", "12", "-",
            "+", ".", "#", "<", "^", ">", "*<", "{<", "\u{e9}>", "x", "X", "b", "o", "e", "E", "?",
            "x?", "i", "p", "\u{e9}", "\u{a0}", "(", ")",
        ];
        let mut state = 7u64;
        let mut below = |bound: usize| {
            state = state
                .wrapping_mul(6364136223846793005)
                .wrapping_add(1442695040888963407);
            (state >> 33) as usize % bound
        };
        let mut simple = 0;
        for _ in 0..200_000 {
            let count = 1 + below(10);
            let format: String = (0..count).map(|_| PARTS[below(PARTS.len())]).collect();
            let here = uses(&format);
            assert_eq!(here, by_library(&format), "{format:?}");
            simple += usize::from(here.as_ref().is_some_and(|uses| !uses.is_empty()));
            assert!(here.is_none() || quick::is_read_right(&format, here.as_deref()));
        }
        assert!(
            simple > 5_000,
            "{simple} formats are simple and have arguments"
        );
    }
}
