//! A value under the traits that a format may name.
use std::fmt::{self, Binary, Debug, Display, LowerExp, LowerHex, Octal, UpperExp, UpperHex};

use crate::known::Known;
use crate::sys::{Field, Request};

/// The numbers of the slots in a request; as masks, they are the header's.
pub(crate) mod slot {
    pub(crate) const DISPLAY: u32 = 0;
    pub(crate) const DEBUG: u32 = 1;
    pub(crate) const BINARY: u32 = 2;
    pub(crate) const OCTAL: u32 = 3;
    pub(crate) const LOWER_HEX: u32 = 4;
    pub(crate) const UPPER_HEX: u32 = 5;
    pub(crate) const LOWER_EXP: u32 = 6;
    pub(crate) const UPPER_EXP: u32 = 7;
    pub(crate) const ITER: u32 = 8;
}

const fn mask(slot: u32) -> u32 {
    1 << slot
}

const DEBUG_DISPLAY: u32 = mask(slot::DEBUG) | mask(slot::DISPLAY);
const FLOAT: u32 = DEBUG_DISPLAY | mask(slot::LOWER_EXP) | mask(slot::UPPER_EXP);
const INTEGER: u32 = 255;

/// A value with the traits under which a format may write it.
///
/// Each constructor, like [`display`](Formattable::display), fills the slots of its name, and leaves
/// the others empty; the `and_` forms fill further slots, and the `set_` forms do so in place. A slot
/// that a format names and that is empty is
/// [`MissingTraitImpl`](crate::Error::MissingTraitImpl).
///
/// ```
/// use interpolator::{format, Formattable};
/// use std::collections::HashMap;
///
/// let context = HashMap::from([
///     ("name", Formattable::debug_display(&"Ann")),
///     ("pi", Formattable::float(&3.14159)),
///     ("mask", Formattable::integer(&255u8)),
/// ]);
/// let text = format("{name:?} {pi:.2} {mask:#x}", &context)?;
/// assert_eq!(text, "\"Ann\" 3.14 0xff");
/// # Ok::<(), interpolator::Error>(())
/// ```
#[derive(Clone, Copy, Default)]
pub struct Formattable<'a> {
    /// What the library writes by itself, in the slots `covered`.
    known: Known<'a>,
    /// A mask of slots whose value is `known`.
    covered: u32,
    /// A mask of the slots that are filled, with that of the list.
    filled: u32,
    debug: Option<&'a dyn Debug>,
    display: Option<&'a dyn Display>,
    binary: Option<&'a dyn Binary>,
    lower_exp: Option<&'a dyn LowerExp>,
    lower_hex: Option<&'a dyn LowerHex>,
    octal: Option<&'a dyn Octal>,
    upper_exp: Option<&'a dyn UpperExp>,
    upper_hex: Option<&'a dyn UpperHex>,
    /// Whether there is a value under `Pointer`, which no format writes.
    #[cfg(feature = "pointer")]
    pointer: bool,
    iter: Option<&'a [Formattable<'a>]>,
}

macro_rules! slots {
    ($($what:literal, $name:ident, $and:ident, $set:ident: ($($bound:tt)*) [$($field:ident)*] $mask:expr;)*) => {
        impl<'a> Formattable<'a> {
            $(
                #[doc = concat!("A value under ", $what, ".")]
                #[inline]
                pub fn $name<T: $($bound)*>(value: &'a T) -> Self {
                    Self::default().$and(value)
                }

                #[doc = concat!("The same, with this value under ", $what, ".")]
                #[inline]
                #[must_use]
                pub fn $and<T: $($bound)*>(mut self, value: &'a T) -> Self {
                    self.$set(value);
                    self
                }

                #[doc = concat!("Sets the value under ", $what, ".")]
                #[inline]
                pub fn $set<T: $($bound)*>(&mut self, value: &'a T) {
                    self.cover(Known::of(value), $mask);
                    $(self.$field = Some(value);)*
                }
            )*
        }
    };
}

slots! {
    "`Debug` and `Display`: `{x:?}` and `{x}`", debug_display, and_debug_display,
        set_debug_display: (Debug + Display) [debug display] DEBUG_DISPLAY;
    "`Debug`: `{x:?}`", debug, and_debug, set_debug: (Debug) [debug] mask(slot::DEBUG);
    "`Display`: `{x}`", display, and_display, set_display: (Display) [display] mask(slot::DISPLAY);
    "all eight traits, which a whole number has", integer, and_integer, set_integer:
        (Debug + Display + Binary + LowerExp + LowerHex + Octal + UpperExp + UpperHex)
        [debug display binary lower_exp lower_hex octal upper_exp upper_hex] INTEGER;
    "`Debug`, `Display`, `LowerExp` and `UpperExp`, which a float has", float, and_float, set_float:
        (Debug + Display + LowerExp + UpperExp) [debug display lower_exp upper_exp] FLOAT;
    "`Binary`: `{x:b}`", binary, and_binary, set_binary: (Binary) [binary] mask(slot::BINARY);
    "`LowerExp`: `{x:e}`", lower_exp, and_lower_exp, set_lower_exp:
        (LowerExp) [lower_exp] mask(slot::LOWER_EXP);
    "`LowerHex`: `{x:x}`", lower_hex, and_lower_hex, set_lower_hex:
        (LowerHex) [lower_hex] mask(slot::LOWER_HEX);
    "`Octal`: `{x:o}`", octal, and_octal, set_octal: (Octal) [octal] mask(slot::OCTAL);
    "`UpperExp`: `{x:E}`", upper_exp, and_upper_exp, set_upper_exp:
        (UpperExp) [upper_exp] mask(slot::UPPER_EXP);
    "`UpperHex`: `{x:X}`", upper_hex, and_upper_hex, set_upper_hex:
        (UpperHex) [upper_hex] mask(slot::UPPER_HEX);
}

impl<'a> Formattable<'a> {
    /// A list: `{x:i}`.
    ///
    /// ```
    /// use interpolator::{format, Formattable};
    /// use std::collections::HashMap;
    ///
    /// let words = ["hello", "hi", "hey"].each_ref().map(Formattable::display);
    /// let context = HashMap::from([("words", Formattable::iter(&words))]);
    /// assert_eq!(format("{words:i(`{}`)(, )}", &context)?, "`hello`, `hi`, `hey`");
    /// # Ok::<(), interpolator::Error>(())
    /// ```
    #[inline]
    pub fn iter(value: &'a [Formattable<'a>]) -> Self {
        Self::default().and_iter(value)
    }

    /// The same, with this list under `i`.
    #[inline]
    #[must_use]
    pub fn and_iter(mut self, value: &'a [Formattable<'a>]) -> Self {
        self.set_iter(value);
        self
    }

    /// Sets the list under `i`.
    #[inline]
    pub fn set_iter(&mut self, value: &'a [Formattable<'a>]) {
        self.filled |= mask(slot::ITER);
        self.iter = Some(value);
    }

    /// Takes over each slot that the other value fills.
    pub(crate) fn merge(&mut self, other: &Self) {
        macro_rules! take_over {
            ($($field:ident)*) => {$(
                self.$field = other.$field.or(self.$field);
            )*};
        }
        self.cover(Known::Nothing, other.filled & !other.covered);
        self.cover(other.known, other.covered);
        take_over!(debug display binary lower_exp lower_hex octal upper_exp upper_hex iter);
        #[cfg(feature = "pointer")]
        {
            self.pointer |= other.pointer;
        }
    }

    /// Notes that these slots have a value of a known type, or of another.
    #[inline]
    fn cover(&mut self, known: Known<'a>, slots: u32) {
        self.filled |= slots;
        if self.covered & !slots == 0 {
            self.known = known;
            self.covered = 0;
        }
        if known != Known::Nothing && self.known == known {
            self.covered |= slots;
        } else {
            self.covered &= !slots;
        }
    }

    /// The list, if there is one.
    pub(crate) fn list(&self) -> Option<&'a [Formattable<'a>]> {
        self.iter
    }

    /// The list, if there is one and no slot is filled besides.
    pub(crate) fn list_alone(&self) -> Option<&'a [Formattable<'a>]> {
        match self.filled == mask(slot::ITER) {
            true => self.iter,
            false => None,
        }
    }

    /// Whether the library writes all of it by itself.
    #[inline]
    pub(crate) fn is_known(&self) -> bool {
        self.filled == self.covered && self.filled != 0
    }

    /// Whether the library writes all of it by itself, and its debug, if the format asks for it, is
    /// std's: without a `?` a format asks for none.
    #[inline(always)]
    pub(crate) fn is_known_in(&self, format: &str) -> bool {
        self.is_known() && !(self.is_escaped() && format.contains('?'))
    }

    /// Whether it has debug of a text that std escapes more of than the library.
    #[inline]
    pub(crate) fn is_escaped(&self) -> bool {
        self.covered & mask(slot::DEBUG) != 0 && self.known.is_past_ascii()
    }

    /// The field for what the library writes by itself, without a name.
    #[inline]
    pub(crate) fn known_field(&self) -> Field<'a> {
        if self.covered == 0 {
            return Field::NOTHING;
        }
        let mut field = Field::EMPTY;
        self.known.put(&mut field);
        field.with_slots(self.covered)
    }

    /// Puts what the library writes by itself into an empty item of a list, and returns how many bytes
    /// it is written with, about.
    #[inline]
    pub(crate) fn put_known(&self, item: &mut Field<'a>) -> usize {
        self.put_known_under(self.covered, item)
    }

    /// The field for what the library writes by itself, but without the debug of a text of which std
    /// escapes more, so that a format that asks for it has a fault; and how many bytes that is.
    pub(crate) fn known_alike(&self) -> (Field<'a>, usize) {
        let escaped = match self.is_escaped() {
            true => mask(slot::DEBUG),
            false => 0,
        };
        let mut field = Field::EMPTY;
        let bytes = self.put_known_under(self.covered & !escaped, &mut field);
        (field, bytes)
    }

    #[inline]
    fn put_known_under(&self, slots: u32, item: &mut Field<'a>) -> usize {
        if slots == 0 {
            *item = Field::NOTHING;
            return 0;
        }
        let bytes = self.known.put(item);
        item.put_slots(slots);
        bytes
    }

    /// Whether the library writes the value by itself under a request, or it has no such slot.
    pub(crate) fn is_known_by(&self, request: &Request) -> bool {
        if !self.has(request.slot) {
            return true;
        }
        let is_escaped = request.slot == slot::DEBUG && self.is_escaped();
        self.covered & mask(request.slot) != 0 && !is_escaped
    }

    /// Whether the slot is filled.
    pub(crate) fn has(&self, slot: u32) -> bool {
        self.filled & mask(slot) != 0
    }

    /// Writes the value of a slot by its own trait.
    pub(crate) fn fmt_under(&self, slot: u32, f: &mut fmt::Formatter<'_>) -> fmt::Result {
        macro_rules! by {
            ($field:ident) => {
                match self.$field {
                    Some(value) => value.fmt(f),
                    None => Err(fmt::Error),
                }
            };
        }
        match slot {
            slot::DISPLAY => by!(display),
            slot::DEBUG => by!(debug),
            slot::BINARY => by!(binary),
            slot::OCTAL => by!(octal),
            slot::LOWER_HEX => by!(lower_hex),
            slot::UPPER_HEX => by!(upper_hex),
            slot::LOWER_EXP => by!(lower_exp),
            slot::UPPER_EXP => by!(upper_exp),
            _ => Err(fmt::Error),
        }
    }
}

/// Values under `Pointer`, so that a program compiles that has them. No format writes them: `{x:p}` is
/// [`UnsupportedOption`](crate::Error::UnsupportedOption).
#[cfg(feature = "pointer")]
impl<'a> Formattable<'a> {
    /// A value under `Pointer`.
    pub fn pointer<T: fmt::Pointer>(value: &'a T) -> Self {
        Self::default().and_pointer(value)
    }

    /// The same, with this value under `Pointer`.
    #[must_use]
    pub fn and_pointer<T: fmt::Pointer>(mut self, value: &'a T) -> Self {
        self.set_pointer(value);
        self
    }

    /// Sets the value under `Pointer`.
    pub fn set_pointer<T: fmt::Pointer>(&mut self, _: &'a T) {
        self.pointer = true;
    }
}

/// The names of the slots that are filled.
impl Debug for Formattable<'_> {
    fn fmt(&self, f: &mut fmt::Formatter<'_>) -> fmt::Result {
        let slots = [
            ("debug", slot::DEBUG),
            ("display", slot::DISPLAY),
            ("binary", slot::BINARY),
            ("lower_exp", slot::LOWER_EXP),
            ("lower_hex", slot::LOWER_HEX),
            ("octal", slot::OCTAL),
            ("upper_exp", slot::UPPER_EXP),
            ("upper_hex", slot::UPPER_HEX),
        ];
        let mut names = f.debug_tuple("Formattable");
        for (name, _) in slots.iter().filter(|(_, slot)| self.has(*slot)) {
            names.field(&format_args!("{name}"));
        }
        #[cfg(feature = "pointer")]
        if self.pointer {
            names.field(&format_args!("pointer"));
        }
        if self.has(slot::ITER) {
            names.field(&format_args!("iter"));
        }
        names.finish()
    }
}
