//! Values of std's own types, which the library writes by itself.
use std::any::TypeId;
use std::borrow::Cow;
use std::marker::PhantomData;
use std::mem;

use crate::sys::{kind, Field};

/// A value of one of std's own types. The texts of two that are equal are the same.
#[derive(Clone, Copy, PartialEq, Default)]
pub(crate) enum Known<'a> {
    /// A value of any other type.
    #[default]
    Nothing,
    Text(&'a str),
    Truth(bool),
    Character(char),
    Unsigned(u64),
    Unsigned128(&'a u128),
    /// By its kind in the library.
    Signed(u32, i64),
    Signed128(&'a i128),
    /// A float, by its bits, so that one NaN is equal to another of the same bits.
    Double(u64),
    Float(u32),
}

impl<'a> Known<'a> {
    /// The value, if it has one of these types.
    #[inline]
    pub(crate) fn of<T>(value: &'a T) -> Self {
        let at: *const T = value;
        macro_rules! known {
            ($($type:ty: $known:ident => $made:expr),* $(,)?) => {
                $(if is::<T, $type>() {
                    // SAFETY: T is this type, but for its lifetimes, and lives as long as it is lent;
                    // what is taken out of it has the lifetime of the reference to it, not its own.
                    let $known: &'a $type = unsafe { &*at.cast::<$type>() };
                    return $made;
                })*
            };
        }
        known! {
            &'static str: text => Known::Text(shorter(text)),
            String: text => Known::Text(text),
            bool: truth => Known::Truth(*truth),
            char: character => Known::Character(*character),
            i32: number => signed(kind::SIGNED32, i64::from(*number)),
            i64: number => signed(kind::SIGNED64, *number),
            u64: number => Known::Unsigned(*number),
            usize: number => Known::Unsigned(*number as u64),
            u32: number => Known::Unsigned(u64::from(*number)),
            u16: number => Known::Unsigned(u64::from(*number)),
            u8: number => Known::Unsigned(u64::from(*number)),
            i16: number => signed(kind::SIGNED16, i64::from(*number)),
            i8: number => signed(kind::SIGNED8, i64::from(*number)),
            isize: number => signed(kind::SIGNED64, *number as i64),
            u128: number => Known::Unsigned128(number),
            i128: number => Known::Signed128(number),
            f64: number => Known::Double(number.to_bits()),
            f32: number => Known::Float(number.to_bits()),
            &'static &'static str: text => Known::Text(shorter(text)),
            &'static String: text => Known::Text(text.as_str()),
            Box<str>: text => Known::Text(text),
            Cow<'static, str>: text => Known::Text(text),
            &'static i32: number => signed(kind::SIGNED32, i64::from(**number)),
            &'static i64: number => signed(kind::SIGNED64, **number),
            &'static u32: number => Known::Unsigned(u64::from(**number)),
            &'static u64: number => Known::Unsigned(**number),
            &'static usize: number => Known::Unsigned(**number as u64),
            &'static f64: number => Known::Double(number.to_bits()),
            &'static f32: number => Known::Float(number.to_bits()),
        }
        Known::Nothing
    }

    /// Whether it is a text or a character past ASCII, of which std's debug escapes more than the
    /// library's.
    #[inline]
    pub(crate) fn is_past_ascii(&self) -> bool {
        match self {
            Known::Text(text) => !text.is_ascii(),
            Known::Character(character) => !character.is_ascii(),
            _ => false,
        }
    }

    /// Puts it into an empty field, and returns how many bytes it is written with, about, in base ten.
    #[inline]
    pub(crate) fn put(self, field: &mut Field<'a>) -> usize {
        match self {
            Known::Nothing => {
                field.put_natural(kind::NOTHING, 0);
                0
            }
            Known::Text(text) => {
                field.put_text(text);
                text.len()
            }
            Known::Truth(truth) => {
                field.put_natural(kind::TRUTH, u64::from(truth));
                "false".len()
            }
            Known::Character(character) => {
                field.put_natural(kind::CHARACTER, u64::from(character));
                character.len_utf8()
            }
            Known::Unsigned(number) => {
                field.put_natural(kind::UNSIGNED, number);
                digits(number)
            }
            Known::Signed(kind, number) => {
                field.put_signed(kind, number);
                1 + digits(number.unsigned_abs())
            }
            Known::Unsigned128(number) => {
                field.put_unsigned128(*number);
                NUMBER_BYTES
            }
            Known::Signed128(number) => {
                field.put_signed128(*number);
                NUMBER_BYTES
            }
            Known::Double(bits) => {
                field.put_double(f64::from_bits(bits));
                NUMBER_BYTES
            }
            Known::Float(bits) => {
                field.put_float(f32::from_bits(bits));
                NUMBER_BYTES
            }
        }
    }
}

/// How many bytes most floats are written with: 17 digits, a point and a sign.
const NUMBER_BYTES: usize = 19;

/// How many digits a number has, about: each ten bits make at most four.
#[inline]
const fn digits(number: u64) -> usize {
    let bits = u64::BITS - number.leading_zeros();
    2 + bits as usize * 4 / 10
}

fn signed<'a>(kind: u32, number: i64) -> Known<'a> {
    Known::Signed(kind, number)
}

/// A text for as long as what holds it is lent.
fn shorter<'a>(text: &'a &str) -> &'a str {
    text
}

/// Whether two types are the same but for their lifetimes.
#[inline]
fn is<T, U: 'static>() -> bool {
    type_of::<T>() == TypeId::of::<U>()
}

/// The identity of a type, whatever its lifetimes are.
#[inline]
fn type_of<T>() -> TypeId {
    trait Identified {
        fn identity(&self) -> TypeId
        where
            Self: 'static;
    }
    impl<T> Identified for PhantomData<T> {
        #[inline]
        fn identity(&self) -> TypeId
        where
            Self: 'static,
        {
            TypeId::of::<T>()
        }
    }
    let phantom = PhantomData::<T>;
    // SAFETY: the object holds nothing, and `identity` only reads the type's identity, in which
    // lifetimes do not count; so no reference outlives what it points to.
    let object =
        unsafe { mem::transmute::<&dyn Identified, &(dyn Identified + 'static)>(&phantom) };
    object.identity()
}
