//! What the tests share.
#![allow(dead_code)]
pub mod reader;

use interpolator::{format, write, Context, Error, Formattable};
use std::collections::HashMap;
use std::fmt::{self, Binary, Debug, Display, LowerExp, LowerHex, Octal, UpperExp, UpperHex};

pub type Pairs<'p, 'a> = &'p [(&'a str, Formattable<'a>)];

pub fn map<'a>(pairs: Pairs<'_, 'a>) -> HashMap<&'a str, Formattable<'a>> {
    pairs.iter().copied().collect()
}

/// The text of a format over pairs, which has no fault.
#[track_caller]
pub fn text(format_text: &str, pairs: Pairs<'_, '_>) -> String {
    match format(format_text, &map(pairs)) {
        Ok(text) => text,
        Err(error) => panic!("{format_text}: {error}"),
    }
}

/// The text before the fault of a format, and the fault, which `format` returns too.
#[track_caller]
pub fn fault(format_text: &str, context: &impl Context) -> (String, Error) {
    let mut out = String::new();
    let error = write(&mut out, format_text, context).expect_err(format_text);
    assert_eq!(
        format(format_text, context),
        Err(error.clone()),
        "{format_text}"
    );
    (out, error)
}

/// A value that the crate does not know, and that is written as the one in it.
pub struct Own<T>(pub T);

/// A text that is written as it is.
pub struct Plain(pub String);

/// A value that fails.
pub struct Failed;

macro_rules! traits {
    ($($name:ident)*) => {$(
        impl<T: $name> $name for Own<T> {
            fn fmt(&self, f: &mut fmt::Formatter<'_>) -> fmt::Result {
                self.0.fmt(f)
            }
        }
        impl $name for Plain {
            fn fmt(&self, f: &mut fmt::Formatter<'_>) -> fmt::Result {
                f.write_str(&self.0)
            }
        }
        impl $name for Failed {
            fn fmt(&self, _: &mut fmt::Formatter<'_>) -> fmt::Result {
                Err(fmt::Error)
            }
        }
    )*};
}
traits! { Binary Debug Display LowerExp LowerHex Octal UpperExp UpperHex }
