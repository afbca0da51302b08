//! Macros for contexts, lists and printing.
use std::collections::hash_map::{Entry, HashMap};
use std::fmt;

use crate::Formattable;

/// What the macros call on a writer, or on a reference to one, to borrow it.
#[doc(hidden)]
pub trait Borrowed: fmt::Write {
    fn borrowed_to_interpolate(&mut self) -> &mut Self {
        self
    }
}

impl<W: fmt::Write + ?Sized> Borrowed for W {}

/// A context of these entries. Of a name that is given twice, later slots replace earlier ones.
#[doc(hidden)]
pub fn context<'k, 'a, const N: usize>(
    entries: [(&'k str, Formattable<'a>); N],
) -> HashMap<&'k str, Formattable<'a>> {
    let mut context = HashMap::with_capacity(N);
    for (name, value) in entries {
        match context.entry(name) {
            Entry::Vacant(place) => {
                place.insert(value);
            }
            Entry::Occupied(place) => place.into_mut().merge(&value),
        }
    }
    context
}

/// The items of a list, whose type is known even if there are none.
#[doc(hidden)]
pub fn list<'a, const N: usize>(items: [Formattable<'a>; N]) -> [Formattable<'a>; N] {
    items
}

/// Makes a context: a `HashMap` of names and [`Formattable`]s.
///
/// An entry is a name, its traits, each after a colon, and `=` with the value. All but the name may be
/// left out: without a trait, and for a colon that no trait follows, that is `Display`; without a
/// value it is the variable of that name.
///
/// Entry | Value | Traits
/// --- | --- | ---
/// `a` | `a` | `Display`
/// `a: debug` | `a` | `Debug`
/// `a: :?` | `a` | `Display`, `Debug`
/// `a = 5` | `5` | `Display`
/// `a:?:x = 5` | `5` | `Debug`, `LowerHex`
///
/// Traits are named as the constructors of [`Formattable`] (`debug`, `integer`, `iter` ..) or as in a
/// format (`?`, `x`, `X`, `o`, `b`, `e`, `E`, `i`). A name may also be a string. One that is given
/// twice has the traits of both; where both have one, the later value is written.
///
/// The context borrows the values: one that is bound by `let` has to borrow them from variables.
///
/// ```
/// use interpolator::{context, format, list};
///
/// let (name, age) = ("Ann", 42);
/// let fruits = list!["apple", "pear"];
/// let context = context! {
///     name,
///     name: debug = "A.",
///     age: integer,
///     "first name": :? = name,
///     fruits: i,
/// };
/// let text = format("{name} {name:?} {age:x} {first name:?} {fruits:i({})(, )}", &context)?;
/// assert_eq!(text, "Ann \"A.\" 2a \"Ann\" apple, pear");
/// # Ok::<(), interpolator::Error>(())
/// ```
#[macro_export]
macro_rules! context {
    ($($entries:tt)*) => {
        $crate::inner_context!([] $($entries)*)
    };
}

/// Makes a list: an array of [`Formattable`]s.
///
/// The values are displayed. Other traits, as in [`context!`], stand before them, each after a colon,
/// and a `;`.
///
/// ```
/// use interpolator::{iformat, list};
///
/// let texts = iformat!("{list:i({})(, )}", list: i = list!["a", 1, 'c']);
/// assert_eq!(texts?, "a, 1, c");
/// let numbers = list![: :?:X; 4, 16, 164];
/// let texts = iformat!("{numbers:i({} {:?} {:X})(, )}", numbers: i);
/// assert_eq!(texts?, "4 4 4, 16 16 10, 164 164 A4");
/// # Ok::<(), interpolator::Error>(())
/// ```
#[macro_export]
macro_rules! list {
    ($($tokens:tt)*) => {
        $crate::either_list!([$($tokens)*] $($tokens)*)
    };
}

/// Returns the text of a format as a `Result<String, Error>`, with the values of the entries that
/// follow it, as in [`context!`], or of a context: `&context`.
///
/// ```
/// use interpolator::iformat;
///
/// let a = 10;
/// assert_eq!(iformat!("{a}, {b:?}", a, b: debug = "test")?, "10, \"test\"");
/// # Ok::<(), interpolator::Error>(())
/// ```
#[macro_export]
macro_rules! iformat {
    ($format:expr, &$context:expr $(,)?) => {
        $crate::format($format, &$context)
    };
    ($format:expr $(, $($entries:tt)*)?) => {
        $crate::format($format, &$crate::context!($($($entries)*)?))
    };
}

/// Writes the text of a format to a [`std::fmt::Write`], as [`write()`](crate::write()) does, and returns
/// `Result<(), Error>`. What follows the format is as in [`iformat!`].
///
/// ```
/// use interpolator::iwrite;
///
/// let mut out = String::new();
/// iwrite!(out, "{a}, ", a = 10)?;
/// iwrite!(&mut out, "{b:?}", b: ? = "test")?;
/// assert_eq!(out, "10, \"test\"");
/// # Ok::<(), interpolator::Error>(())
/// ```
#[macro_export]
macro_rules! iwrite {
    ($out:expr, $format:expr, &$context:expr $(,)?) => {{
        use $crate::hidden::Borrowed as _;
        $crate::write($out.borrowed_to_interpolate(), $format, &$context)
    }};
    ($out:expr, $format:expr $(, $($entries:tt)*)?) => {
        $crate::iwrite!($out, $format, &$crate::context!($($($entries)*)?))
    };
}

/// The same as [`iwrite!`], with a newline after the text. If the writer fails at it, that is
/// [`Error::Fmt`](crate::Error::Fmt) at place 0. It needs `std::fmt::Write`, as [`writeln!`] does.
///
/// ```
/// use interpolator::iwriteln;
/// use std::fmt::Write;
///
/// let mut out = String::new();
/// iwriteln!(out, "{a}, {b:?}", a = 10, b: debug = "test")?;
/// assert_eq!(out, "10, \"test\"\n");
/// # Ok::<(), interpolator::Error>(())
/// ```
#[macro_export]
macro_rules! iwriteln {
    ($out:expr, $($format:tt)+) => {{
        use $crate::hidden::Borrowed as _;
        match $out.borrowed_to_interpolate() {
            out => match $crate::iwrite!(out, $($format)+) {
                Ok(()) => ::std::write!(out, "\n").map_err(|error| $crate::Error::Fmt(error, 0)),
                fault => fault,
            },
        }
    }};
}

/// Prints the text of a format, or nothing if it has a fault, and returns `Result<(), Error>`. What
/// follows the format is as in [`iformat!`].
///
/// ```
/// # use interpolator::iprint;
/// iprint!("{a}, {b:?}\n", a = 10, b: debug = "test")?;
/// # Ok::<(), interpolator::Error>(())
/// ```
#[macro_export]
macro_rules! iprint {
    ($($format:tt)+) => {
        $crate::iformat!($($format)+).map(|text| ::std::print!("{text}"))
    };
}

/// The same as [`iprint!`], with a newline after the text.
///
/// ```
/// # use interpolator::iprintln;
/// iprintln!("{a}, {b:?}", a = 10, b: debug = "test")?;
/// # Ok::<(), interpolator::Error>(())
/// ```
#[macro_export]
macro_rules! iprintln {
    ($($format:tt)+) => {
        $crate::iformat!($($format)+).map(|text| ::std::println!("{text}"))
    };
}

/// The same as [`iprint!`], to the standard error.
///
/// ```
/// # use interpolator::ieprint;
/// ieprint!("{a}, {b:?}\n", a = 10, b: debug = "test")?;
/// # Ok::<(), interpolator::Error>(())
/// ```
#[macro_export]
macro_rules! ieprint {
    ($($format:tt)+) => {
        $crate::iformat!($($format)+).map(|text| ::std::eprint!("{text}"))
    };
}

/// The same as [`iprintln!`], to the standard error.
///
/// ```
/// # use interpolator::ieprintln;
/// ieprintln!("{a}, {b:?}", a = 10, b: debug = "test")?;
/// # Ok::<(), interpolator::Error>(())
/// ```
#[macro_export]
macro_rules! ieprintln {
    ($($format:tt)+) => {
        $crate::iformat!($($format)+).map(|text| ::std::eprintln!("{text}"))
    };
}

/// Goes through the entries of a context; the pairs so far stand in brackets.
#[doc(hidden)]
#[macro_export]
macro_rules! inner_context {
    ([$($pair:tt)*]) => {
        $crate::hidden::context([$($pair)*])
    };
    ([$($pair:tt)*] $name:ident $(, $($rest:tt)*)?) => {
        $crate::inner_context!([$($pair)*
            (::std::stringify!($name), $crate::inner_value!([display] $name)),] $($($rest)*)?)
    };
    ([$($pair:tt)*] $name:tt = $value:expr $(, $($rest:tt)*)?) => {
        $crate::inner_context!([$($pair)*
            ($crate::inner_name!($name), $crate::inner_value!([display] $value)),] $($($rest)*)?)
    };
    ($pairs:tt $name:tt $($rest:tt)+) => {
        $crate::inner_entry!($pairs $name [] $($rest)+)
    };
}

/// Goes through the traits of an entry. Those so far stand in brackets, behind its name.
#[doc(hidden)]
#[macro_export]
macro_rules! inner_entry {
    ($pairs:tt $name:tt [$($slot:tt)*] :: $($rest:tt)*) => {
        $crate::inner_entry!($pairs $name [$($slot)* display] : $($rest)*)
    };
    ($pairs:tt $name:tt [$($slot:tt)*] : : $($rest:tt)*) => {
        $crate::inner_entry!($pairs $name [$($slot)* display] : $($rest)*)
    };
    ($pairs:tt $name:tt [$($slot:tt)*] : = $($rest:tt)*) => {
        $crate::inner_entry!($pairs $name [$($slot)* display] = $($rest)*)
    };
    ($pairs:tt $name:tt [$($slot:tt)*] : $(, $($rest:tt)*)?) => {
        $crate::inner_entry!($pairs $name [$($slot)* display] $(, $($rest)*)?)
    };
    ($pairs:tt $name:tt [$($slot:tt)*] : ? $($rest:tt)*) => {
        $crate::inner_entry!($pairs $name [$($slot)* ?] $($rest)*)
    };
    ($pairs:tt $name:tt [$($slot:tt)*] : $more:ident $($rest:tt)*) => {
        $crate::inner_entry!($pairs $name [$($slot)* $more] $($rest)*)
    };
    ([$($pair:tt)*] $name:tt $slots:tt = $value:expr $(, $($rest:tt)*)?) => {
        $crate::inner_context!([$($pair)*
            ($crate::inner_name!($name), $crate::inner_value!($slots $value)),] $($($rest)*)?)
    };
    ([$($pair:tt)*] $name:ident $slots:tt $(, $($rest:tt)*)?) => {
        $crate::inner_context!([$($pair)*
            (::std::stringify!($name), $crate::inner_value!($slots $name)),] $($($rest)*)?)
    };
}

#[doc(hidden)]
#[macro_export]
macro_rules! inner_name {
    ($name:ident) => {
        ::std::stringify!($name)
    };
    ($name:literal) => {
        $name
    };
}

/// A list with traits, up to a `;`, or else of values alone. All of its tokens stand in brackets first.
#[doc(hidden)]
#[macro_export]
macro_rules! either_list {
    ([$($tokens:tt)*] $($one:ident),* $(: $($two:ident)? $(?)? $(, $three:ident)*)*
        $(:: $($four:ident)? $(?)? $(, $five:ident)*
            $(: $($six:ident)? $(?)? $(, $seven:ident)*)*)* ; $($values:tt)*) => {
        $crate::inner_list!([] $($tokens)*)
    };
    ($tokens:tt $($value:expr),* $(,)?) => {
        $crate::hidden::list([$($crate::inner_value!([display] $value)),*])
    };
}

/// Goes through the traits of a list. Those so far stand in brackets.
#[doc(hidden)]
#[macro_export]
macro_rules! inner_list {
    ([] $($slot:ident),+ : $($rest:tt)*) => {
        $crate::inner_list!([$($slot)+] : $($rest)*)
    };
    ([] $($slot:ident),+ :: $($rest:tt)*) => {
        $crate::inner_list!([$($slot)+] :: $($rest)*)
    };
    ([] $($slot:ident),+ ; $($values:tt)*) => {
        $crate::inner_list!([$($slot)+] ; $($values)*)
    };
    ([$($slot:tt)*] :: $($rest:tt)*) => {
        $crate::inner_list!([$($slot)* display] : $($rest)*)
    };
    ([$($slot:tt)*] : : $($rest:tt)*) => {
        $crate::inner_list!([$($slot)* display] : $($rest)*)
    };
    ([$($slot:tt)*] : ; $($values:tt)*) => {
        $crate::inner_list!([$($slot)* display] ; $($values)*)
    };
    ([$($slot:tt)*] : ? $($rest:tt)*) => {
        $crate::inner_list!([$($slot)* ?] $($rest)*)
    };
    ([$($slot:tt)*] : $more:ident $($rest:tt)*) => {
        $crate::inner_list!([$($slot)* $more] $($rest)*)
    };
    ([$($slot:tt)+] , $more:ident $($rest:tt)*) => {
        $crate::inner_list!([$($slot)+ $more] $($rest)*)
    };
    ([] ; $($values:tt)*) => {
        $crate::inner_list!([display] ; $($values)*)
    };
    ($slots:tt ; $($value:expr),* $(,)?) => {
        $crate::hidden::list([$($crate::inner_value!($slots $value)),*])
    };
}

/// A value in the slots of these names.
#[doc(hidden)]
#[macro_export]
macro_rules! inner_value {
    ([$($slot:tt)+] $value:expr) => {
        match &$value {
            value => $crate::inner_slots!(value $crate::Formattable::default(), $($slot)+),
        }
    };
}

/// Fills the slots of the names one after the other. A name that is no trait's is that of a method
/// that sets slots.
#[doc(hidden)]
#[macro_export]
macro_rules! inner_slots {
    ($value:ident $made:expr,) => { $made };
    ($value:ident $made:expr, display $($rest:tt)*) => {
        $crate::inner_slots!($value $made.and_display($value), $($rest)*)
    };
    ($value:ident $made:expr, debug $($rest:tt)*) => {
        $crate::inner_slots!($value $made.and_debug($value), $($rest)*)
    };
    ($value:ident $made:expr, ? $($rest:tt)*) => {
        $crate::inner_slots!($value $made.and_debug($value), $($rest)*)
    };
    ($value:ident $made:expr, debug_display $($rest:tt)*) => {
        $crate::inner_slots!($value $made.and_debug_display($value), $($rest)*)
    };
    ($value:ident $made:expr, integer $($rest:tt)*) => {
        $crate::inner_slots!($value $made.and_integer($value), $($rest)*)
    };
    ($value:ident $made:expr, float $($rest:tt)*) => {
        $crate::inner_slots!($value $made.and_float($value), $($rest)*)
    };
    ($value:ident $made:expr, binary $($rest:tt)*) => {
        $crate::inner_slots!($value $made.and_binary($value), $($rest)*)
    };
    ($value:ident $made:expr, b $($rest:tt)*) => {
        $crate::inner_slots!($value $made.and_binary($value), $($rest)*)
    };
    ($value:ident $made:expr, octal $($rest:tt)*) => {
        $crate::inner_slots!($value $made.and_octal($value), $($rest)*)
    };
    ($value:ident $made:expr, o $($rest:tt)*) => {
        $crate::inner_slots!($value $made.and_octal($value), $($rest)*)
    };
    ($value:ident $made:expr, lower_hex $($rest:tt)*) => {
        $crate::inner_slots!($value $made.and_lower_hex($value), $($rest)*)
    };
    ($value:ident $made:expr, x $($rest:tt)*) => {
        $crate::inner_slots!($value $made.and_lower_hex($value), $($rest)*)
    };
    ($value:ident $made:expr, upper_hex $($rest:tt)*) => {
        $crate::inner_slots!($value $made.and_upper_hex($value), $($rest)*)
    };
    ($value:ident $made:expr, X $($rest:tt)*) => {
        $crate::inner_slots!($value $made.and_upper_hex($value), $($rest)*)
    };
    ($value:ident $made:expr, lower_exp $($rest:tt)*) => {
        $crate::inner_slots!($value $made.and_lower_exp($value), $($rest)*)
    };
    ($value:ident $made:expr, e $($rest:tt)*) => {
        $crate::inner_slots!($value $made.and_lower_exp($value), $($rest)*)
    };
    ($value:ident $made:expr, upper_exp $($rest:tt)*) => {
        $crate::inner_slots!($value $made.and_upper_exp($value), $($rest)*)
    };
    ($value:ident $made:expr, E $($rest:tt)*) => {
        $crate::inner_slots!($value $made.and_upper_exp($value), $($rest)*)
    };
    ($value:ident $made:expr, pointer $($rest:tt)*) => {
        $crate::inner_slots!($value $made.and_pointer($value), $($rest)*)
    };
    ($value:ident $made:expr, p $($rest:tt)*) => {
        $crate::inner_slots!($value $made.and_pointer($value), $($rest)*)
    };
    ($value:ident $made:expr, iter $($rest:tt)*) => {
        $crate::inner_slots!($value $made.and_iter($value), $($rest)*)
    };
    ($value:ident $made:expr, i $($rest:tt)*) => {
        $crate::inner_slots!($value $made.and_iter($value), $($rest)*)
    };
    ($value:ident $made:expr, $set:ident $($rest:tt)*) => {
        $crate::inner_slots!($value {
            let mut made = $made;
            made.$set($value);
            made
        }, $($rest)*)
    };
}
