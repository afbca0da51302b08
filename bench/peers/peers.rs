//! Texts of `crates/interpolator_bench` by Rust's `write!` and `format!`, and as one writes them by
//! hand. `peers WORKLOAD COUNT` makes one so often, and prints its length and checksum; without a
//! word it prints the names of all. `count.sh` builds this, and says how.
use std::fmt::Write;
use std::hint::black_box;

include!("out/documents.rs");
include!("values.rs");

type Make = fn(&mut String);

#[rustfmt::skip]
const WORKLOADS: [(&str, Make); 75] = [
    ("write-log-line", write_log_line),
    ("write-names-32-numbers", write_numbers),
    ("write-names-32-signed", write_signed),
    ("write-names-32-negative", write_negative),
    ("write-names-18-texts", write_texts),
    ("write-letter-4k", write_letter),
    ("write-json", write_json),
    ("write-table-row", write_row),
    ("write-amounts", write_amounts),
    ("write-floats", write_floats),
    ("write-floats-whole", write_whole_floats),
    ("write-floats-coordinates", write_coordinates),
    ("write-floats-far", write_far_floats),
    ("write-floats-far-17", write_long_floats),
    ("write-floats-any-17", write_any_floats),
    ("write-specs", write_specs),
    ("write-radix", write_radix),
    ("write-exponents", write_exponents),
    ("write-padded-texts", write_padded),
    ("write-starred-texts", write_starred),
    ("write-accented-texts", write_accented),
    ("write-wide", write_wide),
    ("write-wide-accents", write_wide_accents),
    ("write-long-digits", write_long_digits),
    ("write-long-decimals", write_long_decimals),
    ("write-list-1000", write_list),
    ("write-list-1000-angled", write_angled_list),
    ("write-merge-10000-pairs", write_merge),
    ("format-log-line", format_log_line),
    ("format-names-32-numbers", format_numbers),
    ("format-names-32-signed", format_signed),
    ("format-names-32-negative", format_negative),
    ("format-names-18-texts", format_texts),
    ("format-letter-4k", format_letter),
    ("format-json", format_json),
    ("format-table-row", format_row),
    ("format-amounts", format_amounts),
    ("format-floats", format_floats),
    ("format-floats-whole", format_whole_floats),
    ("format-floats-coordinates", format_coordinates),
    ("format-floats-far", format_far_floats),
    ("format-floats-far-17", format_long_floats),
    ("format-floats-any-17", format_any_floats),
    ("format-specs", format_specs),
    ("format-radix", format_radix),
    ("format-exponents", format_exponents),
    ("format-padded-texts", format_padded),
    ("format-starred-texts", format_starred),
    ("format-accented-texts", format_accented),
    ("format-wide", format_wide),
    ("format-wide-accents", format_wide_accents),
    ("format-list-1000", format_list),
    ("format-list-1000-angled", format_angled_list),
    ("hand-log-line", hand_log_line),
    ("hand-names-32-numbers", hand_numbers),
    ("hand-names-32-signed", hand_signed),
    ("hand-names-32-negative", hand_negative),
    ("hand-names-18-texts", hand_texts),
    ("hand-letter-4k", hand_letter),
    ("hand-json", hand_json),
    ("hand-table-row", hand_row),
    ("hand-amounts", hand_amounts),
    ("hand-specs", hand_specs),
    ("hand-radix", hand_radix),
    ("hand-exponents", hand_exponents),
    ("hand-padded-texts", hand_padded),
    ("hand-starred-texts", hand_starred),
    ("hand-accented-texts", hand_accented),
    ("hand-wide", hand_wide),
    ("hand-wide-accents", hand_wide_accents),
    ("hand-long-digits", hand_long_digits),
    ("hand-long-decimals", hand_long_decimals),
    ("hand-list-1000", hand_list),
    ("hand-list-1000-angled", hand_angled_list),
    ("hand-merge-10000-pairs", hand_merge),
];

fn main() {
    let words: Vec<String> = std::env::args().skip(1).collect();
    let [name, count] = &words[..] else {
        return WORKLOADS.iter().for_each(|(name, _)| println!("{name}"));
    };
    let (_, make) = WORKLOADS
        .iter()
        .find(|(known, _)| known == name)
        .expect("no such workload");
    let count: u32 = count.parse().expect("COUNT is a number");
    let mut text = String::new();
    for _ in 0..count {
        text.clear();
        make(&mut text);
    }
    println!(
        "{name}: {} bytes, checksum {:016x}",
        text.len(),
        checksum_of(&text)
    );
}

/// The FNV-1a hash of the text's bytes, of 64 bits.
fn checksum_of(text: &str) -> u64 {
    text.bytes().fold(0xcbf2_9ce4_8422_2325, |sum, byte| {
        (sum ^ u64::from(byte)).wrapping_mul(0x100_0000_01b3)
    })
}

// ---- By `write!` into a text that keeps its room, and by `format!` into a new one.

macro_rules! by_std {
    ($write:ident, $format:ident, $v:ident = $values:expr, $($rest:tt)*) => {
        fn $write(out: &mut String) {
            let $v = black_box(&$values);
            write!(out, $($rest)*).expect("a String takes every text");
        }

        fn $format(out: &mut String) {
            let $v = black_box(&$values);
            *out = format!($($rest)*);
        }
    };
}

by_std! {
    write_log_line, format_log_line, v = LOG,
    "{time} {level} [{module}] {message} (line {line})",
    time = v.time, level = v.level, module = v.module, message = v.message, line = v.line
}

macro_rules! numbers_by_std {
    ($write:ident, $format:ident, $numbers:ident) => {
        by_std! {
            $write, $format, v = $numbers,
            concat!(
                "{} {} {} {} {} {} {} {} {} {} {} {} {} {} {} {} ",
                "{} {} {} {} {} {} {} {} {} {} {} {} {} {} {} {} "
            ),
            v[0], v[1], v[2], v[3], v[4], v[5], v[6], v[7], v[8], v[9], v[10], v[11], v[12],
            v[13], v[14], v[15], v[16], v[17], v[18], v[19], v[20], v[21], v[22], v[23], v[24],
            v[25], v[26], v[27], v[28], v[29], v[30], v[31]
        }
    };
}

numbers_by_std!(write_numbers, format_numbers, NUMBERS);
numbers_by_std!(write_signed, format_signed, SIGNED_NUMBERS);
numbers_by_std!(write_negative, format_negative, NEGATIVE_NUMBERS);

by_std! {
    write_texts, format_texts, v = TEXTS,
    "{} {} {} {} {} {} {} {} {} {} {} {} {} {} {} {} {} {} ",
    v[0], v[1], v[2], v[3], v[4], v[5], v[6], v[7], v[8], v[9], v[10], v[11], v[12], v[13], v[14],
    v[15], v[16], v[17]
}

by_std! {
    write_json, format_json, v = ORDER, json!(),
    order = v.order, placed = v.placed, name = v.name, mail = v.mail, street = v.street,
    city = v.city, points = v.points, goods = v.goods, count = v.count, amount = v.amount,
    currency = v.currency, until = v.until
}

by_std! {
    write_letter, format_letter, v = LETTER, letter!(),
    order = v.order, company = v.company, shop = v.shop, street = v.street, postcode = v.postcode,
    city = v.city, country = v.country, date = v.date, title = v.title, name = v.name,
    goods = v.goods, count = v.count, amount = v.amount, closing = v.closing, sender = v.sender
}

by_std! {
    write_row, format_row, v = ROW,
    "{id:>6}|{goods:<16}|{city:^12}|{count:5}|{price:>10}|{change:>+8}|{code:#010x}|{name:20}\n",
    id = v.id, goods = v.goods, city = v.city, count = v.count, price = v.price, change = v.change,
    code = v.code, name = v.name
}

by_std! {
    write_amounts, format_amounts, v = AMOUNTS,
    "net {net:>10.2} tax {tax:>10.2} paid {paid:>10.2} open {open:>10.2}",
    net = v[0], tax = v[1], paid = v[2], open = v[3]
}

by_std! {
    write_floats, format_floats, v = FLOATS,
    "{north} {east} {step} {height}",
    north = v[0], east = v[1], step = v[2], height = v[3]
}

by_std! {
    write_whole_floats, format_whole_floats, v = WHOLE_FLOATS,
    "{north} {east} {step} {height}",
    north = v[0], east = v[1], step = v[2], height = v[3]
}

by_std! {
    write_coordinates, format_coordinates, v = COORDINATES,
    "{north} {east} {step} {height}",
    north = v[0], east = v[1], step = v[2], height = v[3]
}

by_std! {
    write_far_floats, format_far_floats, v = FAR_FLOATS,
    "{north:e} {east:e} {step:e} {height:e}",
    north = v[0], east = v[1], step = v[2], height = v[3]
}

by_std! {
    write_long_floats, format_long_floats, v = FAR_FLOATS,
    "{north:.17e} {east:.17e} {step:.17e} {height:.17e}",
    north = v[0], east = v[1], step = v[2], height = v[3]
}

by_std! {
    write_any_floats, format_any_floats, v = ANY_FLOATS,
    "{north:.17} {east:.17} {step:.17} {height:.17}",
    north = v[0], east = v[1], step = v[2], height = v[3]
}

/// A format of each name under each spec, with a space after each.
macro_rules! under {
    ($specs:tt $($name:literal)*) => { concat!($(under!(@ $name $specs)),*) };
    (@ $name:literal [$($spec:literal)*]) => { concat!($("{", $name, $spec, "} "),*) };
}

by_std! {
    write_specs, format_specs, v = SIGNED,
    under!(["" ":+" ":6" ":06" ":+08" ":<8" ":^9" ":>+12"] 0 1 2 3), v[0], v[1], v[2], v[3]
}

by_std! {
    write_radix, format_radix, v = BITS,
    under!([":b" ":o" ":x" ":X" ":#b" ":#o" ":#010x" ":8X"] 0 1 2 3), v[0], v[1], v[2], v[3]
}

by_std! {
    write_exponents, format_exponents, v = POWERS,
    under!([":e" ":E" ":.2e" ":+12.3E"] 0 1 2 3), v[0], v[1], v[2], v[3]
}

by_std! {
    write_padded, format_padded, v = WORDS,
    under!([":12" ":>16" ":^10.4"] 0 1 2 3 4 5), v[0], v[1], v[2], v[3], v[4], v[5]
}

by_std! {
    write_starred, format_starred, v = WORDS,
    under!([":*<12" ":*>16" ":*^10.4"] 0 1 2 3 4 5), v[0], v[1], v[2], v[3], v[4], v[5]
}

by_std! {
    write_accented, format_accented, v = WORDS,
    under!([":é<12" ":é>16" ":é^10.4"] 0 1 2 3 4 5), v[0], v[1], v[2], v[3], v[4], v[5]
}

by_std! {
    write_wide, format_wide, v = WIDE,
    under!([":1000" ":<1000" ":^1000" ":>1000" ":01000"] 0 1), v.0, v.1
}

by_std! {
    write_wide_accents, format_wide_accents, v = WIDE,
    under!([":é<1000" ":é^1000" ":é>1000"] 0 1), v.0, v.1
}

fn write_long_digits(out: &mut String) {
    for number in black_box(&LONG) {
        write!(out, "{number}").expect("a String takes every text");
    }
}

fn write_long_decimals(out: &mut String) {
    for number in black_box(&LONG) {
        write!(out, "{}.{:02}", number / 100, number % 100).expect("a String takes every text");
    }
}

fn write_list(out: &mut String) {
    for (place, number) in black_box(&THOUSAND).iter().enumerate() {
        if place > 0 {
            out.push_str(", ");
        }
        write!(out, "{number}").expect("a String takes every text");
    }
}

fn format_list(out: &mut String) {
    *out = String::new();
    write_list(out);
}

fn write_angled_list(out: &mut String) {
    for number in black_box(&THOUSAND) {
        write!(out, "<{number}>").expect("a String takes every text");
    }
}

fn format_angled_list(out: &mut String) {
    *out = String::new();
    write_angled_list(out);
}

fn write_merge(out: &mut String) {
    for order in 0..10_000 {
        let Record {
            name,
            city,
            goods,
            count,
            order,
        } = record_of(order);
        writeln!(
            out,
            "Dear {name} of {city}, your {count} {goods} are order {order}."
        )
        .expect("a String takes every text");
    }
}

// ---- By hand.

/// Appends the plain texts of values, one after the other.
macro_rules! put {
    ($out:ident, $($value:expr),*) => { $(($value).put($out);)* };
}

/// Appends a document: its first text, then a value and a text, again and again.
#[rustfmt::skip]
macro_rules! put_pieces {
    ($out:ident $v:ident;
        text($($first:literal)*) $(value($name:ident) text($($piece:literal)*))*) => {
        $out.push_str(concat!($($first),*));
        $(put!($out, $v.$name, concat!($($piece),*));)*
    };
}

trait Put: Copy {
    fn put(self, out: &mut String);
}

impl Put for &str {
    fn put(self, out: &mut String) {
        out.push_str(self);
    }
}

impl Put for u64 {
    fn put(self, out: &mut String) {
        let len = digits_in(self);
        let bytes = bytes_of(out);
        bytes.reserve(20);
        // The digits are written from the last to the first, into room that was just reserved.
        unsafe {
            let mut end = bytes.as_mut_ptr().add(bytes.len() + len);
            let mut rest = self;
            while rest >= 100 {
                end = end.sub(2);
                end.cast::<[u8; 2]>().write(PAIRS[(rest % 100) as usize]);
                rest /= 100;
            }
            if rest >= 10 {
                end.sub(2).cast::<[u8; 2]>().write(PAIRS[rest as usize]);
            } else {
                end.sub(1).write(b'0' + rest as u8);
            }
            bytes.set_len(bytes.len() + len);
        }
    }
}

impl Put for u32 {
    fn put(self, out: &mut String) {
        u64::from(self).put(out);
    }
}

impl Put for i64 {
    fn put(self, out: &mut String) {
        if self < 0 {
            out.push('-');
        }
        self.unsigned_abs().put(out);
    }
}

/// The bytes of a text. Only whole characters are appended to them.
fn bytes_of(out: &mut String) -> &mut Vec<u8> {
    unsafe { out.as_mut_vec() }
}

/// How many digits a number has.
fn digits_in(mut number: u64) -> usize {
    let mut count = 1;
    loop {
        match number {
            0..=9 => return count,
            10..=99 => return count + 1,
            100..=999 => return count + 2,
            1_000..=9_999 => return count + 3,
            _ => {
                number /= 10_000;
                count += 4;
            }
        }
    }
}

/// The two digits of each number below 100.
static PAIRS: [[u8; 2]; 100] = {
    let mut pairs = [[0; 2]; 100];
    let mut next = 0;
    while next < 100 {
        pairs[next] = [b'0' + next as u8 / 10, b'0' + next as u8 % 10];
        next += 1;
    }
    pairs
};

static POWERS_OF_TEN: [u64; 20] = {
    let mut powers = [1; 20];
    let mut next = 1;
    while next < 20 {
        powers[next] = 10 * powers[next - 1];
        next += 1;
    }
    powers
};

/// The digits of a number, at the end of a place that has room for any in base two, after spaces.
#[derive(Clone, Copy)]
struct Digits {
    room: [u8; 64],
    start: usize,
}

impl Digits {
    fn of(mut number: u64) -> Digits {
        let mut digits = Digits {
            room: [b' '; 64],
            start: 64,
        };
        while number >= 100 {
            digits.push_pair(number % 100);
            number /= 100;
        }
        if number >= 10 {
            digits.push_pair(number);
        } else {
            digits.push(b'0' + number as u8);
        }
        digits
    }

    fn in_bits(mut number: u64, bits: u32, letters: &[u8; 16]) -> Digits {
        let mut digits = Digits {
            room: [b' '; 64],
            start: 64,
        };
        loop {
            digits.push(letters[number as usize & ((1 << bits) - 1)]);
            number >>= bits;
            if number == 0 {
                return digits;
            }
        }
    }

    fn push(&mut self, digit: u8) {
        self.start -= 1;
        self.room[self.start] = digit;
    }

    fn push_pair(&mut self, pair: u64) {
        self.start -= 2;
        self.room[self.start..self.start + 2].copy_from_slice(&PAIRS[pair as usize]);
    }

    fn text(&self) -> &str {
        self.right(0)
    }

    /// The text at the right of a width of at most 64, after spaces.
    #[inline(always)]
    fn right(&self, width: usize) -> &str {
        // Sound, since only ASCII digits, letters and signs are pushed.
        unsafe { std::str::from_utf8_unchecked(&self.room[self.start.min(64 - width)..]) }
    }

    /// The same with this sign before it.
    fn signed(mut self, sign: &str) -> Digits {
        sign.bytes().for_each(|byte| self.push(byte));
        self
    }
}

/// Appends so many fills.
#[inline(always)]
fn fill(out: &mut String, fill: &str, count: usize) {
    match fill.as_bytes() {
        [byte] => {
            let bytes = bytes_of(out);
            bytes.resize(bytes.len() + count, *byte);
        }
        _ if count <= 16 => (0..count).for_each(|_| out.push_str(fill)),
        copy => put_copies(bytes_of(out), copy, count),
    }
}

/// Appends so many copies, at least one, of which each time as many as there are already.
fn put_copies(bytes: &mut Vec<u8>, copy: &[u8], count: usize) {
    let start = bytes.len();
    let end = start + count * copy.len();
    bytes.extend_from_slice(copy);
    while bytes.len() < end {
        let more = (bytes.len() - start).min(end - bytes.len());
        bytes.extend_from_within(start..start + more);
    }
}

/// How many characters a text has.
fn chars_of(text: &str) -> usize {
    text.bytes().filter(|byte| byte & 0xc0 != 0x80).count()
}

/// The text up to so many characters.
fn cut(text: &str, count: usize) -> &str {
    match text.char_indices().nth(count) {
        Some((end, _)) => &text[..end],
        None => text,
    }
}

fn put_left(out: &mut String, text: &str, fills: &str, width: usize) {
    out.push_str(text);
    fill(out, fills, width.saturating_sub(chars_of(text)));
}

fn put_right(out: &mut String, text: &str, fills: &str, width: usize) {
    fill(out, fills, width.saturating_sub(chars_of(text)));
    out.push_str(text);
}

fn put_centred(out: &mut String, text: &str, fills: &str, width: usize) {
    let free = width.saturating_sub(chars_of(text));
    fill(out, fills, free / 2);
    out.push_str(text);
    fill(out, fills, free - free / 2);
}

/// Appends a sign, zeros and digits, which are as long as a width together.
fn put_zeros(out: &mut String, sign: &str, digits: &str, width: usize) {
    out.push_str(sign);
    fill(out, "0", width.saturating_sub(sign.len() + digits.len()));
    out.push_str(digits);
}

fn hand_log_line(out: &mut String) {
    let v = black_box(&LOG);
    put!(out, v.time, " ", v.level, " [", v.module, "] ", v.message, " (line ", v.line, ")");
}

fn hand_numbers(out: &mut String) {
    for number in black_box(&NUMBERS) {
        put!(out, *number, " ");
    }
}

fn hand_signed(out: &mut String) {
    for number in black_box(&SIGNED_NUMBERS) {
        put!(out, *number, " ");
    }
}

fn hand_negative(out: &mut String) {
    for number in black_box(&NEGATIVE_NUMBERS) {
        put!(out, *number, " ");
    }
}

fn hand_texts(out: &mut String) {
    for text in black_box(&TEXTS) {
        put!(out, *text, " ");
    }
}

fn hand_json(out: &mut String) {
    let v = black_box(&ORDER);
    json_pieces!(put_pieces out v);
}

fn hand_letter(out: &mut String) {
    let v = black_box(&LETTER);
    letter_pieces!(put_pieces out v);
}

fn hand_row(out: &mut String) {
    let v = black_box(&ROW);
    put!(out, Digits::of(v.id).right(6));
    put!(out, "|");
    put_left(out, v.goods, " ", 16);
    put!(out, "|");
    put_centred(out, v.city, " ", 12);
    put!(out, "|");
    put!(out, Digits::of(v.count).right(5));
    put!(out, "|");
    put_right(out, v.price, " ", 10);
    put!(out, "|");
    let sign = if v.change < 0 { "-" } else { "+" };
    put!(
        out,
        Digits::of(v.change.unsigned_abs()).signed(sign).right(8)
    );
    put!(out, "|");
    put_zeros(
        out,
        "0x",
        Digits::in_bits(v.code, 4, b"0123456789abcdef").text(),
        10,
    );
    put!(out, "|");
    put_left(out, v.name, " ", 20);
    put!(out, "\n");
}

fn hand_amounts(out: &mut String) {
    let v = black_box(&UNITS);
    put!(out, "net ");
    put_amount(out, v[0], 10);
    put!(out, " tax ");
    put_amount(out, v[1], 10);
    put!(out, " paid ");
    put_amount(out, v[2], 10);
    put!(out, " open ");
    put_amount(out, v[3], 10);
}

/// Appends an amount with two digits after the point, at the right of a width.
fn put_amount(out: &mut String, (units, scale): (i64, usize), width: usize) {
    let cents = match scale {
        2 => units.unsigned_abs(),
        _ => rounded(units.unsigned_abs(), POWERS_OF_TEN[scale - 2]),
    };
    let sign = if units < 0 { "-" } else { "" };
    let whole = cents / 100;
    fill(
        out,
        " ",
        width.saturating_sub(sign.len() + digits_in(whole) + 3),
    );
    put!(out, sign, whole, ".");
    bytes_of(out).extend_from_slice(&PAIRS[(cents % 100) as usize]);
}

fn hand_specs(out: &mut String) {
    for number in black_box(&SIGNED) {
        let (minus, sign) = if *number < 0 { ("-", "-") } else { ("", "+") };
        let digits = Digits::of(number.unsigned_abs());
        let plain = digits.signed(minus);
        let signed = digits.signed(sign);
        put!(
            out,
            plain.text(),
            " ",
            signed.text(),
            " ",
            plain.right(6),
            " "
        );
        put_zeros(out, minus, digits.text(), 6);
        put!(out, " ");
        put_zeros(out, sign, digits.text(), 8);
        put!(out, " ", plain.text());
        fill(out, " ", 8usize.saturating_sub(plain.text().len()));
        let free = 9usize.saturating_sub(plain.text().len());
        put!(out, " ");
        fill(out, " ", free / 2);
        put!(out, plain.text());
        fill(out, " ", free - free / 2);
        put!(out, " ", signed.right(12), " ");
    }
}

fn hand_radix(out: &mut String) {
    const LOWER: &[u8; 16] = b"0123456789abcdef";
    const UPPER: &[u8; 16] = b"0123456789ABCDEF";
    for number in black_box(&BITS) {
        let number = u64::from(*number);
        let binary = Digits::in_bits(number, 1, LOWER);
        let octal = Digits::in_bits(number, 3, LOWER);
        let lower = Digits::in_bits(number, 4, LOWER);
        let upper = Digits::in_bits(number, 4, UPPER);
        put!(
            out,
            binary.text(),
            " ",
            octal.text(),
            " ",
            lower.text(),
            " ",
            upper.text()
        );
        put!(out, " 0b", binary.text(), " 0o", octal.text(), " ");
        put_zeros(out, "0x", lower.text(), 10);
        put!(out, " ");
        put!(out, upper.right(8), " ");
    }
}

fn hand_exponents(out: &mut String) {
    for number in black_box(&POWERS) {
        put_exponent(out, *number, "e");
        put!(out, " ");
        put_exponent(out, *number, "E");
        put!(out, " ");
        put_scientific(out, *number, 2, "", "e", 0);
        put!(out, " ");
        put_scientific(out, *number, 3, "+", "E", 12);
        put!(out, " ");
    }
}

/// Appends a number with one digit before the point, and after it those up to the last but zeros.
fn put_exponent(out: &mut String, number: u64, letter: &str) {
    let exponent = digits_in(number) as u64 - 1;
    let mut kept = number;
    while kept >= 10 && kept % 10 == 0 {
        kept /= 10;
    }
    let digits = Digits::of(kept);
    let (first, rest) = digits.text().split_at(1);
    put!(out, first);
    if !rest.is_empty() {
        put!(out, ".", rest);
    }
    put!(out, letter, exponent);
}

/// Appends a number with one digit before the point and so many after it, rounded, a half to even.
fn put_scientific(
    out: &mut String,
    number: u64,
    places: usize,
    sign: &str,
    letter: &str,
    width: usize,
) {
    let mut exponent = digits_in(number) - 1;
    let mut kept = number;
    if exponent > places {
        kept = rounded(number, POWERS_OF_TEN[exponent - places]);
        if kept == POWERS_OF_TEN[places + 1] {
            kept /= 10;
            exponent += 1;
        }
    } else {
        kept *= POWERS_OF_TEN[places - exponent];
    }
    let len = sign.len() + places + 3 + digits_in(exponent as u64);
    fill(out, " ", width.saturating_sub(len));
    let digits = Digits::of(kept);
    let (first, rest) = digits.text().split_at(1);
    put!(out, sign, first, ".", rest, letter, exponent as u64);
}

/// A number divided by another that is even, rounded to the nearest, a half to even.
fn rounded(number: u64, divisor: u64) -> u64 {
    let (whole, rest) = (number / divisor, number % divisor);
    let half = divisor / 2;
    whole + u64::from(rest > half || (rest == half && whole % 2 == 1))
}

fn hand_padded(out: &mut String) {
    put_words(out, " ");
}

fn hand_starred(out: &mut String) {
    put_words(out, "*");
}

fn hand_accented(out: &mut String) {
    put_words(out, "é");
}

fn put_words(out: &mut String, fills: &str) {
    for text in black_box(&WORDS) {
        put_left(out, text, fills, 12);
        put!(out, " ");
        put_right(out, text, fills, 16);
        put!(out, " ");
        put_centred(out, cut(text, 4), fills, 10);
        put!(out, " ");
    }
}

fn hand_wide(out: &mut String) {
    let (text, number) = black_box(&WIDE);
    put_left(out, text, " ", 1000);
    put!(out, " ");
    put_left(out, text, " ", 1000);
    put!(out, " ");
    put_centred(out, text, " ", 1000);
    put!(out, " ");
    put_right(out, text, " ", 1000);
    put!(out, " ");
    put_left(out, text, " ", 1000);
    let digits = Digits::of(u64::from(*number));
    put!(out, " ");
    put_right(out, digits.text(), " ", 1000);
    put!(out, " ");
    put_left(out, digits.text(), " ", 1000);
    put!(out, " ");
    put_centred(out, digits.text(), " ", 1000);
    put!(out, " ");
    put_right(out, digits.text(), " ", 1000);
    put!(out, " ");
    put_right(out, digits.text(), "0", 1000);
    put!(out, " ");
}

fn hand_wide_accents(out: &mut String) {
    let (text, number) = black_box(&WIDE);
    let digits = Digits::of(u64::from(*number));
    for text in [text, digits.text()] {
        put_left(out, text, "é", 1000);
        put!(out, " ");
        put_centred(out, text, "é", 1000);
        put!(out, " ");
        put_right(out, text, "é", 1000);
        put!(out, " ");
    }
}

fn hand_long_digits(out: &mut String) {
    for number in black_box(&LONG) {
        put!(out, *number);
    }
}

fn hand_long_decimals(out: &mut String) {
    for number in black_box(&LONG) {
        put!(out, number / 100, ".");
        bytes_of(out).extend_from_slice(&PAIRS[(number % 100) as usize]);
    }
}

fn hand_list(out: &mut String) {
    for (place, number) in black_box(&THOUSAND).iter().enumerate() {
        if place > 0 {
            put!(out, ", ");
        }
        put!(out, *number);
    }
}

fn hand_angled_list(out: &mut String) {
    for number in black_box(&THOUSAND) {
        put!(out, "<", *number, ">");
    }
}

fn hand_merge(out: &mut String) {
    for order in 0..10_000 {
        let v = record_of(order);
        put!(
            out,
            "Dear ",
            v.name,
            " of ",
            v.city,
            ", your ",
            v.count,
            " ",
            v.goods,
            " are order "
        );
        put!(out, v.order, ".\n");
    }
}
