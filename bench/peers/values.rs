// The values of the texts. They stand ready in memory, and `black_box` hides them from the compiler.

struct Log {
    time: &'static str,
    level: &'static str,
    module: &'static str,
    message: &'static str,
    line: u64,
}

static LOG: Log = Log {
    time: "2024-05-17T12:34:56Z",
    level: "INFO",
    module: "store::index",
    message: "rebuilt the index of all orders",
    line: 217,
};

static NUMBERS: [u32; 32] = [
    0, 1, 2, 3, 5, 8, 13, 21, 34, 55, 89, 144, 233, 377, 610, 987, 4, 6, 9, 10, 12, 14, 15, 16, 18,
    20, 22, 24, 25, 26, 27, 28,
];

/// The same numbers in a signed type, and numbers below zero.
static SIGNED_NUMBERS: [i64; 32] = [
    0, 1, 2, 3, 5, 8, 13, 21, 34, 55, 89, 144, 233, 377, 610, 987, 4, 6, 9, 10, 12, 14, 15, 16, 18,
    20, 22, 24, 25, 26, 27, 28,
];
static NEGATIVE_NUMBERS: [i64; 32] = [
    -7, -1, -2, -3, -5, -8, -13, -21, -34, -55, -89, -144, -233, -377, -610, -987, -4, -6, -9, -10,
    -12, -14, -15, -16, -18, -20, -22, -24, -25, -26, -27, -28,
];

#[rustfmt::skip]
static TEXTS: [&str; 18] = [
    "Ann Svensson", "Dr", "Long Street 12", "Oslo", "Norway", "555-0199", "ann@example.org", "Acme",
    "baker", "bread", "Dear", "Yours", "Bob", "North", "B4", "2024-05-17", "Bergen", "onwards",
];

struct Order {
    order: u64,
    placed: &'static str,
    name: &'static str,
    mail: &'static str,
    street: &'static str,
    city: &'static str,
    points: u64,
    goods: &'static str,
    count: u64,
    amount: &'static str,
    currency: &'static str,
    until: &'static str,
}

static ORDER: Order = Order {
    order: 48213,
    placed: "2024-05-17",
    name: "Ann Svensson",
    mail: "ann@example.org",
    street: "Long Street 12",
    city: "Oslo",
    points: 1250,
    goods: "rye with caraway",
    count: 3,
    amount: "147.50",
    currency: "NOK",
    until: "2024-05-31",
};

struct Letter {
    order: u64,
    company: &'static str,
    shop: &'static str,
    street: &'static str,
    postcode: u64,
    city: &'static str,
    country: &'static str,
    date: &'static str,
    title: &'static str,
    name: &'static str,
    goods: &'static str,
    count: u64,
    amount: &'static str,
    closing: &'static str,
    sender: &'static str,
}

static LETTER: Letter = Letter {
    order: 48213,
    company: "The Corner Bakery",
    shop: "bakery.example",
    street: "Long Street 12",
    postcode: 457,
    city: "Oslo",
    country: "Norway",
    date: "17 May 2024",
    title: "Dr",
    name: "Svensson",
    goods: "rye with caraway",
    count: 3,
    amount: "147.50",
    closing: "Yours",
    sender: "Bob Baker",
};

struct Row {
    id: u64,
    goods: &'static str,
    city: &'static str,
    count: u64,
    price: &'static str,
    change: i64,
    code: u64,
    name: &'static str,
}

static ROW: Row = Row {
    id: 48213,
    goods: "rye",
    city: "Oslo",
    count: 3,
    price: "147.50",
    change: -12,
    code: 48879,
    name: "Ann Svensson",
};

/// Net, tax, paid and open: as floats for std, and as whole numbers of cents, or of hundredths of a
/// cent, with the number of digits after the point.
static AMOUNTS: [f64; 4] = [12345.67, 2469.1340, -14000.0, 814.80];
static FLOATS: [f64; 4] = [59.9139, 10.7522, 0.1, 1234.5];
static WHOLE_FLOATS: [f64; 4] = [1500.0, 42.0, 1000000.0, 86400.0];
static COORDINATES: [f64; 4] = [59.913869, 10.752245, -33.86882, 151.20929];
static FAR_FLOATS: [f64; 4] = [
    6.398739211747873e-150,
    -2.7105054312137611e-120,
    8.345216793071533e-200,
    3.141592653589793e-101,
];
static ANY_FLOATS: [f64; 4] = [
    1.1502657903799078e224,
    -5.868472719237263e-13,
    -8.062156064994877e-84,
    1.0146145319903965e82,
];
static UNITS: [(i64, usize); 4] = [
    (1_234_567, 2),
    (24_691_340, 4),
    (-1_400_000, 2),
    (81_480, 2),
];

static SIGNED: [i64; 4] = [0, 7, -42, 12345];
static BITS: [u32; 4] = [5, 255, 4096, 48879];
static POWERS: [u64; 4] = [7, 1200, 123456, 987654321];
static WORDS: [&str; 6] = ["é", "naïve", "smörgåsbord", "日本語", "Привет", "plain"];

static WIDE: (&str, u32) = ("wide", 42);

static LONG: [u64; 10] = [
    1_234_567_890,
    98_765_432_109,
    123_456_789_012,
    9_876_543_210_987,
    12_345_678_901_234,
    987_654_321_098_765,
    1_234_567_890_123_456,
    98_765_432_109_876_543,
    123_456_789_012_345_678,
    9_876_543_210_987_654_321,
];

static THOUSAND: [u32; 1000] = {
    let mut numbers = [0; 1000];
    let mut next = 1;
    while next < 1000 {
        numbers[next] = next as u32;
        next += 1;
    }
    numbers
};

struct Record {
    name: &'static str,
    city: &'static str,
    goods: &'static str,
    count: u32,
    order: u32,
}

fn record_of(order: u32) -> Record {
    let place = order as usize;
    Record {
        name: ["Ann", "Bob", "Carla", "Dmitri", "Eve"][place % 5],
        city: ["Oslo", "Lima", "Kyoto"][place % 3],
        goods: ["loaves", "rolls", "cakes", "pies"][place % 4],
        count: order % 90 + 10,
        order,
    }
}

