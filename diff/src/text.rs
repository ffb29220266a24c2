//! Texts of each kind, drawn from a seed.

use crate::draw::Draw;

/// What is read.
#[derive(Clone, Copy, Debug, PartialEq, Eq)]
pub enum Kind {
    Date,
    DateRfc3339,
    Time,
    DateTime,
    DateTimeRfc3339,
    Duration,
}

/// The kinds, each as often as it is drawn.
pub const KINDS: [Kind; 10] = [
    Kind::Date,
    Kind::DateRfc3339,
    Kind::Time,
    Kind::Time,
    Kind::DateTime,
    Kind::DateTime,
    Kind::DateTimeRfc3339,
    Kind::Duration,
    Kind::Duration,
    Kind::Duration,
];

/// The largest size of a timestamp that is taken for seconds where the unit is inferred.
pub const LARGEST_SECOND: i64 = 20_000_000_000;
/// The second at which the year 0000 begins.
pub const FIRST_SECOND: i64 = -62_167_219_200;
/// The last second of the year 9999.
pub const LAST_SECOND: i64 = 253_402_300_799;

/// The ends of ranges of timestamps, in seconds and in milliseconds.
const TIMESTAMP_ENDS: [i64; 14] = [
    0,
    LARGEST_SECOND,
    -LARGEST_SECOND,
    FIRST_SECOND,
    LAST_SECOND,
    LAST_SECOND + 1,
    FIRST_SECOND * 1_000,
    LAST_SECOND * 1_000,
    LAST_SECOND * 1_000 + 999,
    i64::MAX,
    i64::MIN,
    1 << 53,
    4_294_967_295,
    1_654_646_404_123,
];

impl Draw {
    /// A timestamp, often near the end of a range.
    pub fn timestamp(&mut self) -> i64 {
        match self.below(4) {
            0 => self.pick(&TIMESTAMP_ENDS).saturating_add(self.within(-2..=2)),
            1 => self.within(FIRST_SECOND..=LAST_SECOND),
            2 => self.within(FIRST_SECOND * 1_000..=LAST_SECOND * 1_000),
            _ => self.within(-40_000..=40_000) * 86_400 * self.pick(&[1, 1_000]),
        }
    }

    /// A text of a kind: one that is read or nearly so, one with changed bytes, or bytes of the kind's alphabet.
    pub fn text(&mut self, kind: Kind) -> Vec<u8> {
        if self.once_in(16) {
            return self.noise(kind);
        }
        let mut text = self.whole_text(kind).into_bytes();
        while self.once_in(4) {
            self.change(&mut text);
        }
        text
    }

    fn whole_text(&mut self, kind: Kind) -> String {
        match (kind, self.below(4)) {
            (Kind::Date, 0) => self.whole_number(),
            (Kind::DateTime, 0) => self.whole_number(),
            (Kind::DateTime, 1) => self.decimal(),
            (Kind::Date | Kind::DateRfc3339, _) => self.date(),
            (Kind::Time, _) => self.time(),
            (Kind::DateTime | Kind::DateTimeRfc3339, _) => self.date_time(),
            (Kind::Duration, _) => self.duration(),
        }
    }

    fn date(&mut self) -> String {
        let year = match self.below(4) {
            0 => self.pick(&[0, 1, 4, 100, 400, 1900, 2000, 2024, 9999]),
            _ => self.below(10_000),
        };
        let (month, day) = (self.near(1..=12), self.near(1..=30));
        format!("{year:04}-{month:02}-{day:02}")
    }

    fn clock(&mut self) -> String {
        let (hour, minute) = (self.near(0..=23).max(0), self.near(0..=59).max(0));
        let second = self.near(0..=59).max(0);
        match self.below(6) {
            0 => format!("{hour:02}:{minute:02}"),
            1..=3 => format!("{hour:02}:{minute:02}:{second:02}"),
            _ => format!("{hour:02}:{minute:02}:{second:02}{}", self.fraction()),
        }
    }

    /// A decimal mark and some digits, mostly no more than six.
    fn fraction(&mut self) -> String {
        let mark = self.pick(&[".", ".", ".", ","]);
        let count = match self.below(8) {
            0 => self.below(10),
            1 | 2 => 6,
            _ => 1 + self.below(6),
        };
        mark.to_owned() + &self.digits(count)
    }

    fn offset(&mut self) -> String {
        let (hour, minute) = (self.near(0..=23).max(0), self.near(0..=59).max(0));
        let sign = self.pick(&["+", "-", "\u{2212}"]);
        match self.below(8) {
            0 | 1 => String::new(),
            2 | 3 => "Z".to_owned(),
            4 => "z".to_owned(),
            5 => format!("{sign}{hour:02}{minute:02}"),
            _ => format!("{sign}{hour:02}:{minute:02}"),
        }
    }

    fn time(&mut self) -> String {
        self.clock() + &self.offset()
    }

    fn date_time(&mut self) -> String {
        let separator = self.pick(&["T", "T", "T", "t", " ", "_"]);
        self.date() + separator + &self.time()
    }

    fn whole_number(&mut self) -> String {
        let zeros = if self.once_in(16) { "000" } else { "" };
        let number = self.timestamp();
        match number {
            ..0 => format!("-{zeros}{}", number.unsigned_abs()),
            _ => self.pick(&["", "", "", "+"]).to_owned() + zeros + &number.to_string(),
        }
    }

    fn decimal(&mut self) -> String {
        let count = match self.below(8) {
            0 => self.below(400),
            1 => self.below(20),
            _ => self.below(8),
        };
        let digits = if self.once_in(4) { self.near_tie() } else { self.digits(count) };
        let exponent = if self.once_in(16) { self.exponent() } else { String::new() };
        self.whole_number() + "." + &digits + &exponent
    }

    /// A whole number or a decimal, now and then one that begins or ends with its point, or a word of floats.
    pub fn number_text(&mut self) -> Vec<u8> {
        let mut text = match self.below(8) {
            0..=2 => self.whole_number(),
            3 => self.pick(&["", "+", "-", "."]).to_owned() + &self.long_digits(),
            4 => self.long_digits() + "." + &self.long_digits(),
            5 => self.pick(&["inf", "-inf", "nan", "infinity", ".", "+", "1e5", "-.5", "+.5e3", "5."]).to_owned(),
            _ => self.decimal(),
        }
        .into_bytes();
        while self.once_in(4) {
            self.change(&mut text);
        }
        text
    }

    fn long_digits(&mut self) -> String {
        let count = self.below(24);
        self.digits(count)
    }

    /// The name of a unit or of a behavior, with letters of any case, now and then changed.
    pub fn name(&mut self) -> String {
        let name = self.pick(&["s", "ms", "us", "infer", "error", "truncate", ""]);
        let case = |letter: char| if self.once_in(3) { letter.to_ascii_uppercase() } else { letter };
        let mut name: Vec<u8> = name.chars().map(case).collect::<String>().into_bytes();
        if self.once_in(4) {
            self.change(&mut name);
        }
        String::from_utf8_lossy(&name).into_owned()
    }

    /// A timestamp: near one in whole numbers, half a microsecond after one or nearly so, or any float.
    pub fn float(&mut self) -> f64 {
        let whole = self.timestamp() as f64;
        let float = match self.below(8) {
            0 => whole,
            1 => whole + self.below(128) as f64 / 128.0,
            2 => whole + self.below(1_000_000) as f64 / 1e6,
            5 => (self.within(-2_000_000..=2_000_000) as f64 + 0.5) / 1e6,
            3 => self.within(-2_000_000..=2_000_000) as f64 / (1_u64 << self.below(64)) as f64,
            4 => self.within(-253_402_300_800_000..=253_402_300_800_000) as f64 / 1024.0,
            _ => return f64::from_bits(self.number()),
        };
        f64::from_bits(float.to_bits().wrapping_add_signed(self.within(-1..=1)))
    }

    fn exponent(&mut self) -> String {
        let (letter, sign) = (self.pick(&["e", "E"]), self.pick(&["", "-", "+"]));
        letter.to_owned() + sign + &self.below(30).to_string()
    }

    /// Digits that are half a microsecond, or nearly so, after some others; or next to nothing, or to one.
    fn near_tie(&mut self) -> String {
        let (places, count) = (self.pick(&[0, 3, 6]), self.below(30));
        match self.below(5) {
            0 => self.digits(places) + "5",
            1 => self.digits(places) + "4" + &"9".repeat(count),
            2 => self.digits(places) + "5" + &"0".repeat(count) + "1",
            3 => "0".repeat(count) + "1",
            _ => "9".repeat(count),
        }
    }

    fn duration(&mut self) -> String {
        let sign = self.pick(&["", "", "", "-", "+"]).to_owned();
        sign + &match self.below(8) {
            0..=3 => self.iso_duration(),
            4 | 5 => self.long_clock(),
            _ => self.days(),
        }
    }

    fn iso_duration(&mut self) -> String {
        let mut text = "P".to_owned();
        let dates = self.designators("YMWD");
        let times = self.designators("HMS");
        dates.chars().for_each(|designator| self.push_component(&mut text, designator));
        if !times.is_empty() || self.once_in(16) {
            text.push('T');
        }
        times.chars().for_each(|designator| self.push_component(&mut text, designator));
        if self.once_in(3) {
            let last = text.pop();
            text += &self.iso_fraction();
            text.extend(last);
        }
        text
    }

    /// Some of the designators, mostly in their order.
    fn designators(&mut self, all: &str) -> String {
        let mut some: Vec<char> = all.chars().filter(|_| self.once_in(2)).collect();
        if some.len() > 1 && self.once_in(8) {
            let (first, second) = (self.below(some.len()), self.below(some.len()));
            some[first] = some[second];
        }
        if self.once_in(8) {
            some.reverse();
        }
        some.into_iter().collect()
    }

    fn push_component(&mut self, text: &mut String, designator: char) {
        let number = match self.below(24) {
            0 => self.pick(&[4_294_967_295, 4_294_967_296, 999_999_999, 1_000_000_000, 11_767_033, 71_582_788]),
            1 => self.within(0..=4_294_967_295),
            _ => self.within(0..=400),
        };
        text.push_str(&number.to_string());
        text.push(designator);
    }

    fn iso_fraction(&mut self) -> String {
        let mark = self.pick(&[".", ","]).to_owned();
        let count = match self.below(16) {
            0 => self.below(400),
            1..=3 => self.below(20),
            _ => self.below(8),
        };
        mark + &if self.once_in(4) { self.near_tie() } else { self.digits(count) }
    }

    fn long_clock(&mut self) -> String {
        let hours = match self.below(4) {
            0 => self.pick(&[0, 2_400_000_000, 2_400_000_001, 9_999_999_999, 10_000_000_000]),
            1 => self.within(0..=3_000_000_000),
            _ => self.within(0..=30),
        };
        format!("{hours:02}{}", &self.clock()[2..])
    }

    fn days(&mut self) -> String {
        let days = match self.below(4) {
            0 => self.pick(&[0, 999_999_999, 1_000_000_000, 4_294_967_295, 4_294_967_296]),
            _ => self.within(0..=100_000),
        };
        let word = self.pick(&["d", "D", " d", " day", " days", "day", "DAYS", " Day", " DAy", "da"]);
        let link = self.pick(&["", ",", " ", ", ", ",, "]);
        let clock = if self.once_in(3) { String::new() } else { self.clock() };
        format!("{days}{word}{link}{clock}")
    }

    fn alphabet(kind: Kind) -> &'static [u8] {
        match kind {
            Kind::Date | Kind::DateRfc3339 => b"0123456789-+. ",
            Kind::Time => b"0123456789:.,+-Zz \xe2\x88\x92",
            Kind::DateTime | Kind::DateTimeRfc3339 => b"0123456789-:.,+Tt_Zze \xe2\x88\x92",
            Kind::Duration => b"0123456789PTYMWDHSdaysAY:.,+- ",
        }
    }

    fn noise(&mut self, kind: Kind) -> Vec<u8> {
        let count = self.below(24);
        (0..count).map(|_| self.pick(Self::alphabet(kind))).collect()
    }

    /// Any byte, mostly one that some grammar uses.
    fn byte(&mut self) -> u8 {
        match self.below(4) {
            0 => self.below(256) as u8,
            _ => self.pick(b"0123456789PTYMWDHSdaysAY:.,+-_ tzZeE\xe2\x88\x92"),
        }
    }

    /// Changes, removes, doubles or adds one byte, or cuts the text.
    fn change(&mut self, text: &mut Vec<u8>) {
        let (byte, at) = (self.byte(), self.below(text.len() + 1));
        if at == text.len() {
            return text.push(byte);
        }
        match self.below(8) {
            0..=2 => text[at] = byte,
            3 | 4 => drop(text.remove(at)),
            5 => text.insert(at, text[at]),
            6 => text.insert(at, byte),
            _ => text.truncate(at),
        }
    }
}
