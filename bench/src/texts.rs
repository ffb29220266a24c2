//! The texts of the rows, drawn at random.

use speedate_diff::draw::Draw;

const TEXTS: usize = 1024;
const SEED: u64 = 20_240_601;

/// As many texts as a row has.
pub fn texts(text: impl Fn(&mut Draw) -> String) -> Vec<String> {
    let mut draw = Draw::new(SEED);
    (0..TEXTS).map(|_| text(&mut draw)).collect()
}

pub fn date(draw: &mut Draw) -> String {
    format!("{:04}-{:02}-{:02}", draw.within(1..=9_999), draw.within(1..=12), draw.within(1..=28))
}

pub fn clock(draw: &mut Draw) -> String {
    format!("{:02}:{:02}:{:02}", draw.below(24), draw.below(60), draw.below(60))
}

pub fn microseconds(draw: &mut Draw) -> String {
    format!(".{:06}", draw.within(1..=999_999))
}

pub fn milliseconds(draw: &mut Draw) -> String {
    format!(".{:03}", draw.below(1_000))
}

pub fn offset(draw: &mut Draw) -> String {
    format!("{}{:02}:{:02}", draw.pick(&["+", "-"]), draw.below(24), draw.within(1..=59))
}

/// A date and a clock, with a text after them.
pub fn date_time(draw: &mut Draw, rest: impl Fn(&mut Draw) -> String) -> String {
    date(draw) + "T" + &clock(draw) + &rest(draw)
}

pub fn z(draw: &mut Draw) -> String {
    date_time(draw, |_| "Z".to_owned())
}

pub fn fraction_and_offset(draw: &mut Draw) -> String {
    date_time(draw, |draw| microseconds(draw) + &offset(draw))
}

pub fn one_to_five_digits(draw: &mut Draw) -> String {
    let count = 1 + draw.below(5);
    clock(draw) + "." + &draw.digits(count)
}

/// The text with one byte that cannot be there.
fn refused(mut text: String, draw: &mut Draw) -> String {
    let at = draw.below(text.len());
    text.replace_range(at..=at, "x");
    text
}

pub fn refused_date(draw: &mut Draw) -> String {
    refused(date(draw), draw)
}

pub fn refused_clock(draw: &mut Draw) -> String {
    refused(clock(draw), draw)
}

pub fn refused_date_time(draw: &mut Draw) -> String {
    refused(z(draw), draw)
}

/// A duration with every designator except those of months and weeks.
pub fn iso_duration(draw: &mut Draw) -> String {
    let mut below = |end| 1 + draw.below(end);
    format!("P{}Y{}DT{}H{}M{}S", below(90), below(300), below(23), below(59), below(59))
}

pub fn iso_fraction(draw: &mut Draw) -> String {
    let mut below = |end| 1 + draw.below(end);
    format!("PT{}H{}M{}.{:03}S", below(23), below(59), below(59), below(999))
}

pub fn days(draw: &mut Draw) -> String {
    format!("{} days, {}", draw.within(1..=99_999), clock(draw))
}
