//! Forms that a type lacks, and what is said of a refusal. `rows.rs` has the forms that a type has.

use speedate::{print_column, Date, DateConfig, DatePrinter, Duration, Form, Refused, Time, TimeConfig, LINE_MAX};

#[test]
fn lacking() {
    let lacks = |refused: Refused| {
        assert_eq!((refused.fault.to_string(), refused.start, refused.end), ("config_out_of_range".to_owned(), 0, 0));
        assert_eq!(refused.expected().to_string(), "a form, flags and a configuration that the call has");
    };
    let config = TimeConfig::default();
    lacks(Time::parse_or_place(b"12:13", Form::OrTimestamp, &config).unwrap_err());
    for form in [Form::OrTimestamp, Form::Strict, Form::Front] {
        lacks(Duration::parse_or_place(b"P1D", form, &config).unwrap_err());
    }
}

#[test]
fn strict_dates() {
    for text in ["2020-02-29", "2021-02-29", "1582934400", "2020-02-29T00:00Z"] {
        let [strict, plain] =
            [Form::Strict, Form::Text].map(|form| Date::parse_or_place(text.as_bytes(), form, &DateConfig::default()));
        assert_eq!(strict, plain);
    }
}

#[test]
fn shown() {
    assert_eq!(Form::default(), Form::Text);
    let refused = |form| Time::parse_or_place(b"24:00", form, &TimeConfig::default()).unwrap_err();
    assert_eq!(refused(Form::Text).to_string(), "out_of_range_hour at byte 0: expected hour, 00 to 23");
    // No byte of the text is wrong.
    let wanted = "config_out_of_range: expected a form, flags and a configuration that the call has";
    assert_eq!(refused(Form::OrTimestamp).to_string(), wanted);
    let printed = print_column(&[i32::MAX], &DatePrinter, &mut [0; LINE_MAX]).error.unwrap();
    assert_eq!(printed.to_string(), "date_too_large: expected a date in the years 0000 to 9999");
    assert_eq!(format!("{:>17}|", refused(Form::Text).expected()), "   hour, 00 to 23|");
    assert_eq!(format!("{:*<20}|", refused(Form::Text).fault), "out_of_range_hour***|");
}
