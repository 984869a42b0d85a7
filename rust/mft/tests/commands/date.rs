//! Days of the calendar.

use mft::date::Date;

#[test]
fn days_are_counted_from_1970_with_every_leap_year() {
    let cases = [
        (0, "1970-01-01"),
        (58, "1970-02-28"),
        (59, "1970-03-01"),
        (789, "1972-02-29"),
        (11_015, "2000-02-28"),
        (11_016, "2000-02-29"),
        (11_017, "2000-03-01"),
        (11_322, "2000-12-31"),
        (19_782, "2024-02-29"),
        (20_774, "2026-11-17"),
        (47_540, "2100-02-28"),
        (47_541, "2100-03-01"),
        (156_934, "2399-09-03"),
    ];
    for (day, expected) in cases {
        assert_eq!(Date::of_day(day).to_string(), expected);
    }
}

#[test]
fn every_day_follows_the_one_before_and_is_read_again() {
    let mut before = Date::of_day(0);
    for day in 1..200_000 {
        let date = Date::of_day(day);
        assert!(before < date, "{before} {date}");
        assert_eq!(date.to_string().parse(), Ok(date));
        before = date;
    }
    assert_eq!(before.to_string(), "2517-07-31");
}

#[test]
fn a_day_that_the_calendar_has_not_is_not_read() {
    let texts = [
        "",
        "2026",
        "2026-11",
        "2026-11-17-1",
        "26-11-17",
        "2026-1-17",
        "2026-11-7",
        "2026/11/17",
        " 2026-11-17",
        "2026-11-17 ",
        "+026-11-17",
        "2026-13-01",
        "2026-00-01",
        "2026-11-00",
        "2026-11-31",
        "2026-02-29",
        "2100-02-29",
        "0000-01-01",
        "２０２６-11-17",
        "today",
    ];
    for text in texts {
        assert!(text.parse::<Date>().is_err(), "{text}");
    }
    assert!("2024-02-29".parse::<Date>().is_ok() && "2000-02-29".parse::<Date>().is_ok());
}
