use crate::common::closed_form_day;
use second_reader::calendar::{day_number, month_length, weekday, year_of, FIRST_YEAR, LAST_YEAR};
use second_reader::transition::{FIRST, LAST, TICKS_PER_DAY};

#[test]
fn counted_days_are_those_of_a_closed_form() {
    let mut expected = day_number(FIRST_YEAR, 1, 1);
    for year in FIRST_YEAR..=LAST_YEAR {
        for month in 1..=12 {
            for day in 1..=month_length(year, month) {
                let number = day_number(year, month, day);
                assert_eq!(number, closed_form_day(year, i64::from(month), day), "{year}-{month}-{day}");
                assert_eq!(number, expected, "days follow one another at {year}-{month}-{day}");
                expected += 1;
            }
        }
    }
}

#[test]
fn known_days() {
    assert_eq!(day_number(1970, 1, 1), 0);
    assert_eq!(day_number(2000, 2, 29), 11_016);
    assert_eq!(day_number(2024, 3, 31) * 86_400 + 3_600, 1_711_846_800);
    assert_eq!(weekday(day_number(1970, 1, 1)), 4);
    assert_eq!(weekday(day_number(2024, 3, 31)), 7);
    assert_eq!(weekday(day_number(2000, 1, 1)), 6);
    // 4 October 1582 (Julian Thursday) was followed by Friday 15 October.
    assert_eq!(weekday(day_number(1582, 10, 15)), 5);
}

#[test]
fn bounds_of_the_range() {
    assert_eq!(day_number(1, 1, 1) * TICKS_PER_DAY, FIRST);
    assert_eq!(day_number(10_000, 1, 1) * TICKS_PER_DAY - 1, LAST);
    assert_eq!(day_number(1800, 1, 1) * TICKS_PER_DAY, -53_646_624_000_000_000);
    assert_eq!((year_of(FIRST), year_of(FIRST - 1)), (1, 0));
    assert_eq!((year_of(LAST), year_of(LAST + 1)), (9999, 10_000));
    assert_eq!((year_of(-1), year_of(0)), (1969, 1970));
}

#[test]
fn leap_years() {
    let february: Vec<i64> = [1900, 2000, 2023, 2024, 0, -4, -100, 4].map(|year| month_length(year, 2)).to_vec();
    assert_eq!(february, [28, 29, 28, 29, 29, 29, 28, 29]);
}
