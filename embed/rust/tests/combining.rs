//! One value of several decided ones.

use vamuretu::{combine, Combination, Fault};

#[test]
fn one_value_of_several() {
    for (orders, values) in [
        (&[4][..], [4, 4, 4]),
        (&[1, 2], [1, 0, 0]),
        (&[2, 2, 1], [2, 2, 0]),
        (&[3, 1, 2, 3], [2, 0, 0]),
        (&[15, 15, 15, 0], [15, 15, 0]),
        (&[7, 7, 7, 7], [7, 7, 7]),
    ] {
        let made = [Combination::Median, Combination::Majority, Combination::All].map(|rule| combine(rule, orders));
        assert_eq!(made, values.map(Ok), "{orders:?}");
    }
}

#[test]
fn no_values_and_no_value() {
    assert_eq!(combine(Combination::Median, &[]), Err(Fault::Misuse));
    assert_eq!(combine(Combination::All, &[1, 16]), Err(Fault::Misuse));
}
