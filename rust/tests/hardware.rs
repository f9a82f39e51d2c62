//! The listings of docs/HARDWARE.md are what `lower` prints, and its loop is accepted.

use dansevik::cases::naive_line;
use dansevik::designs::{looped, squaring};
use dansevik::printed::{judged, lowered};

const PAGE: &str = include_str!("../../docs/HARDWARE.md");

#[test]
fn the_page_shows_the_rows_of_the_squaring_example_and_of_the_loop() {
    for list in [squaring(), looped()] {
        let listing = format!("```\n{}```\n", lowered(&list.file()));
        assert!(PAGE.contains(&listing), "{listing}");
    }
}

#[test]
fn the_loop_is_accepted() {
    assert_eq!(judged(&looped().file()), "accepted 2 14\n");
    assert_eq!(naive_line(&looped().file()), "accepted 2 14");
}
