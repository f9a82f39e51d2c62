//! What the programs print: document 01's own listing to the byte, constants, several components, and refusals.

use dansevik::designs::{constant, own, squaring, List};
use dansevik::printed::{judged, listed, lowered};

#[test]
fn the_squaring_example_prints_as_document_01_shows() {
    let expected = "component 1 delay 4 states 5\ngo 0 0 0\nin 0 0 0 0 own 0\nin 0 1 0 0 own 1\ngo 1 0 2\nin 1 0 2 2 inv 0 0\n\
                    in 1 1 2 2 inv 0 0\nout 0 inv 1 0\nend\n";
    assert_eq!(lowered(&squaring().file()), expected);
    assert_eq!(judged(&squaring().file()), "accepted 2 16\n");
    assert_eq!(listed(&squaring().file(), None), "start 0 0 0\nstart 2 0 0\nend\n");
    assert_eq!(listed(&squaring().file(), Some(0)), "start 0 0 0\nend\n");
}

#[test]
fn all_built_components_and_constants_are_printed() {
    let list = List::new().built(1).output(0, 1, 64).connection(constant(u64::MAX));
    let list = list.leaf(1).built(2).input(0, 1, 1).output(0, 1, 1).connection(own(0));
    let expected =
        "component 0 delay 1 states 1\nout 0 const 18446744073709551615\ncomponent 2 delay 2 states 1\nout 0 own 0\nend\n";
    assert_eq!(lowered(&list.file()), expected);
    assert_eq!(listed(&list.file(), None), "end\n");
}

#[test]
fn a_refusal_is_one_line() {
    let close = squaring().with_byte(12, 4, 1).file();
    for printed in [judged(&close), lowered(&close), listed(&close, None), listed(&close, Some(9))] {
        assert_eq!(printed, "refused 10 at 12\n");
    }
    assert_eq!(listed(&squaring().file(), Some(2)), "refused 14 at 2\n");
    assert_eq!(listed(&[], Some(2)), "refused 1 at 0\n");
}
