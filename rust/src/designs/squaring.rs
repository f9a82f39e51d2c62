//! The squaring example of document 01 with its cases A to Q.

use super::list::{constant, output_of, own, List};
use crate::plain::{Class, Port, Record, Side};

/// Case A.
pub fn squaring() -> List {
    List::new()
        .leaf(2)
        .input(0, 1, 32)
        .input(0, 1, 32)
        .output(2, 3, 32)
        .built(4)
        .input(0, 1, 32)
        .input(0, 1, 32)
        .output(4, 5, 32)
        .instance(0)
        .invocation(0, 0)
        .argument(own(0))
        .argument(own(1))
        .invocation(0, 2)
        .argument(output_of(0, 0))
        .argument(output_of(0, 0))
        .connection(output_of(1, 0))
}

fn port(side: Side, start: u16, end: u16) -> Record {
    Record::Port { side, port: Port { start, end, width: 32 } }
}

fn built(delay: u16) -> Record {
    Record::Component { class: Class::Built, delay }
}

fn offset(offset: u16) -> Record {
    Record::Invocation { instance: 0, offset }
}

/// The cases A to Q: name, file, and the answer that document 01 gives.
pub fn variants() -> Vec<(&'static str, Vec<u8>, &'static str)> {
    let a = squaring;
    let h = || a().with(14, Record::Argument(own(0)));
    let second = |k| a().with(12, offset(k));
    let mut long = a().file();
    long.push(0);
    vec![
        ("a", a().file(), "accepted 2 16"),
        ("b", a().with(4, built(3)).file(), "refused 11 at 12"),
        ("c", second(1).file(), "refused 10 at 12"),
        ("d", second(3).with(4, built(5)).with(7, port(Side::Output, 5, 6)).file(), "refused 12 at 13"),
        ("e", a().with(4, built(1)).file(), "refused 11 at 9"),
        ("f", a().with(7, port(Side::Output, 4, 6)).file(), "refused 12 at 15"),
        ("g", a().with(3, port(Side::Output, 2, 5)).file(), "refused 9 at 3"),
        ("h", h().file(), "refused 12 at 14"),
        ("i", h().with(5, port(Side::Input, 0, 3)).file(), "accepted 2 16"),
        ("j", a().with(14, Record::Argument(constant(4_294_967_295))).file(), "accepted 2 16"),
        ("k", a().with(14, Record::Argument(constant(4_294_967_296))).file(), "refused 8 at 14"),
        ("l", a().with(8, Record::Instance { component: 1 }).file(), "refused 7 at 8"),
        ("m", a().with(13, Record::Argument(output_of(1, 0))).file(), "refused 7 at 13"),
        ("n", Vec::new(), "refused 1 at 0"),
        ("o", long, "refused 1 at 0"),
        ("p", a().without(15).file(), "refused 5 at 15"),
        ("q", second(0).file(), "refused 10 at 12"),
    ]
}
