//! Files that the verified program `printouts` lowers and lists, and what it is to print.

use crate::designs::{self, constant, output_of, own, squaring, variants, List};
use crate::plain::{judge, list, Signature, ROWS};
use crate::printed;

/// What is printed of a file, under its name.
#[derive(Clone, Copy)]
pub enum Printed {
    /// The rows of all built components.
    Rows,
    /// The unit starts of the last component.
    Starts,
    /// How many unit starts the last component has, where they are many.
    Count,
}

pub struct Printout {
    pub name: &'static str,
    pub file: Vec<u8>,
    pub printed: Printed,
}

/// Every kind of source at arguments and at connections, offsets that fall, ports of several cycles, a constant of 64 ones,
/// an instance that nothing invokes, a built component in a built one, and one with nothing in it.
pub fn sources() -> List {
    let list = List::new().leaf(3).input(0, 3, 64).input(1, 2, 8).output(2, 5, 64).output(1, 2, 8);
    let list = list.leaf(1).built(9).input(0, 9, 64).input(4, 6, 8).output(5, 8, 64).output(3, 9, 64).output(0, 1, 8);
    let list = list.instance(0).instance(0).instance(1);
    let list = list.invocation(0, 4).argument(own(0)).argument(constant(255));
    let list = list.invocation(1, 3).argument(constant(u64::MAX)).argument(own(1));
    let list = list.invocation(0, 1).argument(own(0)).argument(constant(0));
    let list = list.invocation(1, 6).argument(output_of(0, 0)).argument(constant(1));
    let list = list.connection(output_of(1, 0)).connection(own(0)).connection(constant(7));
    let list = list.built(5).built(20).output(14, 17, 64).instance(2).instance(2).instance(3);
    let list = list.invocation(0, 9).argument(constant(1)).argument(constant(2)).invocation(2, 0);
    list.connection(output_of(0, 0))
}

pub fn all() -> Vec<Printout> {
    let printout = |name, list: List, printed| Printout { name, file: list.file(), printed };
    let refused = variants().into_iter().find(|(name, _, _)| *name == "b").expect("case B").1;
    vec![
        printout("squaring", squaring(), Printed::Rows),
        printout("squaring", squaring(), Printed::Starts),
        printout("sources", sources(), Printed::Rows),
        printout("sources", sources(), Printed::Starts),
        Printout { name: "refused", file: refused.clone(), printed: Printed::Rows },
        Printout { name: "refused", file: refused, printed: Printed::Starts },
        printout("deep", designs::deep(), Printed::Count),
        printout("empty-levels", designs::empty_levels(), Printed::Starts),
        printout("unused-instances", designs::unused_instances(), Printed::Starts),
        printout("doubling-16", designs::doubling(16), Printed::Starts),
        printout("doubling-32", designs::doubling(32), Printed::Starts),
        printout("doubling-64", designs::doubling(64), Printed::Starts),
        printout("rows-4096", designs::many_rows(false), Printed::Count),
        printout("rows-4097", designs::many_rows(true), Printed::Starts),
        printout("units-4096", designs::many_units(false), Printed::Starts),
        printout("units-4097", designs::many_units(true), Printed::Starts),
        printout("hidden", designs::hidden(), Printed::Count),
    ]
}

impl Printout {
    /// The name, and what the fast implementation prints.
    pub fn text(&self) -> String {
        let text = match self.printed {
            Printed::Rows => printed::lowered(&self.file),
            Printed::Starts => printed::listed(&self.file, None),
            Printed::Count => counted(&self.file),
        };
        format!("{}\n{text}", self.name)
    }
}

/// How many rows the list of the last component has.
fn counted(file: &[u8]) -> String {
    let mut table = [Signature::default(); ROWS];
    let last = judge(file, &mut table).map(|accepted| accepted.components as u64 - 1);
    let count = last.and_then(|last| list(file, &mut table, last, &mut [0; 8 * 4096]));
    count.map_or_else(|refusal| format!("{refusal}\n"), |count| format!("starts {count}\n"))
}
