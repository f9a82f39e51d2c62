//! The smallest accepted design whose netlist has a combinational loop, of units with one input and one output that store
//! nothing: that of docs/HARDWARE.md.

use super::list::{constant, output_of, List};

/// Two units P and Q that answer in the cycle in which they are asked. P feeds Q in cycle 0, Q feeds P in cycle 1.
pub fn looped() -> List {
    List::new()
        .leaf(1)
        .input(0, 1, 32)
        .output(0, 1, 32)
        .built(2)
        .instance(0)
        .instance(0)
        .invocation(0, 0)
        .argument(constant(5))
        .invocation(1, 0)
        .argument(output_of(0, 0))
        .invocation(1, 1)
        .argument(constant(7))
        .invocation(0, 1)
        .argument(output_of(2, 0))
}
