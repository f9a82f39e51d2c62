//! Rows as Verilog: a shift register with guards, and a bench that runs it. Test code only.
//!
//! The register has no reset: the bench lets n − 1 idle cycles pass before the first compared one, and so shows that these
//! are enough. A state still unknown then would be printed, and differ.

use super::rows::Control;
use super::starts::Line;
use super::wires::{Drive, Wire};
use std::collections::BTreeMap;
use std::fmt::Write;

/// The guards of a wire by name, each with the code of what it lets through.
type Guarded = BTreeMap<Wire, Vec<(String, String)>>;

fn guarded(control: &Control) -> Guarded {
    let mut guarded = Guarded::new();
    for go in &control.goes {
        let drive = Drive { invocation: Some(go.invocation), source: None };
        let guards = guarded.entry(Wire::Start { instance: go.instance }).or_default();
        guards.push((format!("go_{}", go.invocation), drive.code()));
    }
    for row in &control.inputs {
        let drive = Drive { invocation: Some(row.invocation), source: Some(&row.source) };
        let guards = guarded.entry(Wire::Input { instance: row.instance, port: row.port }).or_default();
        guards.push((format!("in_{}_{}", row.invocation, row.port), drive.code()));
    }
    guarded
}

/// A wire's name in Verilog.
fn named(wire: &Wire) -> String {
    wire.to_string().replace(' ', "_")
}

/// Whether one of these states is active: state 0 is the start line, the others are flip-flops. (A vector of both would read
/// better, and takes the simulator half as long again.)
fn active(first: u64, last: u64) -> String {
    match (first, last) {
        (0, 0) => "start".to_string(),
        (0, last) => format!("start | (|held[{last}:1])"),
        (first, last) => format!("|held[{last}:{first}]"),
    }
}

/// The control of one component as module `control_NUMBER`: a guard is the or of its states; a wire carries the codes that
/// its active guards let through, and 0 without one.
pub fn control(number: usize, control: &Control) -> String {
    let mut text = format!("module control_{number}(input clock, input start);\n");
    match control.states - 1 {
        0 => (),
        1 => text += "  reg [1:1] held;\n  always @(posedge clock) held <= start;\n",
        top => {
            let _ = writeln!(text, "  reg [{top}:1] held;");
            let _ = writeln!(text, "  always @(posedge clock) held <= {{held[{}:1], start}};", top - 1);
        }
    }
    for go in &control.goes {
        let _ = writeln!(text, "  wire go_{} = {};", go.invocation, active(go.state, go.state));
    }
    for row in &control.inputs {
        let _ = writeln!(text, "  wire in_{}_{} = {};", row.invocation, row.port, active(row.first, row.last));
    }
    for (wire, guards) in guarded(control) {
        wires(&mut text, &named(&wire), &guards);
    }
    for row in &control.outputs {
        let code = Drive { invocation: None, source: Some(&row.source) }.code();
        let _ = writeln!(text, "  wire [{}:0] output_{} = {}'h{code};", Drive::BITS - 1, row.port, Drive::BITS);
    }
    text + "endmodule\n"
}

/// The guards of a wire together, and what they select.
fn wires(text: &mut String, name: &str, guards: &[(String, String)]) {
    let bits = Drive::BITS;
    let names: Vec<&str> = guards.iter().map(|(guard, _)| guard.as_str()).collect();
    let chosen: Vec<String> = guards.iter().map(|(guard, code)| format!("({guard} ? {bits}'h{code} : {bits}'h0)")).collect();
    let _ = writeln!(text, "  wire [{}:0] {name}_guards = {{{}}};", guards.len() - 1, names.join(", "));
    let _ = writeln!(text, "  wire [{}:0] {name} = {};", bits - 1, chosen.join(" | "));
}

/// The bench of one component as module `bench_NUMBER`. Each cycle it sets the start line, lets the wires settle, prints
/// `NUMBER CYCLE WIRE: CODE CLASH` for each driven wire, and gives a clock; CLASH is 1 where more than one guard is active.
/// The idle cycles are those below 0.
pub fn bench(number: usize, control: &Control, line: &Line) -> String {
    let idle = control.states - 1;
    let mut text = format!("module bench_{number};\n  reg clock = 0, start = 0;\n  integer cycle = -{idle};\n");
    let _ = writeln!(text, "  control_{number} unit(clock, start);");
    text += "  task show; begin\n";
    for wire in guarded(control).keys() {
        let guards = format!("unit.{}_guards", named(wire));
        let show = shown(number, wire, &format!("|({guards} & ({guards} - 1'b1))"));
        let _ = writeln!(text, "    if ({guards} !== 0) {show}");
    }
    for row in &control.outputs {
        let show = shown(number, &Wire::Output { port: row.port }, "1'b0");
        let _ = writeln!(text, "    if (cycle == 0) {show}");
    }
    text += "  end endtask\n";
    text += "  task run(input level, input integer many); repeat (many) begin\n";
    text += "    start = level; #1; if (cycle >= 0) show;\n";
    text += "    clock = 1; #1; clock = 0; cycle = cycle + 1;\n";
    text += "  end endtask\n  initial begin\n";
    let _ = writeln!(text, "    run(0, {});", idle + line.starts[0]);
    let next = line.starts.iter().skip(1).chain([&line.cycles]);
    for (start, next) in line.starts.iter().zip(next) {
        let _ = writeln!(text, "    run(1, 1); run(0, {});", next - start - 1);
    }
    let _ = writeln!(text, "    $display(\"{number} %0d end\", cycle);");
    text + "  end\nendmodule\n"
}

fn shown(number: usize, wire: &Wire, clash: &str) -> String {
    format!("$display(\"{number} %0d {wire}: %h %b\", cycle, unit.{}, {clash});", named(wire))
}
