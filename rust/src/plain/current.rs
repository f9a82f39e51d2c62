//! The component being read: a method for each kind of record, which tests the record and takes it in.
//!
//! Ports, of this component and of those before, are looked up in the file.

use super::answers::Fault;
use super::calls::{Calls, INVOCATIONS};
use super::records::{held, Class, Held, Shift, Side, Slot, Source};
use super::table::{Signature, ROWS};

/// The limits of one component.
const INPUTS: usize = 16;
const OUTPUTS: usize = 16;
pub(super) const INSTANCES: usize = 32;

/// The groups of a component's order; those that may still come are its `open` ones.
mod group {
    pub const INPUTS: u8 = 1;
    pub const OUTPUTS: u8 = 2;
    pub const INSTANCES: u8 = 4;
    pub const INVOCATIONS: u8 = 8;
    pub const LEAF: u8 = INPUTS | OUTPUTS;
    pub const BUILT: u8 = LEAF | INSTANCES | INVOCATIONS;
    pub const NONE: u8 = 0;
}

/// The component being read. The numbers are small; they are words so that no step narrows or widens one.
#[derive(Clone, Copy)]
pub(super) struct Current {
    open: u8,
    built: bool,
    delay: u32,
    first: usize,
    inputs: usize,
    outputs: usize,
    instances: usize,
    invocations: usize,
    /// Arguments that the last invocation lacks, the input that the next one feeds, and how far its offset moves that.
    arguments_due: usize,
    input: usize,
    shift: Shift,
    /// Connections that a built component lacks.
    connections_due: usize,
    /// Components begun, this one included.
    pub(super) begun: usize,
}

/// An instance: of its component what invocations need, and how far its own invocations reach.
#[derive(Clone, Copy, Default)]
pub(super) struct Instance {
    row: Signature,
    least: u16,
    greatest: u16,
}

impl Current {
    pub(super) fn nothing() -> Current {
        Current {
            open: group::NONE,
            built: false,
            delay: 0,
            first: 0,
            inputs: 0,
            outputs: 0,
            instances: 0,
            invocations: 0,
            arguments_due: 0,
            input: 0,
            shift: Shift::default(),
            connections_due: 0,
            begun: 0,
        }
    }

    /// The component ends here: nothing of it is missing, and its row is stored.
    #[inline(always)]
    pub(super) fn end(&self, rows: &mut [Signature; ROWS]) -> Result<(), Fault> {
        if self.arguments_due != 0 || self.connections_due != 0 {
            return Err(Fault::Place);
        }
        if let Some(row) = rows.get_mut(self.begun.wrapping_sub(1)) {
            *row = Signature {
                class: u8::from(self.built),
                delay: self.delay as u16,
                inputs: self.inputs as u8,
                outputs: self.outputs as u8,
                first: self.first as u16,
            };
        }
        Ok(())
    }

    #[inline(always)]
    pub(super) fn component(
        &mut self,
        slot: Slot,
        number: usize,
        rows: &mut [Signature; ROWS],
        calls: &mut Calls,
    ) -> Result<(), Fault> {
        let (class, delay) = slot.component().ok_or(Fault::Record)?;
        self.end(rows)?;
        if self.begun == ROWS {
            return Err(Fault::TooMany);
        }
        let built = class == Class::Built;
        *self = Current {
            open: if built { group::BUILT } else { group::LEAF },
            built,
            delay: u32::from(delay),
            first: number,
            begun: self.begun + 1,
            ..Current::nothing()
        };
        calls.clear();
        Ok(())
    }

    #[inline(always)]
    pub(super) fn port(&mut self, slot: Slot) -> Result<(), Fault> {
        let (side, port) = slot.port().ok_or(Fault::Record)?;
        match side {
            Side::Input => {
                self.may_come(group::INPUTS)?;
                if self.inputs == INPUTS {
                    return Err(Fault::TooMany);
                }
                self.inputs += 1;
            }
            Side::Output => {
                self.may_come(group::OUTPUTS)?;
                if self.outputs == OUTPUTS {
                    return Err(Fault::TooMany);
                }
                self.open &= !group::INPUTS;
                self.outputs += 1;
                self.connections_due += usize::from(self.built);
            }
        }
        if u32::from(port.end - port.start) > self.delay {
            return Err(Fault::Interval);
        }
        Ok(())
    }

    #[inline(always)]
    fn may_come(&self, group: u8) -> Result<(), Fault> {
        if self.open & group == 0 {
            return Err(Fault::Place);
        }
        Ok(())
    }

    #[inline(always)]
    pub(super) fn instance(
        &mut self,
        slot: Slot,
        rows: &[Signature; ROWS],
        instances: &mut [Instance; INSTANCES],
    ) -> Result<(), Fault> {
        let component = usize::from(slot.instance().ok_or(Fault::Record)?);
        self.may_come(group::INSTANCES)?;
        let instance = instances.get_mut(self.instances).ok_or(Fault::TooMany)?;
        if component + 1 >= self.begun {
            return Err(Fault::Reference);
        }
        // no invocation yet: every offset lies below the least of none
        *instance = Instance { row: rows[component % ROWS], least: u16::MAX, greatest: 0 };
        self.open = group::INSTANCES | group::INVOCATIONS;
        self.instances += 1;
        Ok(())
    }

    #[inline(always)]
    pub(super) fn invocation(
        &mut self,
        slot: Slot,
        instances: &mut [Instance; INSTANCES],
        calls: &mut Calls,
    ) -> Result<(), Fault> {
        let (number, offset) = slot.invocation().ok_or(Fault::Record)?;
        self.may_come(group::INVOCATIONS)?;
        if self.arguments_due != 0 {
            return Err(Fault::Place);
        }
        if self.invocations >= INVOCATIONS {
            return Err(Fault::TooMany);
        }
        if usize::from(number) >= self.instances {
            return Err(Fault::Reference);
        }
        let instance = &mut instances[usize::from(number) % INSTANCES];
        let d = instance.row.delay;
        // beyond all of them no pair needs a test
        let among = offset + d > instance.least && offset < instance.greatest + d;
        if among && calls.meets(number, offset, d) {
            return Err(Fault::Spacing);
        }
        instance.least = instance.least.min(offset);
        instance.greatest = instance.greatest.max(offset);
        if u32::from(instance.greatest - instance.least + d) > self.delay {
            return Err(Fault::Span);
        }
        calls.put(self.invocations, number, offset, &instance.row);
        self.open = group::INVOCATIONS;
        self.invocations += 1;
        self.arguments_due = usize::from(instance.row.inputs);
        self.input = instance.row.first_input();
        self.shift = Shift::by(offset);
        Ok(())
    }

    #[inline(always)]
    pub(super) fn argument(&mut self, slot: Slot, file: &[u8], calls: &Calls) -> Result<(), Fault> {
        if self.arguments_due == 0 {
            return Err(misplaced(slot));
        }
        self.reads(slot, self.input, self.shift, self.invocations - 1, file, calls)?;
        self.arguments_due -= 1;
        self.input += 1;
        Ok(())
    }

    #[inline(always)]
    pub(super) fn connection(&mut self, slot: Slot, file: &[u8], calls: &Calls) -> Result<(), Fault> {
        if self.connections_due == 0 || self.arguments_due != 0 {
            return Err(misplaced(slot));
        }
        let reader = self.first + 1 + self.inputs + self.outputs - self.connections_due;
        self.reads(slot, reader, Shift::default(), self.invocations, file, calls)?;
        self.open = group::NONE;
        self.connections_due -= 1;
        Ok(())
    }

    /// 4, 7, 8 and 12: the port with this record number, moved so far, reads the source in a slot; of the invocations it may
    /// name those below `below`.
    #[inline(always)]
    fn reads(&self, slot: Slot, reader: usize, shift: Shift, below: usize, file: &[u8], calls: &Calls) -> Result<(), Fault> {
        match slot.source() {
            None => Err(Fault::Record),
            Some(Source::Constant(value)) => {
                // shifted in two steps, since the width may be 64
                if value >> (held(file, reader).width() - 1) >> 1 != 0 {
                    return Err(Fault::Width);
                }
                Ok(())
            }
            Some(Source::Own(input)) => {
                if usize::from(input) >= self.inputs {
                    return Err(Fault::Reference);
                }
                feeds(held(file, self.first + 1 + usize::from(input)), held(file, reader).moved(shift))
            }
            Some(Source::Output { invocation, output }) => {
                let named = usize::from(invocation) % INVOCATIONS;
                if usize::from(invocation) >= below || output >= calls.outputs[named] {
                    return Err(Fault::Reference);
                }
                let given = held(file, usize::from(calls.first_output[named] + output));
                feeds(given.moved(calls.shift[named]), held(file, reader).moved(shift))
            }
        }
    }
}

/// 8 and 12.
#[inline(always)]
fn feeds(given: Held, reader: Held) -> Result<(), Fault> {
    if !given.equally_wide(reader) {
        return Err(Fault::Width);
    }
    if !given.contains(reader) {
        return Err(Fault::Reading);
    }
    Ok(())
}

/// Of an argument or connection that has no place here: still 4 before 5.
#[cold]
fn misplaced(slot: Slot) -> Fault {
    match slot.source() {
        Some(_) => Fault::Place,
        None => Fault::Record,
    }
}
