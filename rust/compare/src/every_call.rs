//! Every call on one file: buffers ample, exactly long enough and one byte short, tables of 63, 64 and 70 rows, components and
//! records that are there, that are not, and leaves.

use super::pair::{self, Answered, Lent, AMPLE};
use super::tally::Tally;
use dansevik::designs::Chance;

pub struct Outcome {
    /// The verdict with a table of 64 rows: 0 accepted, otherwise the refusal.
    pub verdict: u64,
    /// What the calls answered.
    pub answers: Tally,
}

/// What a call that could not be compared was.
pub struct Difference {
    pub call: String,
    pub how: String,
}

struct Run<'a> {
    file: &'a [u8],
    lent: &'a mut Lent,
    answers: Tally,
}

impl Run<'_> {
    /// Counts an answer, or says which call differed.
    fn took(&mut self, call: impl FnOnce() -> String, answer: Result<Answered, String>) -> Result<Answered, Difference> {
        let answer = answer.map_err(|how| Difference { call: call(), how })?;
        self.answers.count(answer.number());
        Ok(answer)
    }

    fn judge(&mut self, rows: usize) -> Result<Answered, Difference> {
        let answer = self.lent.judge(self.file, rows);
        self.took(|| format!("judge, {rows} rows"), answer)
    }

    fn lower(&mut self, rows: usize, asked: u64, room: usize) -> Result<Answered, Difference> {
        let answer = self.lent.lower(self.file, rows, asked, room);
        self.took(|| format!("lower {asked}, {rows} rows, {room} bytes"), answer)
    }

    fn list(&mut self, rows: usize, asked: u64, room: usize) -> Result<Answered, Difference> {
        let answer = self.lent.list(self.file, rows, asked, room);
        self.took(|| format!("list {asked}, {rows} rows, {room} bytes"), answer)
    }

    fn pack(&mut self, list: &[u8], room: usize) -> Result<Answered, Difference> {
        let answer = self.lent.pack(list, room);
        self.took(|| format!("pack {} bytes, {room} bytes", list.len()), answer)
    }

    fn unpack(&mut self, room: usize) -> Result<Answered, Difference> {
        let answer = self.lent.unpack(self.file, room);
        self.took(|| format!("unpack, {room} bytes"), answer)
    }

    fn record(&mut self, number: u64) -> Result<Answered, Difference> {
        let answer = pair::record(self.file, number);
        self.took(|| format!("record {number}"), answer)
    }

    /// Lowers and lists a component with room to spare, with just enough and with one byte less.
    fn component(&mut self, asked: u64) -> Result<(), Difference> {
        if let Answered::Accepted(rows, _) = self.lower(64, asked, AMPLE)? {
            let size = 16 * rows as usize;
            self.lower(70, asked, size)?;
            self.lower(64, asked, size - 1)?;
        }
        if let Answered::Accepted(rows, _) = self.list(64, asked, AMPLE)? {
            let size = 8 * rows as usize;
            self.list(70, asked, size)?;
            if size > 0 {
                self.list(64, asked, size - 1)?;
            }
        }
        Ok(())
    }

    /// Unpacks the file and packs its list again, which gives the file back.
    fn there_and_back(&mut self) -> Result<(), Difference> {
        let size = match self.unpack(AMPLE)? {
            Answered::Accepted(size, _) => size as usize,
            Answered::Refused(..) => return Ok(()),
        };
        let list = self.lent.written(size).to_vec();
        self.unpack(size)?;
        self.unpack(size - 1)?;
        let length = self.file.len();
        let packed = self.pack(&list, AMPLE)?;
        if packed != Answered::Accepted(length as u64, 0) || self.lent.written(length) != self.file {
            return Err(Difference { call: "pack what was unpacked".to_string(), how: "gave another file".to_string() });
        }
        self.pack(&list, length)?;
        self.pack(&list, length - 1)?;
        Ok(())
    }
}

/// Every call on a file; the components and records asked for are drawn by chance beside those at the ends.
pub fn every_call(file: &[u8], chance: &mut Chance, lent: &mut Lent) -> Result<Outcome, Difference> {
    let mut run = Run { file, lent, answers: Tally::default() };
    let verdict = run.judge(64)?;
    run.judge(63)?;
    run.judge(70)?;
    run.lower(63, 0, AMPLE)?;
    run.list(63, 0, AMPLE)?;
    match verdict {
        Answered::Accepted(records, components) => {
            let mut asked = vec![0, components - 1, components];
            asked.extend((0..2).map(|_| chance.below(components as usize) as u64));
            asked.push(chance.pick(&[64, 255, 256, 65_536, 1 << 32, u64::MAX]));
            asked.sort_unstable();
            asked.dedup();
            for component in asked {
                run.component(component)?;
            }
            for number in [0, records - 1, chance.below(records as usize) as u64, records] {
                run.record(number)?;
            }
        }
        Answered::Refused(..) => {
            run.component(chance.below(65) as u64)?;
            run.record(chance.below(40) as u64)?;
        }
    }
    run.record(chance.pick(&[3_967, 3_968, 1 << 32, u64::MAX]))?;
    run.there_and_back()?;
    // the file's own bytes as a list: any content, and lengths that are allowed or not
    let length = chance.pick(&[0, 1, 15, 16, 17, 496, 512, 63_488, 63_489, 63_504]).min(file.len());
    run.pack(&file[..length], AMPLE)?;
    run.pack(file, AMPLE)?;
    Ok(Outcome { verdict: verdict.number(), answers: run.answers })
}
