//! Every call of both implementations on a small, a middle, the largest rich and a hostile file, to be counted: tools/benchmark
//! runs it.
//!
//! Each piece of work is done once to warm up and once between two marks. A line `file NAME ..` says what a file is, a line
//! `work NUMBER FILE CALL WHO` which mark is whose. By itself, uncounted, it only prints the lines.

use dansevik::designs::{rich, scattered, squaring, List};
use dansevik::plain;
use dansevik_compare::counter::{mark, opaque, Buffer};
use dansevik_host as host;

/// The first components of a list: a lawful design too, since nothing names what comes later.
fn beginning(mut list: List, components: usize) -> List {
    let ends = (0..list.records.len()).filter(|n| list.records[*n][0] == 1).nth(components);
    list.records.truncate(ends.unwrap_or(list.records.len()));
    list
}

struct Count {
    last: u64,
}

impl Count {
    fn work<T>(&mut self, file: &str, call: &str, who: &str, mut work: impl FnMut() -> T) {
        self.last += 1;
        println!("work {} {file} {call} {who}", self.last);
        opaque(work());
        mark(0);
        opaque(work());
        mark(self.last);
    }

    /// Both, on one file: lowering and listing this component, looking up the last record.
    fn file(&mut self, name: &str, list: &List, component: u64) {
        let bytes = list.file();
        let held = Buffer::of(&bytes);
        let file = &held.0[..bytes.len()];
        let records = list.records.concat();
        let held = Buffer::of(&records);
        let records = &held.0[..records.len()];
        let mut room = Buffer::of(&[]);
        let out = &mut room.0;
        let last = list.records.len() as u64 - 1;
        let mut table = host::Table::new();
        let mut rows = [plain::Signature::default(); plain::ROWS];
        let accepted = host::judge(file, &mut table).expect("the file is accepted");
        let lowered = host::lower(file, &mut table, component, out).expect("the component is built");
        let listed = host::list(file, &mut table, component, out).expect("the component can be listed");
        println!("file {name} {} {} {} {component} {lowered} {listed}", bytes.len() / 512, accepted.records, accepted.components);

        self.work(name, "judge", "dansevik", || host::judge(opaque(file), &mut table));
        self.work(name, "judge", "plain", || plain::judge(opaque(file), &mut rows));
        self.work(name, "lower", "dansevik", || host::lower(opaque(file), &mut table, component, out));
        self.work(name, "lower", "plain", || plain::lower(opaque(file), &mut rows, component, out));
        self.work(name, "list", "dansevik", || host::list(opaque(file), &mut table, component, out));
        self.work(name, "list", "plain", || plain::list(opaque(file), &mut rows, component, out));
        self.work(name, "pack", "dansevik", || host::pack(opaque(records), out));
        self.work(name, "pack", "plain", || plain::pack(opaque(records), out));
        self.work(name, "unpack", "dansevik", || host::unpack(opaque(file), out));
        self.work(name, "unpack", "plain", || plain::unpack(opaque(file), out));
        self.work(name, "record", "dansevik", || host::record(opaque(file), last));
        self.work(name, "record", "plain", || plain::record(opaque(file), last));
    }
}

fn main() {
    let mut count = Count { last: 0 };
    count.work("none", "nothing", "nobody", || ());
    count.file("small", &squaring(), 1);
    count.file("middle", &beginning(rich(), 20), 19);
    count.file("rich", &rich(), 44);
    count.file("hostile", &scattered(false), 60);
}
