//! Table files with a fault: each kind of fault, at several offsets, and two in one row so that the order of the checks
//! shows. Each is told as a base file and what stands otherwise in it.

use crate::file::{self, Writer, HEADER_BYTES, LINK_BYTES, PARTITION_BYTES, TASK_BYTES};
use crate::shipped::largest;
use crate::tables::*;

/// A table file, told by what it has of a base file.
pub struct Case {
    pub what: String,
    pub base: &'static str,
    pub file: Vec<u8>,
}

/// The files that the others are told by.
pub struct Bases {
    pub small: Vec<u8>,
    pub crowd: Vec<u8>,
    pub largest: Vec<u8>,
}

const SMALL: &str = "small.tab";
const CROWD: &str = "crowd.tab";
const LARGEST: &str = "largest.tab";

const MS: u128 = 1_000_000_000;

fn task(name: &str, partition: usize) -> Task {
    let name = name.as_bytes().to_vec();
    let execution = [MS, 2 * MS, 3 * MS, 4 * MS];
    let requests = [100, 200, 300, 400];
    Task { partition, period: 20 * MS, deadline: 15 * MS, execution, requests, name }
}

fn partition(name: &str) -> Partition {
    Partition { period: 20 * MS, name: name.as_bytes().to_vec() }
}

/// Two cores, three partitions, two tasks and three links.
fn small() -> Tables {
    Tables {
        cores: 2,
        partitions: vec![partition("a"), partition("bc"), partition("def")],
        tasks: vec![task("rx", 0), task("beam", 2)],
        links: vec![(0, 1), (0, 2), (1, 2)],
    }
}

/// Two partitions, the second with 16 tasks and the first with one between them.
fn crowd() -> Tables {
    let mut tasks = vec![task("t", 1); 16];
    tasks.insert(7, task("u", 0));
    Tables { cores: 1, partitions: vec![partition("a"), partition("b")], tasks, links: vec![] }
}

pub fn bases() -> Bases {
    Bases { small: file::write(&small()), crowd: file::write(&crowd()), largest: file::write(&largest()) }
}

impl Bases {
    fn bytes(&self, name: &str) -> &[u8] {
        match name {
            SMALL => &self.small,
            CROWD => &self.crowd,
            _ => &self.largest,
        }
    }
}

/// A row of a base file: what it is called, its offset, the length of its fixed part and of its name.
struct Place {
    what: String,
    at: usize,
    fixed: usize,
    name: usize,
}

fn places(tables: &Tables) -> Vec<Place> {
    let mut list = vec![];
    let mut at = HEADER_BYTES;
    let mut add = |what, fixed, name| {
        list.push(Place { what, at, fixed, name });
        at += fixed + name;
    };
    for (k, row) in tables.partitions.iter().enumerate() {
        add(format!("partition {k}"), PARTITION_BYTES, row.name.len());
    }
    for (k, row) in tables.tasks.iter().enumerate() {
        add(format!("task {k}"), TASK_BYTES, row.name.len());
    }
    for k in 0..tables.links.len() {
        add(format!("link {k}"), LINK_BYTES, 0);
    }
    list
}

/// The cases as they are made.
struct Table {
    bases: Bases,
    cases: Vec<Case>,
}

impl Table {
    fn add(&mut self, what: impl Into<String>, base: &'static str, file: Vec<u8>) {
        self.cases.push(Case { what: what.into(), base, file });
    }

    /// The small tables, changed.
    fn changed(&mut self, what: impl Into<String>, change: impl Fn(&mut Tables)) {
        let mut tables = small();
        change(&mut tables);
        self.add(what, SMALL, file::write(&tables));
    }

    /// The small tables, changed, and the file cut after so many bytes of its front.
    fn changed_and_cut(&mut self, what: impl Into<String>, length: usize, change: impl Fn(&mut Tables)) {
        let mut tables = small();
        change(&mut tables);
        let mut bytes = file::write(&tables);
        bytes.truncate(length);
        self.add(what, SMALL, bytes);
    }

    /// The small file under another header.
    fn headed(&mut self, counts: [u128; 5]) {
        let [cores, partitions, tasks, links, spare] = counts;
        let mut header = Writer::default();
        header.field(cores, 3).field(partitions, 5).field(tasks, 7).field(links, 7).field(spare, 2);
        let mut file = header.bytes();
        file.extend(&self.bases.small[HEADER_BYTES..]);
        let what = "header: cores, partitions, tasks, links, spare";
        self.add(format!("{what} {cores} {partitions} {tasks} {links} {spare}"), SMALL, file);
    }

    fn headers(&mut self) {
        for counts in [
            [0, 3, 2, 3, 0],
            [1, 3, 2, 3, 0],
            [4, 3, 2, 3, 0],
            [5, 3, 2, 3, 0],
            [7, 3, 2, 3, 0],
            [2, 16, 2, 3, 0],
            [2, 17, 2, 3, 0],
            [2, 31, 2, 3, 0],
            [2, 3, 64, 3, 0],
            [2, 3, 65, 3, 0],
            [2, 3, 127, 3, 0],
            [2, 3, 2, 120, 0],
            [2, 3, 2, 121, 0],
            [2, 3, 2, 127, 0],
            [2, 3, 2, 3, 1],
            [2, 3, 2, 3, 2],
            [2, 3, 2, 3, 3],
            [2, 2, 2, 3, 0],
            [2, 4, 2, 3, 0],
            [2, 3, 1, 3, 0],
            [2, 3, 3, 3, 0],
            [2, 3, 2, 2, 0],
            [2, 3, 2, 4, 0],
        ] {
            self.headed(counts);
        }
        for length in 0..HEADER_BYTES {
            self.changed_and_cut(format!("cut after {length} bytes of the header"), length, |_| {});
            self.changed_and_cut(format!("0 cores, cut after {length} bytes of the header"), length, |t| t.cores = 0);
        }
    }

    fn cut_rows(&mut self) {
        for Place { what, at, fixed, name } in places(&small()) {
            for more in 0..fixed + name {
                let edge = more == 0 || more == 1 || more + 1 >= fixed;
                if edge {
                    self.changed_and_cut(format!("{what}: cut after {more} bytes of the row"), at + more, |_| {});
                }
            }
        }
    }

    fn fields(&mut self) {
        let most = MOST_TIME;
        let periods = [0, LEAST_PERIOD - 1, LEAST_PERIOD, most, most + 1, (1 << 44) - 1];
        let times = [0, 1, most, most + 1, (1 << 44) - 1];
        let counts = [0, MOST_REQUESTS, MOST_REQUESTS + 1, (1 << 20) - 1];
        for k in 0..3 {
            for n in periods {
                self.changed(format!("partition {k}: period {n}"), |t| t.partitions[k].period = n);
            }
        }
        for k in 0..2 {
            for n in periods {
                self.changed(format!("task {k}: period {n}"), |t| t.tasks[k].period = n);
            }
            for n in times {
                self.changed(format!("task {k}: deadline {n}"), |t| t.tasks[k].deadline = n);
            }
            for core in 0..4 {
                for n in times {
                    self.changed(format!("task {k}: execution time {n} on core {core}"), |t| {
                        t.tasks[k].execution[core] = n
                    });
                }
                for n in counts {
                    self.changed(format!("task {k}: {n} requests on core {core}"), |t| t.tasks[k].requests[core] = n);
                }
            }
        }
    }

    fn members(&mut self) {
        for k in 0..2 {
            for n in [2, 3, 15] {
                self.changed(format!("task {k}: partition {n}"), |t| t.tasks[k].partition = n);
            }
        }
        for k in 0..3 {
            for n in [3, 15] {
                self.changed(format!("link {k}: first partition {n}"), |t| t.links[k].0 = n);
                self.changed(format!("link {k}: second partition {n}"), |t| t.links[k].1 = n);
            }
        }
    }

    fn links(&mut self) {
        for k in 0..3 {
            self.changed(format!("link {k}: a partition with itself"), |t| t.links[k].1 = t.links[k].0);
            self.changed(format!("link {k}: turned"), |t| t.links[k] = (t.links[k].1, t.links[k].0));
        }
        for k in 0..2 {
            self.changed(format!("link {}: as the one before it", k + 1), |t| t.links[k + 1] = t.links[k]);
            self.changed(format!("link {}: changed with the one before it", k + 1), |t| t.links.swap(k, k + 1));
        }
        self.changed("link 2: as the first", |t| t.links[2] = t.links[0]);
    }

    fn names(&mut self) {
        for k in 0..5 {
            let what = if k < 3 { format!("partition {k}") } else { format!("task {}", k - 3) };
            let name = |t: &mut Tables, bytes: &[u8]| {
                let of = if k < 3 { &mut t.partitions[k].name } else { &mut t.tasks[k - 3].name };
                *of = bytes.to_vec();
            };
            self.changed(format!("{what}: no name"), |t| name(t, b""));
            self.changed(format!("{what}: a name of 15 bytes"), |t| name(t, b"fifteen-bytes-x"));
            for byte in [0, 32, 33, 126, 127, 255] {
                self.changed(format!("{what}: byte {byte} alone for a name"), |t| name(t, &[byte]));
                self.changed(format!("{what}: byte {byte} first in the name"), |t| name(t, &[byte, b'x']));
                self.changed(format!("{what}: byte {byte} last in the name"), |t| name(t, &[b'x', b'y', byte]));
            }
        }
    }

    /// A 17th task of a partition, also with a second fault.
    fn crowds(&mut self) {
        self.add("crowd: 16 tasks of partition 1", CROWD, self.bases.crowd.clone());
        let with = |change: &dyn Fn(&mut Tables)| {
            let mut tables = crowd();
            change(&mut tables);
            file::write(&tables)
        };
        let seventeenth = |t: &mut Tables| t.tasks.push(task("v", 1));
        self.add("crowd: a 17th task of partition 1 at the end", CROWD, with(&seventeenth));
        self.add("crowd: one more task of partition 0", CROWD, with(&|t| t.tasks.push(task("v", 0))));
        self.add("crowd: task 7 makes the last the 17th of partition 1", CROWD, with(&|t| t.tasks[7].partition = 1));
        let two = |second: &dyn Fn(&mut Task)| {
            with(&|t| {
                seventeenth(t);
                second(&mut t.tasks[17]);
            })
        };
        self.add("crowd: the 17th, with no execution time on core 3", CROWD, two(&|x| x.execution[3] = 0));
        self.add("crowd: the 17th, with no name", CROWD, two(&|x| x.name.clear()));
        self.add("crowd: the 17th, with a blank for a name", CROWD, two(&|x| x.name = b" ".to_vec()));
        let mut cut = with(&seventeenth);
        cut.pop();
        self.add("crowd: the 17th, without its name", CROWD, cut.clone());
        cut.pop();
        self.add("crowd: the 17th, cut in its numbers", CROWD, cut);
    }

    /// Two faults, of which the first check that fails is told.
    fn two_faults(&mut self) {
        let rows = places(&small());
        let (second, last) = (&rows[1], &rows[4]);
        let short = |t: &mut Tables| t.partitions[1].period = LEAST_PERIOD - 1;
        let (fixed, named) = (second.at + second.fixed, second.at + second.fixed + second.name);
        self.changed_and_cut("partition 1: a short period, cut in its numbers", fixed - 1, short);
        self.changed_and_cut("partition 1: a short period, cut in its name", named - 1, short);
        self.changed_and_cut("partition 1: a blank in its name, cut in it", named - 1, |t| {
            t.partitions[1].name = b" x".to_vec();
        });
        self.changed("partition 1: a short period and no name", |t| {
            short(t);
            t.partitions[1].name.clear();
        });

        let unknown = |t: &mut Tables| t.tasks[1].partition = 3;
        let (fixed, named) = (last.at + last.fixed, last.at + last.fixed + last.name);
        self.changed("task 1: partition 3 and no deadline", |t| {
            unknown(t);
            t.tasks[1].deadline = 0;
        });
        self.changed("task 1: partition 3 and a blank in its name", |t| {
            unknown(t);
            t.tasks[1].name[3] = 32;
        });
        self.changed("task 1: too many requests on core 0 and no name", |t| {
            t.tasks[1].requests[0] = MOST_REQUESTS + 1;
            t.tasks[1].name.clear();
        });
        self.changed_and_cut("task 1: partition 3, cut in its numbers", fixed - 1, unknown);
        self.changed_and_cut("task 1: partition 3, cut in its name", named - 1, unknown);
        self.changed_and_cut("task 1: no deadline, cut in its name", named - 1, |t| t.tasks[1].deadline = 0);
        self.changed_and_cut("task 1: a blank in its name, cut in it", named - 1, |t| t.tasks[1].name[0] = 32);

        self.changed("link 0: partition 3 with itself", |t| t.links[0] = (3, 3));
        self.changed("link 1: partition 3 before partition 0", |t| t.links[1] = (3, 0));
        self.changed("link 2: partition 15, before the one before it", |t| t.links[2] = (0, 15));
        self.changed("partition 2 and task 0 have no names", |t| {
            t.partitions[2].name.clear();
            t.tasks[0].name.clear();
        });
        self.changed("task 0 and link 0 name partition 3", |t| {
            t.tasks[0].partition = 3;
            t.links[0].1 = 3;
        });
    }

    fn bytes_after(&mut self) {
        for more in [1, 2, 100] {
            let mut file = self.bases.small.clone();
            file.extend(vec![0; more]);
            self.add(format!("{more} bytes after the end"), SMALL, file);
        }
        let mut file = self.bases.small.clone();
        let first_link = file.len() - 3;
        file[2] -= 4;
        self.add("the last link is not counted", SMALL, file.clone());
        file[first_link] = 0x10;
        self.add("the last link is not counted, the first is turned", SMALL, file);
        self.add("the largest file", LARGEST, self.bases.largest.clone());
        let mut file = self.bases.largest.clone();
        file.push(0);
        self.add("the largest file, a byte after the end", LARGEST, file);
        for more in 0..3 {
            let mut file = vec![0x20, 0, 0];
            file.extend(vec![255; more]);
            self.add(format!("one core and nothing else, {more} bytes after it"), SMALL, file);
        }
    }
}

/// All cases.
pub fn cases() -> Vec<Case> {
    let mut table = Table { bases: bases(), cases: vec![] };
    table.changed("nothing", |_| {});
    table.headers();
    table.cut_rows();
    table.fields();
    table.members();
    table.links();
    table.names();
    table.crowds();
    table.two_faults();
    table.bytes_after();
    table.cases
}

/// A case as a line: its base file, how many bytes of it stay in front, the bytes that follow them, where the base file
/// goes on, and what the case is.
fn line(bases: &Bases, case: &Case) -> String {
    let (base, file) = (bases.bytes(case.base), &case.file);
    let front = base.iter().zip(file).take_while(|(a, b)| a == b).count();
    let most = base.len().min(file.len()) - front;
    let back = base.iter().rev().zip(file.iter().rev()).take(most).take_while(|(a, b)| a == b).count();
    let hex: String = file[front..file.len() - back].iter().map(|byte| format!("{byte:02x}")).collect();
    format!("{} {front} {hex} {} {}\n", case.base, base.len() - back, case.what)
}

/// The table of the cases.
pub fn table_text(cases: &[Case]) -> Vec<u8> {
    let bases = bases();
    cases.iter().map(|case| line(&bases, case)).collect::<String>().into_bytes()
}
