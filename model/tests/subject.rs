//! The model on small computers worked through by hand, and against definitions searched value by value.

use model::arbiter::*;
use model::file::{self, Writer};
use model::plan::*;
use model::refusal::*;
use model::rehearsal::rehearse_text;
use model::shipped::{largest, two_cores};
use model::tables::*;
use model::text::*;

const MS: u128 = 1_000_000_000;

fn partition(period: u128) -> Partition {
    Partition { period, name: b"p".to_vec() }
}

fn task(partition: usize, period: u128, deadline: u128, execution: u128, requests: u128) -> Task {
    Task { partition, period, deadline, execution: [execution; 4], requests: [requests; 4], name: b"t".to_vec() }
}

fn tables(cores: usize, partitions: &[u128], tasks: Vec<Task>, links: &[(usize, usize)]) -> Tables {
    let partitions = partitions.iter().map(|&period| partition(period)).collect();
    Tables { cores, partitions, tasks, links: links.to_vec() }
}

fn no<A: std::fmt::Debug>(answer: Result<A, Refusal>) -> (u32, u128) {
    let refusal = answer.unwrap_err();
    (refusal.number, refusal.tells)
}

fn told(tab: &[u8]) -> (u32, u128) {
    no(file::read(tab))
}

/// One core, two tasks without requests.
fn two_tasks(c0: u128, c1: u128, deadline: u128) -> Tables {
    let tasks = vec![task(0, 10 * MS, 10 * MS, c0, 0), task(0, 20 * MS, deadline, c1, 0)];
    tables(1, &[20 * MS], tasks, &[])
}

#[test]
fn small_files() {
    let nothing = file::read(&[0x20, 0, 0]).unwrap();
    assert_eq!(nothing, tables(1, &[], vec![], &[]));
    let one = [0x21, 0, 0, 0, 0x03, 0xB9, 0xAC, 0xA0, 0x01, 0x41];
    let read = file::read(&one).unwrap();
    assert_eq!(read.partitions, [Partition { period: MS, name: b"A".to_vec() }]);
    assert_eq!(file::write(&read), one);
    assert_eq!(told(&[0x21, 0, 0, 0, 0x03, 0xB9, 0xAC, 0x9F, 0xF1, 0x41]), (2, 3));
}

#[test]
fn a_file_byte_by_byte() {
    let tab = [
        0x42, 0x02, 0x04, //
        0x00, 0x03, 0xB9, 0xAC, 0xA0, 0x01, 0x41, //
        0x00, 0x4A, 0x81, 0x7C, 0x80, 0x01, 0x42, //
        0x10, 0x04, 0xA8, 0x17, 0xC8, 0x00, 0x00, 0x34, 0x27, 0x70, 0xC0, 0x00, 0x00, 0xEE, 0x6B, 0x28, 0x00, 0x00,
        0x0E, 0xE6, 0xB2, 0x80, 0x00, 0x01, 0x2A, 0x05, 0xF2, 0x00, 0x00, 0x12, 0xA0, 0x5F, 0x20, 0x00, 0x03, 0xE8,
        0x00, 0x3E, 0x80, 0x04, 0xB0, 0x00, 0x4B, 0x02, 0x72, 0x78, //
        0x01,
    ];
    let said = Tables {
        cores: 2,
        partitions: vec![
            Partition { period: MS, name: b"A".to_vec() },
            Partition { period: 20 * MS, name: b"B".to_vec() },
        ],
        tasks: vec![Task {
            partition: 1,
            period: 20 * MS,
            deadline: 14 * MS,
            execution: [4 * MS, 4 * MS, 5 * MS, 5 * MS],
            requests: [1_000, 1_000, 1_200, 1_200],
            name: b"rx".to_vec(),
        }],
        links: vec![(0, 1)],
    };
    assert_eq!(tab.len(), 64);
    assert_eq!(file::read(&tab), Ok(said));
    assert_eq!(check_text(&tab, &[255, 1]), b"0 4000000000\n");

    let changes = "\
        # both on one core, then apart\n\
        adopt 0 0\n\
        place 1 1\n\
        \n\
        withdraw 2\n\
        retime 0 20000000000 14000000000 15000000000 4000000000 5000000000 5000000000 1000 1000 1200 1200\n";
    let said = "\
        2 accepted\n\
        3 accepted\n\
        5 refused 9 at 2\n\
        6 accepted\n\
        played 4, accepted 3, refused 1\n\
        refused 9: 1 times\n\
        0 4000000000\n";
    assert_eq!(String::from_utf8(rehearse_text(&tab, changes.as_bytes())).unwrap(), said);
}

#[test]
fn headers() {
    assert_eq!(told(&[]), (1, 0));
    assert_eq!(told(&[0x20, 0]), (1, 0));
    let header = |cores, partitions, tasks, links, spare| {
        let mut out = Writer::default();
        out.field(cores, 3).field(partitions, 5).field(tasks, 7).field(links, 7).field(spare, 2);
        told(&out.bytes())
    };
    assert_eq!(header(0, 0, 0, 0, 0), (2, 0));
    assert_eq!(header(5, 0, 0, 0, 0), (2, 0));
    assert_eq!(header(1, 17, 0, 0, 0), (2, 0));
    assert_eq!(header(1, 0, 65, 0, 0), (2, 0));
    assert_eq!(header(1, 0, 0, 121, 0), (2, 0));
    assert_eq!(header(1, 0, 0, 0, 1), (2, 0));
    assert_eq!(header(1, 0, 0, 0, 2), (2, 0));
    assert_eq!(header(4, 16, 64, 120, 0), (1, 3));
    assert_eq!(header(4, 0, 64, 120, 0), (1, 3));
    assert_eq!(header(4, 0, 0, 120, 0), (1, 3));
}

#[test]
fn order_of_checks_in_a_task_row() {
    let row = |change: &dyn Fn(&mut Task)| {
        let mut with = tables(1, &[MS], vec![task(0, MS, 1, 1, 0)], &[]);
        change(&mut with.tasks[0]);
        file::write(&with)
    };
    let at = 3 + 6 + 1;
    assert!(file::read(&row(&|_| ())).is_ok());
    for (i, wrong) in [(0, MS - 1), (0, MOST_TIME + 1), (1, 0), (1, MOST_TIME + 1)] {
        let tab = row(&|t| if i == 0 { t.period = wrong } else { t.deadline = wrong });
        assert_eq!(told(&tab), (2, at));
    }
    for q in 0..4 {
        assert_eq!(told(&row(&|t| t.execution[q] = 0)), (2, at));
        assert_eq!(told(&row(&|t| t.execution[q] = MOST_TIME + 1)), (2, at));
        assert_eq!(told(&row(&|t| t.requests[q] = 1_000_001)), (2, at));
        assert!(file::read(&row(&|t| t.requests[q] = 1_000_000)).is_ok());
    }
    // 2 before 4, 4 before an incomplete name, an incomplete name before 3
    let both = |t: &mut Task| {
        t.partition = 1;
        t.deadline = 0;
    };
    assert_eq!(told(&row(&both)), (2, at));
    let mut tab = row(&|t| t.partition = 1);
    tab.pop();
    assert_eq!(told(&tab), (4, at));
    let mut tab = row(&|t| t.name = b" x".to_vec());
    assert_eq!(told(&tab), (3, at));
    tab.pop();
    assert_eq!(told(&tab), (1, at));
    assert_eq!(told(&row(&|t| t.name = vec![])), (3, at));
    assert_eq!(told(&row(&|t| t.name = vec![127])), (3, at));
    assert_eq!(told(&row(&|t| t.name = vec![32])), (3, at));
    assert!(file::read(&row(&|t| t.name = vec![33, 126])).is_ok());
    // the fixed part must be complete before its fields are looked at
    let mut tab = row(&|t| t.deadline = 0);
    tab.truncate(tab.len() - 2);
    assert_eq!(told(&tab), (1, at));
}

#[test]
fn seventeenth_task() {
    let mut with = tables(1, &[MS, MS], vec![task(0, MS, 1, 1, 0); 16], &[]);
    with.tasks.extend(vec![task(1, MS, 1, 1, 0); 16]);
    assert!(file::read(&file::write(&with)).is_ok());
    with.tasks.push(task(0, MS, 1, 1, 0));
    let at = 3 + 2 * 7 + 32 * 45;
    assert_eq!(told(&file::write(&with)), (7, at));
    // 7 before an incomplete name
    let mut tab = file::write(&with);
    tab.pop();
    assert_eq!(told(&tab), (7, at));
}

#[test]
fn links() {
    let with = |links: &[(usize, usize)]| file::write(&tables(1, &[MS; 3], vec![], links));
    let at = 3 + 3 * 7;
    assert!(file::read(&with(&[(0, 1), (0, 2), (1, 2)])).is_ok());
    assert_eq!(told(&with(&[(0, 3)])), (4, at));
    assert_eq!(told(&with(&[(3, 0)])), (4, at));
    assert_eq!(told(&with(&[(1, 1)])), (5, at));
    assert_eq!(told(&with(&[(1, 0)])), (5, at));
    assert_eq!(told(&with(&[(0, 1), (0, 1)])), (5, at + 1));
    assert_eq!(told(&with(&[(0, 2), (0, 1)])), (5, at + 1));
    assert_eq!(told(&with(&[(1, 2), (0, 2)])), (5, at + 1));
    let mut tab = with(&[(0, 1), (0, 2)]);
    tab.pop();
    assert_eq!(told(&tab), (1, at + 1));
    tab.extend([2, 0, 0]);
    assert_eq!(told(&tab), (6, at + 2));
}

#[test]
fn largest_file() {
    let tab = file::write(&largest());
    assert_eq!(tab.len(), 4_235);
    assert_eq!(tab.len() + 1, MOST_TABLE_BYTES);
    assert_eq!(file::read(&tab), Ok(largest()));
    let text = check_text(&tab, &[3; 16]);
    assert!(text.starts_with(b"0 1\n1 2\n"));
}

#[test]
fn every_cut_of_a_file_is_incomplete() {
    let tab = file::write(&two_cores());
    for len in 0..tab.len() {
        let rows = [0, 3, 14, 24, 75, 124];
        let row = rows.iter().zip(&[3, 14, 24, 75, 124, 125]).find(|(_, &end)| len < end).unwrap().0;
        assert_eq!(told(&tab[..len]), (1, *row as u128), "{len}");
    }
}

#[test]
fn response_times_without_requests() {
    let arbiter = station(1);
    let mut plan = Plan::of_tables(two_tasks(3 * MS, 8 * MS, 14 * MS));
    plan.adopt(&arbiter, &[0]).unwrap();
    assert_eq!(plan.all_times(&arbiter), [3 * MS, 14 * MS]);
    assert_eq!(plan.all_windows(&arbiter), [14 * MS]);

    let mut plan = Plan::of_tables(two_tasks(3 * MS, 8 * MS, 13 * MS));
    assert_eq!(no(plan.adopt(&arbiter, &[0])), (15, 1));
    assert_eq!(plan.core, [None]);

    let mut plan = Plan::of_tables(two_tasks(5 * MS, 5 * MS, 20 * MS));
    plan.place(&arbiter, 0, 0).unwrap();
    assert_eq!(plan.all_times(&arbiter), [5 * MS, 10 * MS]);
    // 15 ms is a fixed point too, and going down from the limit finds it
    assert_eq!(plan.demand(&arbiter, 1, 0, 15 * MS), 15 * MS);
    assert_eq!(plan.demand(&arbiter, 1, 0, 20 * MS), 15 * MS);
}

#[test]
fn two_cores_disturb_each_other() {
    let mut with = two_cores();
    with.links.clear();
    assert_eq!(check_text(&file::write(&with), &[0, 1]), b"0 4053750000\n1 1048750000\n");
    // on one core they do not disturb each other
    assert_eq!(check_text(&file::write(&with), &[1, 1]), b"0 4000000000\n1 1000000000\n");
    assert_eq!(check_text(&file::write(&with), &[255, 1]), b"0 0\n1 1000000000\n");
    // with the link the two cores share: 60,000 + 5,000 for each request, or 60,000 for each of the others
    assert_eq!(check_text(&file::write(&two_cores()), &[0, 1]), b"0 4065000000\n1 1060000000\n");
}

#[test]
fn limit_is_the_least_of_three() {
    for (deadline, of_partition, period, least) in [(5, 6, 7, 5), (6, 5, 7, 5), (7, 6, 5, 5)] {
        let plan =
            Plan::of_tables(tables(1, &[of_partition * MS], vec![task(0, period * MS, deadline * MS, 1, 0)], &[]));
        assert_eq!(plan.limit(0), least * MS);
    }
}

#[test]
fn higher_priority_only_within_the_partition() {
    let tasks = vec![
        task(1, 10 * MS, 10 * MS, 2 * MS, 0),
        task(0, 10 * MS, 10 * MS, 3 * MS, 0),
        task(1, 10 * MS, 10 * MS, 4 * MS, 0),
        task(0, 10 * MS, 10 * MS, 5 * MS, 0),
    ];
    let mut plan = Plan::of_tables(tables(1, &[10 * MS; 2], tasks, &[]));
    let arbiter = station(1);
    plan.adopt(&arbiter, &[0, 0]).unwrap();
    assert_eq!(plan.all_times(&arbiter), [2 * MS, 3 * MS, 6 * MS, 8 * MS]);
    assert_eq!(plan.all_windows(&arbiter), [8 * MS, 6 * MS]);
    plan.withdraw(&arbiter, 1).unwrap();
    assert_eq!(plan.all_times(&arbiter), [0, 3 * MS, 0, 8 * MS]);
    assert_eq!(plan.all_windows(&arbiter), [8 * MS, 0]);
}

#[test]
fn times_and_requests_of_the_core_count() {
    let mut with = two_cores();
    with.links.clear();
    with.tasks[0].execution = [4 * MS, 5 * MS, 1, 1];
    with.tasks[0].requests = [1_000, 10, 0, 0];
    with.tasks[1].requests = [2_000, 7, 0, 0];
    let arbiter = station(2);
    let mut plan = Plan::of_tables(with);
    plan.adopt(&arbiter, &[1, 0]).unwrap();
    // task 0: 10 requests at 53,750; task 1: 10 requests of task 0 at 48,750
    assert_eq!(plan.all_times(&arbiter), [5 * MS + 537_500, MS + 487_500]);
}

#[test]
fn a_withdrawal_can_make_a_task_late() {
    // links 0-1 and 1-2; partition k stands on core k
    let tasks = vec![
        task(0, 10 * MS, MS + 1_000 * 113_750, MS, 1_000),
        task(1, 10 * MS, 10 * MS, MS, 100_000),
        task(2, 10 * MS, 10 * MS, MS, 1),
    ];
    let arbiter = RequestDriven::new(3, 48_750, 60_000, 5_000).unwrap();
    let mut with = tables(3, &[10 * MS; 3], tasks, &[(0, 1), (1, 2)]);
    with.tasks[1].requests = [0; 4];
    let mut plan = Plan::of_tables(with);
    plan.adopt(&arbiter, &[0, 1, 2]).unwrap();
    let before = plan.clone();
    assert_eq!(plan.all_times(&arbiter)[0], MS + 113_750_000);
    assert_eq!(no(plan.withdraw(&arbiter, 2)), (15, 0));
    assert_eq!(plan, before);
}

#[test]
fn a_move_can_make_a_task_on_another_core_late() {
    let mut with = two_cores();
    with.links.clear();
    with.tasks[1].deadline = 1_040_000_000;
    let arbiter = station(2);
    let mut plan = Plan::of_tables(with);
    plan.adopt(&arbiter, &[1, 1]).unwrap();
    assert_eq!(plan.all_times(&arbiter), [4 * MS, MS]);
    assert_eq!(no(plan.place(&arbiter, 0, 0)), (15, 1));
    assert_eq!(plan.core, [Some(1), Some(1)]);
}

#[test]
fn calls_and_their_checks() {
    let arbiter = station(2);
    let mut plan = Plan::of_tables(two_cores());
    assert_eq!(no(plan.adopt(&arbiter, &[0])), (13, 1));
    assert_eq!(no(plan.adopt(&arbiter, &[9, 9, 9])), (13, 3));
    assert_eq!(no(plan.adopt(&arbiter, &[255, 2])), (10, 1));
    assert_eq!(no(plan.adopt(&arbiter, &[254, 2])), (10, 0));
    assert_eq!(no(plan.place(&arbiter, 2, 7)), (9, 2));
    assert_eq!(no(plan.place(&arbiter, 1, 2)), (10, 2));
    assert_eq!(no(plan.withdraw(&arbiter, 2)), (9, 2));
    assert_eq!(no(plan.withdraw(&arbiter, 1)), (12, 1));
    let fine = numbers(&plan.tables.tasks[0]);
    assert_eq!(no(plan.retime(&arbiter, 2, [0; 10])), (11, 2));
    for position in 0..10 {
        let mut wrong = fine;
        wrong[position] = if position < 6 { 0 } else { 1_000_001 };
        assert_eq!(no(plan.retime(&arbiter, 0, wrong)), (14, position as u128));
        wrong[position] = MOST_TIME + 1;
        assert_eq!(no(plan.retime(&arbiter, 0, wrong)), (14, position as u128));
    }
    assert_eq!(plan, Plan::of_tables(two_cores()));

    plan.place(&arbiter, 0, 0).unwrap();
    plan.place(&arbiter, 0, 1).unwrap();
    assert_eq!(plan.core, [Some(1), None]);
    let mut longer = fine;
    longer[3] = 6 * MS;
    plan.retime(&arbiter, 0, longer).unwrap();
    assert_eq!(plan.all_times(&arbiter), [6 * MS, 0]);
    let before = plan.clone();
    longer[3] = 20 * MS + 1;
    assert_eq!(no(plan.retime(&arbiter, 0, longer)), (15, 0));
    assert_eq!(plan, before);
    // the numbers of an unplaced task may be anything in range
    plan.retime(&arbiter, 1, [MS, 1, MOST_TIME, 1, 1, 1, 0, 0, 0, 0]).unwrap();
    assert_eq!(no(plan.place(&arbiter, 1, 0)), (15, 1));
}

#[test]
fn trial_and_its_checks() {
    let arbiter = station(2);
    let mut plan = Plan::of_tables(two_cores());
    plan.place(&arbiter, 0, 0).unwrap();
    let before = plan.clone();
    let mut none = [];
    assert_eq!(no(plan.trial(&arbiter, 2, 2, &mut none)), (9, 2));
    assert_eq!(no(plan.trial(&arbiter, 0, 2, &mut none)), (10, 2));
    assert_eq!(no(plan.trial(&arbiter, 0, 1, &mut none)), (16, 0));
    assert_eq!(no(plan.trial(&arbiter, 1, 1, &mut none)), (17, 2));
    let mut buffer = [7; 3];
    plan.trial(&arbiter, 1, 1, &mut buffer).unwrap();
    assert_eq!(buffer, [4_065_000_000, 1_060_000_000, 7]);
    assert_eq!(plan, before);
    let late = [MS, 1, 2, 2, 2, 2, 0, 0, 0, 0];
    plan.retime(&arbiter, 1, late).unwrap();
    let mut buffer = [7; 3];
    assert_eq!(no(plan.trial(&arbiter, 1, 1, &mut buffer)), (15, 1));
    assert_eq!(buffer, [7; 3]);
}

#[test]
fn buffers() {
    let arbiter = station(2);
    let mut plan = Plan::of_tables(two_cores());
    plan.adopt(&arbiter, &[0, 1]).unwrap();
    let mut three = [9; 3];
    plan.times(&arbiter, &mut three).unwrap();
    assert_eq!(three, [4_065_000_000, 1_060_000_000, 9]);
    assert_eq!(no(plan.times(&arbiter, &mut three[..1])), (17, 2));
    assert_eq!(no(plan.windows(&arbiter, &mut three[..1])), (17, 2));
    let mut bytes = [b'!'; 30];
    assert_eq!(plan.listing(&arbiter, &mut bytes), Ok(26));
    assert_eq!(&bytes, b"0 4065000000\n1 1060000000\n!!!!");
    let mut short = [b'!'; 25];
    assert_eq!(no(plan.listing(&arbiter, &mut short)), (17, 26));
    assert_eq!(short, [b'!'; 25]);
    assert_eq!(check(&file::write(&two_cores()), &[0, 1], &mut bytes), Ok(26));
    assert_eq!(check(&[], &[], &mut bytes), Ok(15));
    assert_eq!(&bytes[..16], b"refused 1 at 0\n1");
    assert_eq!(no(check(&[], &[], &mut bytes[..14])), (17, 15));
}

#[test]
fn another_arbiter_may_leave_tasks_without_time() {
    let mut plan = Plan::of_tables(two_tasks(3 * MS, 3 * MS, 20 * MS));
    plan.adopt(&station(1), &[0]).unwrap();
    let slow = Constant(6 * MS);
    assert_eq!(plan.all_times(&slow), [9 * MS, 15 * MS]);
    let slower = Constant(7 * MS + 1);
    assert_eq!(plan.all_times(&slower), [0, 16 * MS + 1]);
    assert_eq!(plan.all_windows(&slower), [0]);
    assert_eq!(plan.listing_text(&slower), b"0 0\n1 16000000001\n");
    // a call examines every placed task, also those it does not touch
    let late = no(plan.adopt(&slower, &[0]));
    assert_eq!(late, (15, 0));
    assert_eq!(no(plan.retime(&slower, 1, numbers(&plan.tables.tasks[1].clone()))), (15, 0));
}

#[test]
fn summaries() {
    let text = |tab: &[u8], alloc: &[u8]| String::from_utf8(summary_text(tab, alloc)).unwrap();
    let tab = file::write(&two_cores());
    let read = "Read station.tab: 125 bytes, 2 cores, 2 partitions, 2 tasks, 1 links.\n";
    assert_eq!(
        text(&tab, &[0, 1]),
        read.to_string()
            + "Read station.alloc: 2 bytes.\n\
               Partition 0 radio: core 0.\n\
               Partition 1 disk: core 1.\n\
               Verdict: accepted. Every placed task meets its limit.\n\
               Least slack: task 1 write, time 1060000000 ps, limit 10000000000 ps, slack 8940000000 ps.\n"
    );
    assert_eq!(
        text(&tab, &[255, 255]),
        read.to_string()
            + "Read station.alloc: 2 bytes.\n\
               Partition 0 radio: unplaced.\n\
               Partition 1 disk: unplaced.\n\
               Verdict: accepted. Every placed task meets its limit.\n\
               No task is placed.\n"
    );
    assert_eq!(
        text(&tab, &[0, 2]),
        read.to_string()
            + "Read station.alloc: 2 bytes.\n\
               Verdict: refused 10 at 1. The entry of the allocation at this index names no core.\n"
    );
    assert_eq!(
        text(&tab[..12], &[0; 8]),
        "Read station.tab: 12 bytes.\n\
         Read station.alloc: 8 bytes.\n\
         Verdict: refused 1 at 3. The file ends before the header or row at this offset is complete.\n"
    );
    let mut late = two_cores();
    late.tasks[1].deadline = MS;
    assert_eq!(
        text(&file::write(&late), &[0, 1]),
        read.to_string()
            + "Read station.alloc: 2 bytes.\n\
               Partition 0 radio: core 0.\n\
               Partition 1 disk: core 1.\n\
               Verdict: refused 15 at 1. With this allocation the task of this number has no response time within \
               its limit.\n\
               Late: task 1 write, limit 1000000000 ps.\n"
    );
}

#[test]
fn least_slack_is_the_first_among_equals() {
    let mut with = two_cores();
    with.links.clear();
    for t in &mut with.tasks {
        *t = task(t.partition, 10 * MS, 10 * MS, 4 * MS, 0);
    }
    with.tasks[1].deadline = 9 * MS;
    with.tasks[1].execution = [3 * MS; 4];
    let text = String::from_utf8(summary_text(&file::write(&with), &[0, 1])).unwrap();
    assert!(text.ends_with("Least slack: task 0 t, time 4000000000 ps, limit 10000000000 ps, slack 6000000000 ps.\n"));
}

/// Numbers that look random.
struct Dice(u64);

impl Dice {
    fn roll(&mut self, below: u64) -> u64 {
        self.0 ^= self.0 << 13;
        self.0 ^= self.0 >> 7;
        self.0 ^= self.0 << 17;
        self.0 % below
    }

    fn between(&mut self, from: u128, to: u128) -> u128 {
        from + u128::from(self.roll((to - from + 1) as u64))
    }
}

/// A computer with periods far below the ranges, so that every t can be tried.
fn tiny(dice: &mut Dice) -> (Tables, Vec<u8>) {
    let cores = 1 + dice.roll(4) as usize;
    let partitions: Vec<u128> = (0..1 + dice.roll(4)).map(|_| dice.between(5, 120)).collect();
    let n = partitions.len();
    let tasks = (0..dice.roll(9))
        .map(|_| {
            let mut t = task(dice.roll(n as u64) as usize, dice.between(3, 60), dice.between(1, 100), 1, 0);
            for q in 0..4 {
                t.execution[q] = dice.between(1, 6);
                t.requests[q] = dice.between(0, 4);
            }
            t
        })
        .collect();
    let mut links = vec![];
    for a in 0..n {
        for b in a + 1..n {
            if dice.roll(3) == 0 {
                links.push((a, b));
            }
        }
    }
    let alloc = (0..n).map(|_| if dice.roll(5) == 0 { UNPLACED } else { dice.roll(cores as u64) as u8 }).collect();
    (tables(cores, &partitions, tasks, &links), alloc)
}

#[test]
fn least_fixed_points_are_those_of_a_scan() {
    let mut dice = Dice(0x9E37_79B9_7F4A_7C15);
    let (mut with, mut without, mut several) = (0, 0, 0);
    for _ in 0..4_000 {
        let (tables, alloc) = tiny(&mut dice);
        let n = tables.cores;
        let plan = Plan::of_tables(tables).allocated(&alloc).unwrap();
        let (l, conflict, reorder) = (dice.between(0, 2), dice.between(0, 3), dice.between(0, 1));
        let arbiter = Lesser(
            Box::new(RequestDriven::new(n, l, conflict, reorder).unwrap()),
            Box::new(JobDriven::new(n, l, conflict).unwrap()),
        );
        for i in 0..plan.tables.tasks.len() {
            let Some(p) = plan.core_of_task(i) else {
                assert_eq!(plan.time(&arbiter, i), None);
                continue;
            };
            let fixed: Vec<u128> = (0..=plan.limit(i)).filter(|&t| plan.demand(&arbiter, i, p, t) == t).collect();
            assert_eq!(plan.time(&arbiter, i), fixed.first().copied());
            match fixed.len() {
                0 => without += 1,
                1 => with += 1,
                _ => several += 1,
            }
        }
    }
    assert!(with > 1_000 && without > 1_000 && several > 50, "{with} {without} {several}");
}

#[test]
fn written_files_read_back() {
    let mut dice = Dice(42);
    for _ in 0..500 {
        let (mut tables, _) = tiny(&mut dice);
        let mut name = || (0..dice.between(1, 15)).map(|_| dice.between(33, 126) as u8).collect();
        for p in &mut tables.partitions {
            p.period *= MS;
            p.name = name();
        }
        for t in &mut tables.tasks {
            t.period *= MS;
            t.name = name();
        }
        assert_eq!(file::read(&file::write(&tables)), Ok(tables));
    }
}

#[test]
fn accepted_calls_keep_every_placed_task_in_time() {
    let mut dice = Dice(7);
    let (mut accepted, mut late) = (0, 0);
    for _ in 0..300 {
        let (mut tables, _) = tiny(&mut dice);
        for p in &mut tables.partitions {
            p.period *= MS;
        }
        for t in &mut tables.tasks {
            t.period *= MS;
            t.deadline *= MS;
            t.execution = t.execution.map(|c| c * MS);
            t.requests = t.requests.map(|h| h * 20_000);
        }
        let arbiter = station(tables.cores);
        let cores = tables.cores as u64;
        let mut plan = Plan::of_tables(tables);
        for _ in 0..20 {
            let k = dice.roll(plan.core.len() as u64) as usize;
            let before = plan.clone();
            let answer = match dice.roll(3) {
                0 => plan.withdraw(&arbiter, k),
                _ => plan.place(&arbiter, k, dice.roll(cores) as usize),
            };
            match answer {
                Ok(()) => {
                    accepted += 1;
                    assert_eq!(plan.first_late(&arbiter), None);
                }
                Err(refusal) => {
                    late += usize::from(refusal.number == LATE);
                    assert_eq!(plan, before);
                }
            }
        }
    }
    assert!(accepted > 300 && late > 300, "{accepted} {late}");
}
