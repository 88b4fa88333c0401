//! Measures the proved calls beside an equal program in plain Rust (plain.rs): a sheet is read and
//! written back, read and searched for an overloaded interval, and planned, and a plan and claims are
//! judged against it. Run it by bench/run, which prints one table.
//!
//! Both are timed in one run, turn about, so that what else the machine does falls on both. Their
//! answers and every byte of their buffers are compared before the clock starts and after it stops.
//!
//!     bench            times everything and prints the table, without instructions
//!     bench once       makes one counted call of everything, for a program that counts instructions
//!     bench COUNTS..   the same as the first, with the instructions of those calls in that order

mod plain;

use plain::*;
use std::arch::asm;
use std::collections::BTreeMap;
use std::hint::black_box;
use std::time::Instant;

// ------------------------------------------------------------------------------------------
// The proved calls, of crates/bench/out/libbench.a
// ------------------------------------------------------------------------------------------

// A slice of the caller's is its pointer and its length.
extern "C" {
    fn gishronek_there_and_back(bytes: *const u8, length: usize, out: *mut u8, room: usize) -> u64;
    fn gishronek_search(bytes: *const u8, length: usize) -> u64;
    fn gishronek_plan(bytes: *const u8, length: usize, plan: *mut u8, room: usize) -> u64;
    fn gishronek_first_step(bytes: *const u8, length: usize) -> u64;
    fn gishronek_judge_plan(bytes: *const u8, length: usize, plan: *const u8, slots: usize) -> u64;
    fn gishronek_judge_claim(bytes: *const u8, length: usize, kind: u64, start: u64, end: u64) -> u64;
}

fn proved_there_and_back(bytes: &[u8], out: &mut [u8]) -> u64 {
    unsafe { gishronek_there_and_back(bytes.as_ptr(), bytes.len(), out.as_mut_ptr(), out.len()) }
}

fn proved_search(bytes: &[u8], _: &mut [u8]) -> u64 {
    unsafe { gishronek_search(bytes.as_ptr(), bytes.len()) }
}

fn proved_plan(bytes: &[u8], plan: &mut [u8]) -> u64 {
    unsafe { gishronek_plan(bytes.as_ptr(), bytes.len(), plan.as_mut_ptr(), plan.len()) }
}

fn proved_first_step(bytes: &[u8], _: &mut [u8]) -> u64 {
    unsafe { gishronek_first_step(bytes.as_ptr(), bytes.len()) }
}

fn proved_judge_plan(bytes: &[u8], plan: &mut [u8]) -> u64 {
    unsafe { gishronek_judge_plan(bytes.as_ptr(), bytes.len(), plan.as_ptr(), plan.len()) }
}

fn proved_judge_claim(bytes: &[u8], kind: u64, start: u64, end: u64) -> u64 {
    unsafe { gishronek_judge_claim(bytes.as_ptr(), bytes.len(), kind, start, end) }
}

// ------------------------------------------------------------------------------------------
// Claims over as many slots as the buffer has bytes, the whole day, in each kind and in one that is none
// ------------------------------------------------------------------------------------------

type Claim = fn(&[u8], u64, u64, u64) -> u64;

const CLAIMS: [Claim; 2] = [rust_judge_claim, proved_judge_claim];

const TIME: u64 = 0;
const ENERGY: u64 = 1;
/// A claim of no kind is refused as soon as the sheet is read: its time is that of the reading.
const NO_KIND: u64 = 2;

fn claim<const WHICH: usize, const KIND: u64>(bytes: &[u8], day: &mut [u8]) -> u64 {
    black_box(CLAIMS[WHICH])(bytes, KIND, 0, day.len() as u64)
}

// ------------------------------------------------------------------------------------------
// Days
// ------------------------------------------------------------------------------------------

struct Day {
    what: &'static str,
    table: Table,
    harvest: Vec<u8>,
    bytes: Vec<u8>,
}

/// What the four kinds of jobs want and what a busy slot of theirs costs, and how far the harvest
/// swings: found by trying, so that no interval is overloaded and most slots are decided by rules 4
/// to 6, for which both slacks are computed.
struct Mix {
    capacity: u16,
    wanted: [u16; 4],
    energy: [u8; 4],
    swing: u32,
}

/// A day of nested windows: of every four jobs one may run in half the day, one in a third, one in an
/// eighth and one in a sixteenth, and their releases are spread over the day. So in most slots a job
/// with a late deadline is ready while jobs with earlier ones are still to come.
fn day(what: &'static str, jobs: usize, slots: u16, mix: Mix) -> Day {
    let Mix { capacity, wanted, energy, swing } = mix;
    let mut table = Table { jobs: [Job::default(); MOST_JOBS], count: jobs, slots, capacity };
    for number in 0..jobs {
        let kind = number % 4;
        let window = slots / [2, 3, 8, 16][kind];
        let release = (number * (slots - window) as usize / jobs) as u16;
        let (wanted, energy) = (wanted[kind], energy[kind]);
        table.jobs[number] = Job { release, deadline: release + window, wanted, energy };
    }
    let harvest = |slot: u32| (slot * 8 / slots as u32 % 2 * swing + slot % 4) as u8;
    let harvest: Vec<u8> = (0..slots as u32).map(harvest).collect();
    let mut bytes = vec![0; harvest.len() + RECORD * jobs + TRAILER];
    let length = write(&table, &harvest, &mut bytes);
    assert!(matches!(length, Ok(length) if length == bytes.len()));
    Day { what, table, harvest, bytes }
}

/// How many slots each rule decides, in the order of the rules.
fn grounds(day: &Day) -> [usize; 6] {
    let totals = totals(&day.harvest);
    let mut state = first_state(&day.table);
    let mut counts = [0; 6];
    for _ in 0..day.table.slots {
        counts[match step(&day.table, &day.harvest, &totals, &mut state) {
            Decision::None => 0,
            Decision::Empty => 1,
            Decision::Full(_) => 2,
            Decision::NoSlack(_) => 3,
            Decision::Saving => 4,
            Decision::Free(_) => 5,
        }] += 1;
    }
    counts
}

// ------------------------------------------------------------------------------------------
// What is measured
// ------------------------------------------------------------------------------------------

type Call = fn(&[u8], &mut [u8]) -> u64;

/// Two calls that ought to agree, Rust's and the proved one, and what they are lent.
struct Line<'a> {
    what: &'static str,
    calls: [Call; 2],
    bytes: &'a [u8],
    buffer: Vec<u8>,
    /// Every so many bytes of the sheet is damaged for a comparison.
    every: usize,
    rounds: usize,
    /// A round is that many calls.
    times: u32,
}

/// The two days of a column, the same or with another capacity, and the plan that is judged.
struct Column {
    planned: Day,
    judged: Day,
    plan: Vec<u8>,
    every: usize,
    /// Calls a round: there and back, of the search, of the planner, of the judge.
    times: [u32; 4],
}

/// A column whose judged day the planner meets, so that the judge accepts its plan.
fn column(planned: Day, judged: Day, every: usize, times: [u32; 4]) -> Column {
    let mut plan = vec![0; judged.harvest.len()];
    assert_eq!(rust_plan(&judged.bytes, &mut plan), 0, "the planner does not meet the day");
    assert_eq!(rust_judge_plan(&judged.bytes, &mut plan), 0, "the judge refuses the planner's plan");
    Column { planned, judged, plan, every, times }
}

fn columns() -> [Column; 2] {
    let mix = |capacity| Mix { capacity, wanted: [41, 18, 7, 8], energy: [7, 6, 17, 27], swing: 11 };
    let largest = |capacity| day("largest day", 64, 1440, mix(capacity));
    let mix = || Mix { capacity: 105, wanted: [17, 3, 1, 3], energy: [6, 11, 7, 31], swing: 12 };
    let typical = || day("typical day", 12, 96, mix());
    [
        // the largest day is left undecided; with a larger capacity it is met
        column(largest(2013), largest(2500), 13, [200, 2, 1, 50]),
        column(typical(), typical(), 1, [1000, 200, 30, 500]),
    ]
}

const MEASURED: usize = 7;

impl Column {
    fn lines(&self) -> [Line<'_>; MEASURED] {
        let [back, searches, plans, judgements] = self.times;
        let planned = |what, calls, room, every, rounds, times| {
            Line { what, calls, bytes: &self.planned.bytes, buffer: vec![0xA5; room], every, rounds, times }
        };
        let judged = |what, calls| {
            let (bytes, buffer) = (&self.judged.bytes, self.plan.clone());
            Line { what, calls, bytes, buffer, every: self.every, rounds: 2000, times: judgements }
        };
        let (room, slots) = (self.planned.bytes.len(), self.plan.len());
        [
            planned("read", [claim::<0, NO_KIND>, claim::<1, NO_KIND>], slots, self.every, 2000, back),
            planned("read and write", [rust_there_and_back, proved_there_and_back], room, 1, 2000, back),
            planned("search", [rust_search, proved_search], 1, self.every, 1000, searches),
            planned("plan", [rust_plan, proved_plan], slots, self.every, 1000, plans),
            judged("judge plan", JUDGES),
            judged("judge claim time", [claim::<0, TIME>, claim::<1, TIME>]),
            judged("judge claim energy", [claim::<0, ENERGY>, claim::<1, ENERGY>]),
        ]
    }

    /// The first step, with the reading of the sheet and the start: its stack is measured, not its time.
    fn first_step(&self) -> Line<'_> {
        let (what, calls) = ("step", [rust_first_step, proved_first_step] as [Call; 2]);
        let (bytes, buffer) = (&self.planned.bytes, vec![0]);
        Line { what, calls, bytes, buffer, every: self.every, rounds: 0, times: 0 }
    }
}

// ------------------------------------------------------------------------------------------
// Comparing
// ------------------------------------------------------------------------------------------

/// Both give the same answer and leave the same bytes. Answers it.
fn compare(calls: [Call; 2], bytes: &[u8], buffer: &[u8]) -> u64 {
    let mut outs = [buffer.to_vec(), buffer.to_vec()];
    let answers = [0, 1].map(|which| calls[which](bytes, &mut outs[which]));
    assert_eq!(answers[0], answers[1], "the two answers differ");
    assert_eq!(outs[0], outs[1], "the two buffers differ");
    answers[0]
}

/// Compares the two on the day, on a buffer that is one short and on the day with one byte damaged
/// (every so many bytes). Answers the day's answer.
fn compare_on_day(line: &Line) -> u64 {
    let Line { calls, bytes, buffer, every, .. } = line;
    compare(*calls, bytes, &buffer[1..]);
    for at in (0..bytes.len()).step_by(*every) {
        let mut damaged = bytes.to_vec();
        damaged[at] ^= 0x81;
        compare(*calls, &damaged, buffer);
    }
    compare(*calls, bytes, buffer)
}

const JUDGES: [Call; 2] = [rust_judge_plan, proved_judge_plan];

/// The two judges agree on plans with one byte of this one changed, on the day and on one with an eighth
/// of its capacity, and on plans that are too short or too long; and on claims at intervals all over the
/// day and at some that are none, in each kind and in some that are none, on the day and on one that is
/// overloaded. Answers how often each refusal was given, 0 for none.
fn compare_judges(day: &Day, plan: &[u8]) -> BTreeMap<u64, usize> {
    let mut given = BTreeMap::new();
    let mut count = |answer: u64| *given.entry(answer % 32).or_insert(0) += 1;
    let (jobs, slots) = (day.table.count as u8, plan.len());
    let mut poor = day.bytes.clone();
    let capacity = poor.len() - 4;
    poor[capacity..capacity + 2].copy_from_slice(&(day.table.capacity / 8).to_le_bytes());
    for slot in (0..slots).step_by(13) {
        for byte in [0, 1, jobs / 2, jobs - 1, jobs, 254, IDLE] {
            let mut changed = plan.to_vec();
            changed[slot] = byte;
            count(compare(JUDGES, &day.bytes, &changed));
            count(compare(JUDGES, &poor, &changed));
        }
        count(compare(JUDGES, &day.bytes, &plan[slot + 1..]));
    }
    count(compare(JUDGES, &day.bytes, &[plan, &[IDLE]].concat()));
    let mut overloaded = day.bytes.clone();
    overloaded[4..6].copy_from_slice(&MOST_SLOTS.to_le_bytes());
    let ends = |parts: usize| (0..=slots).step_by(slots / parts).map(|end| end as u64);
    for bytes in [&day.bytes, &overloaded] {
        for start in ends(8).chain([u64::MAX]) {
            for end in ends(16).chain([slots as u64 + 1, u64::MAX]) {
                for kind in [0, 1, 2, u64::MAX] {
                    let [rust, proved] = CLAIMS.map(|claim| claim(bytes, kind, start, end));
                    assert_eq!(rust, proved, "the two answers differ");
                    count(rust);
                }
            }
        }
    }
    given
}

// ------------------------------------------------------------------------------------------
// Timing
// ------------------------------------------------------------------------------------------

/// Nanoseconds a call, over that many calls.
fn timed(call: Call, calls: u32, bytes: &[u8], out: &mut [u8]) -> f64 {
    let start = Instant::now();
    for _ in 0..calls {
        black_box(call(black_box(bytes), black_box(&mut *out)));
    }
    start.elapsed().as_nanos() as f64 / calls as f64
}

/// The same with the stack moved on by about that many bytes: how a table on the stack lies on the
/// cache lines and against the buffers is chance, and from round to round it is dealt anew for both.
#[inline(never)]
fn timed_behind<const N: usize>(call: Call, calls: u32, bytes: &[u8], out: &mut [u8]) -> f64 {
    black_box(&mut [0u8; N]);
    timed(call, calls, bytes, out)
}

const BEHIND: [fn(Call, u32, &[u8], &mut [u8]) -> f64; 4] =
    [timed_behind::<16>, timed_behind::<1056>, timed_behind::<2096>, timed_behind::<3136>];

fn median(mut values: Vec<f64>) -> f64 {
    values.sort_by(f64::total_cmp);
    values[values.len() / 2]
}

/// The nanoseconds a call of Rust's and of the proved one, round by round: those of a round stand side by
/// side in time.
type Times = [Vec<f64>; 2];

/// Compares the two of each line, times them all on the day, in the same rounds, and compares them again.
fn bench(lines: &[Line]) -> Vec<Times> {
    let answers: Vec<u64> = lines.iter().map(compare_on_day).collect();
    let mut outs: Vec<_> = lines.iter().map(|line| [line.buffer.clone(), line.buffer.clone()]).collect();
    let mut taken = vec![[Vec::new(), Vec::new()]; lines.len()];
    for round in 0..lines[0].rounds {
        for ((line, outs), taken) in lines.iter().zip(&mut outs).zip(&mut taken) {
            // turn about, and each first in half the rounds
            for which in [round % 2, (round + 1) % 2] {
                let timed = BEHIND[round / 2 % 4];
                taken[which].push(timed(line.calls[which], line.times, line.bytes, &mut outs[which]));
            }
        }
    }
    for [rust, proved] in outs {
        assert_eq!(rust, proved, "the two buffers differ");
    }
    assert_eq!(lines.iter().map(compare_on_day).collect::<Vec<_>>(), answers);
    taken
}

// ------------------------------------------------------------------------------------------
// Instructions
// ------------------------------------------------------------------------------------------

/// The call whose instructions bench/run has counted, by this name.
#[no_mangle]
#[inline(never)]
fn gishronek_counted(call: Call, bytes: &[u8], out: &mut [u8]) -> u64 {
    black_box(call)(bytes, out)
}

fn nothing(_: &[u8], _: &mut [u8]) -> u64 {
    0
}

/// One counted call that does nothing, and one of each side of each line, each made once before.
fn once(columns: &[Column]) {
    gishronek_counted(nothing, &[], &mut []);
    for line in columns.iter().flat_map(Column::lines) {
        for call in line.calls {
            let mut out = line.buffer.clone();
            let answer = call(line.bytes, &mut out);
            assert_eq!(gishronek_counted(call, line.bytes, &mut out), answer);
        }
    }
}

/// The instructions of each line, in the order of `once`, less those of a call that does nothing; none
/// where none were counted.
fn counted(counts: &[u64]) -> Vec<Option<[u64; 2]>> {
    let Some((nothing, counts)) = counts.split_first() else {
        return vec![None; 2 * MEASURED];
    };
    assert_eq!(counts.len(), 2 * 2 * MEASURED, "there are more or fewer counts than counted calls");
    counts.chunks_exact(2).map(|sides| Some([sides[0] - nothing, sides[1] - nothing])).collect()
}

// ------------------------------------------------------------------------------------------
// The table
// ------------------------------------------------------------------------------------------

/// What was measured of a line on a day, of Rust and of the proved call. The ratio is taken round by round.
struct Figures {
    times: Times,
    instructions: Option<[u64; 2]>,
}

impl Figures {
    /// What is left of each when a part of it, timed by itself in the same rounds, is taken off.
    fn without(&self, part: &Figures) -> Figures {
        let times = [0, 1].map(|which| {
            let rounds = self.times[which].iter().zip(&part.times[which]);
            rounds.map(|(whole, part)| whole - part).collect()
        });
        let both = self.instructions.zip(part.instructions);
        let instructions = both.map(|(whole, part)| [whole[0] - part[0], whole[1] - part[1]]);
        Figures { times, instructions }
    }

    fn cells(&self) -> String {
        let [rust, proved] = &self.times;
        let ratio = median(rust.iter().zip(proved).map(|(rust, proved)| proved / rust).collect());
        let [rust, proved] = [rust, proved].map(|times| microseconds(median(times.clone())));
        let times = format!("{rust:>7} {proved:>7} {ratio:>5.2}");
        let [rust, proved, ratio] = match self.instructions {
            Some([rust, proved]) => {
                [grouped(rust), grouped(proved), format!("{:.2}", proved as f64 / rust as f64)]
            }
            None => ["-", "-", "-"].map(String::from),
        };
        format!("{times}  {rust:>10} {proved:>10} {ratio:>5}")
    }
}

fn microseconds(nanoseconds: f64) -> String {
    let digits = if nanoseconds < 10_000.0 { 3 } else { 1 };
    format!("{:.digits$}", nanoseconds / 1000.0)
}

/// A number with a comma before every three digits.
fn grouped(number: u64) -> String {
    let digits = number.to_string();
    let mut text = String::new();
    for (at, digit) in digits.chars().enumerate() {
        if 0 < at && (digits.len() - at) % 3 == 0 {
            text.push(',');
        }
        text.push(digit);
    }
    text
}

/// Times a column's lines. Answers its rows: each with its name.
fn rows(column: &Column, instructions: &[Option<[u64; 2]>]) -> Vec<(&'static str, Figures)> {
    let given = compare_judges(&column.judged, &column.plan);
    let lines = column.lines();
    // a part and its whole are timed together
    let times = [&lines[..2], &lines[2..4], &lines[4..5], &lines[5..6], &lines[6..]].map(bench).concat();
    let figures = times.into_iter().zip(instructions).map(|(times, instructions)| {
        Figures { times, instructions: *instructions }
    });
    let mut rows: Vec<_> = lines.iter().map(|line| line.what).zip(figures).collect();
    // what is left of a whole stands before it
    let [read, both, search, plan] = [0, 1, 2, 3].map(|row: usize| &rows[row].1);
    let (write, run) = (both.without(read), plan.without(search));
    rows.insert(3, ("run", run));
    rows.insert(1, ("write", write));
    assert_eq!(compare_judges(&column.judged, &column.plan), given);
    let Day { what, table, .. } = &column.planned;
    println!("{what}: {} jobs, {} slots, capacity {}", table.count, table.slots, table.capacity);
    println!("    slots decided by rules 1 to 6: {:?}", grounds(&column.planned));
    let capacity = column.judged.table.capacity;
    println!("    judged with capacity {capacity}; beside the timed calls, refusals given: {given:?}");
    rows
}

fn print_table(columns: &[Column], counts: &[u64]) {
    let counts = counted(counts);
    let [largest, typical] = [0, 1].map(|day| rows(&columns[day], &counts[day * MEASURED..][..MEASURED]));
    let print = |name: &str, cells: [&str; 2]| println!("{name:<18} | {:<50} | {}", cells[0], cells[1]);
    println!();
    print("", [columns[0].planned.what, columns[1].planned.what]);
    print("", ["   microseconds            instructions"; 2]);
    print("", ["   Rust  proved ratio        Rust     proved ratio"; 2]);
    for ((name, largest), (_, typical)) in largest.iter().zip(&typical) {
        print(name, [&largest.cells(), &typical.cells()]);
    }
    println!();
}

// ------------------------------------------------------------------------------------------
// Stack
// ------------------------------------------------------------------------------------------

/// A call and what it is lent.
struct Lent<'a> {
    call: Call,
    bytes: &'a [u8],
    out: &'a mut [u8],
}

extern "C" fn make(lent: &mut Lent) -> u64 {
    (lent.call)(lent.bytes, lent.out)
}

/// The bytes that a call, made by `make`, changes of a stack of its own: the stack is painted before,
/// and the lowest byte that was changed is looked for.
fn changed_by(call: Call, bytes: &[u8], out: &mut [u8]) -> usize {
    // two paints, since what the call writes may be of the one colour
    let taken = [0xA5u8, 0x5A].map(|paint| {
        let mut stack = vec![paint; 1 << 18];
        let top = (stack.as_mut_ptr() as usize + stack.len()) & !15;
        let mut lent = Lent { call, bytes, out };
        // The call's stack pointer is the painted stack's end, and r12 keeps our own over the call.
        unsafe {
            asm!(
                "mov r12, rsp",
                "mov rsp, {top}",
                "call {make}",
                "mov rsp, r12",
                top = in(reg) top,
                make = in(reg) make as *const () as usize,
                in("rdi") &mut lent,
                out("r12") _,
                clobber_abi("sysv64"),
            );
        }
        let low = stack.iter().position(|byte| *byte != paint).expect("a call writes to its stack");
        top - (stack.as_ptr() as usize + low)
    });
    taken[0].max(taken[1])
}

/// A return address.
const ADDRESS: usize = 8;

/// The bytes of stack that a call takes, its return address with them: what it changes beyond a call
/// that does nothing.
fn stack_of(call: Call, bytes: &[u8], out: &mut [u8]) -> usize {
    ADDRESS + changed_by(call, bytes, out) - changed_by(nothing, bytes, out)
}

/// The most that each of the two takes, on the two days.
fn print_stack([largest, typical]: [&Line; 2]) {
    let [rust, proved] = [0, 1].map(|which| {
        let of = |line: &Line| stack_of(line.calls[which], line.bytes, &mut line.buffer.clone());
        of(largest).max(of(typical)) as u64
    });
    let ratio = proved as f64 / rust as f64;
    println!("{:<18} | {:>7} {:>7} {ratio:>5.2}", largest.what, grouped(rust), grouped(proved));
}

fn print_stacks(columns: &[Column]) {
    println!("{:<18} | {:>7} {:>7} {:>5}", "bytes of stack", "Rust", "proved", "ratio");
    for (largest, typical) in columns[0].lines().iter().zip(&columns[1].lines()) {
        print_stack([largest, typical]);
    }
    let [largest, typical] = [0, 1].map(|day: usize| columns[day].first_step());
    for step in [&largest, &typical] {
        compare_on_day(step);
    }
    print_stack([&largest, &typical]);
    println!();
}

fn main() {
    let words: Vec<String> = std::env::args().skip(1).collect();
    let columns = columns();
    if words == ["once"] {
        return once(&columns);
    }
    let counts: Vec<u64> = words.iter().map(|word| word.parse().expect("a count is a number")).collect();
    print_table(&columns, &counts);
    print_stacks(&columns);
}
