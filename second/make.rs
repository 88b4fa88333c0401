//! The case maker: request n of a seed is always the same bytes, whichever others are made.

use crate::days::*;
use crate::hand::*;
use crate::paper::*;
use crate::requests::{KINDS, MOST_PAYLOAD};
use std::io::Write;

#[derive(Clone, PartialEq)]
pub struct Request {
    pub kind: u8,
    pub payload: Vec<u8>,
}

impl Request {
    pub fn new(kind: u8, parts: &[&[u8]]) -> Request {
        Request { kind, payload: parts.concat() }
    }

    pub fn bytes(&self) -> Vec<u8> {
        let length = (self.payload.len() as u32).to_le_bytes();
        [&[self.kind][..], &length, &self.payload].concat()
    }
}

// ------------------------------------------------------------------------------------------
// Days at the edge
// ------------------------------------------------------------------------------------------

/// One of these.
fn one_of<T: Copy>(dice: &mut Dice, many: &[T]) -> T {
    many[dice.below(many.len() as i64) as usize]
}

/// A harvest byte that lies beside the number wanted.
fn as_harvest(number: i64) -> u8 {
    number.clamp(0, 255) as u8
}

/// Up to 4 slots, 2 jobs and small numbers.
fn tiny_day(dice: &mut Dice) -> Day {
    let slots = dice.between(1, 4);
    let mut day = Day {
        jobs: Vec::new(),
        capacity: dice.between(0, 4),
        harvest: (0..slots).map(|_| dice.between(0, 2) as u8).collect(),
    };
    for _ in 0..dice.between(0, 2) {
        let release = dice.below(slots);
        let deadline = dice.between(release + 1, slots);
        let wanted = dice.between(1, 2);
        day.jobs.push(Job { release, deadline, wanted, energy: dice.between(1, 4) });
    }
    day
}

/// What a slot ends with: exactly full or empty, or one short of either, or one more.
fn level_at_edge(dice: &mut Dice, capacity: i64) -> i64 {
    match dice.below(6) {
        0 | 1 => 0,
        2 => 1,
        3 => capacity,
        4 => capacity - 1,
        _ => capacity + 1,
    }
}

/// The day with the harvest of many slots set so that the run ends them at an edge.
fn tuned_to_run(dice: &mut Dice, mut day: Day) -> Day {
    let table = day.table();
    let mut state = first_state(&table);
    while state.slot < table.slots {
        let slot = state.slot as usize;
        if dice.below(3) > 0 {
            let spent = match decide(&table, &day.harvest, &state) {
                Decision::Busy(number, _) => day.jobs[number].energy,
                Decision::Idle(_) => 0,
            };
            let wanted = level_at_edge(dice, day.capacity) - state.level + spent;
            if wanted >= 0 {
                day.harvest[slot] = as_harvest(wanted);
            }
        }
        let decision = decide(&table, &day.harvest, &state);
        state = next_state(&table, &day.harvest, &state, decision);
    }
    day
}

/// The day with the harvest of many slots set so that the plan ends them at an edge, or lacks one.
fn tuned_to_plan(dice: &mut Dice, mut day: Day, plan: &[u8]) -> Day {
    let mut level = day.capacity;
    for slot in 0..day.harvest.len().min(plan.len()) {
        let spent = day.jobs.get(plan[slot] as usize).map_or(0, |job| job.energy);
        if dice.below(3) > 0 || level + (day.harvest[slot] as i64) < spent {
            let lacking = if dice.one_in(12) { 1 } else { 0 };
            let edge = level_at_edge(dice, day.capacity).max(0) - lacking;
            day.harvest[slot] = as_harvest(edge - level + spent);
        }
        level = (level + day.harvest[slot] as i64 - spent).min(day.capacity);
    }
    day
}

/// A plan, and a day of which it is a good plan, or beside one by little.
fn planned_day(dice: &mut Dice) -> (Day, Vec<u8>) {
    let slots = dice.between(1, 12);
    let jobs = dice.between(1, 4);
    let mut plan: Vec<u8> = (0..slots)
        .map(|_| if dice.one_in(3) { IDLE_BYTE } else { dice.below(jobs) as u8 })
        .collect();
    let capacity = one_of(dice, &[0, 1, 2, 3, 5, 9, 300]);
    let most_energy = one_of(dice, &[1, 2, 3, 4, 255]);
    let mut day = Day { jobs: Vec::new(), capacity, harvest: vec![0; slots as usize] };
    for number in 0..jobs as u8 {
        let first = plan.iter().position(|byte| *byte == number).unwrap_or(0) as i64;
        let last = plan.iter().rposition(|byte| *byte == number).unwrap_or(0) as i64;
        let times = plan.iter().filter(|byte| **byte == number).count() as i64;
        let release = if dice.one_in(2) { first } else { dice.between(0, first) };
        let deadline = if dice.one_in(2) { last + 1 } else { dice.between(last + 1, slots) };
        let wanted = (times + one_of(dice, &[0, 0, 0, 0, 0, 0, 1, -1])).max(1);
        day.jobs.push(Job { release, deadline, wanted, energy: dice.between(1, most_energy) });
    }
    if times_of(&plan, jobs as u8 - 1) == 0 {
        // a job without slots is no plan's: the last one goes
        day.jobs.pop();
    }
    let day = tuned_to_plan(dice, day, &plan);
    match dice.below(8) {
        0 => {
            let slot = dice.below(slots) as usize;
            plan[slot] = one_of(dice, &[0, 1, 2, 3, 4, 64, 254, 255]);
        }
        1 => {
            let slot = dice.below(slots) as usize;
            plan.swap(slot, (slot + 1) % slots as usize);
        }
        _ => {}
    }
    (day, plan)
}

fn times_of(plan: &[u8], byte: u8) -> usize {
    plan.iter().filter(|other| **other == byte).count()
}

/// A day with an interval in which demand of the kind is supply, one more or one less.
fn day_at_edge(dice: &mut Dice) -> (Day, Claim) {
    let mut day = random_day(dice);
    while day.jobs.is_empty() {
        day = random_day(dice);
    }
    let count = day.jobs.len() as i64;
    let one = dice.below(count) as usize;
    let other = dice.below(count) as usize;
    let start = day.jobs[one].release.min(day.jobs[other].release);
    let end = day.jobs[one].deadline.max(day.jobs[other].deadline);
    let above = one_of(dice, &[-1, 0, 0, 1, 1]);
    let kind = dice.below(2) as u64;
    let table = day.table();
    if kind == TIME {
        let short = end - start + above - demand(Kind::Time, &table, start, end);
        day.jobs[one].wanted = (day.jobs[one].wanted + short).clamp(1, MOST_SLOTS);
    } else {
        let harvest = supply(Kind::Energy, &table, &day.harvest, start, end) - day.capacity;
        let needed = demand(Kind::Energy, &table, start, end);
        day.capacity = (needed - above - harvest).clamp(0, 65535);
    }
    (day, Claim { kind, start: start as u64, end: end as u64 })
}

/// A ready job with a late deadline and one that comes later and ends earlier; the charge is what
/// both need, one more or one less.
fn saving_day(dice: &mut Dice) -> Day {
    let slots = dice.between(5, 14);
    let mut day = Day {
        jobs: Vec::new(),
        capacity: 0,
        harvest: (0..slots).map(|_| (dice.below(12) - 8).max(0) as u8).collect(),
    };
    if dice.below(4) > 0 {
        day.harvest[0] = 0;
    }
    let late = Job {
        release: 0,
        deadline: slots,
        wanted: dice.between(1, 2),
        energy: dice.between(1, 4),
    };
    day.jobs.push(late);
    let mut needed = 0;
    let mut last = 0;
    for _ in 0..one_of(dice, &[1, 1, 2, 3]) {
        let earliest = dice.between(1, 3);
        let release = dice.between(earliest, slots - 2);
        // one in four ends with the late one
        let most = if dice.one_in(4) { slots } else { slots - 1 };
        let deadline = dice.between(release + 1, most.min(release + 4));
        let wanted = 1 + (deadline - release > 1 && dice.one_in(3)) as i64;
        let energy = dice.between(1, 4);
        needed += wanted * energy;
        last = last.max(deadline);
        let at = dice.below(day.jobs.len() as i64 + 1) as usize;
        day.jobs.insert(at, Job { release, deadline, wanted, energy });
    }
    // behind the others the late one is often paid for
    for slot in last..slots {
        if dice.one_in(2) {
            day.harvest[slot as usize] = late.energy as u8;
        }
    }
    let coming = harvest_sum(&day.harvest, 0, last);
    let beside = one_of(dice, &[-1, -1, 0, 0, 1, 2]);
    day.capacity = (needed + late.energy - coming + beside).clamp(0, 65535);
    day
}

/// Overloaded in time, in energy or in both, in many intervals at once.
fn crowded_day(dice: &mut Dice) -> Day {
    let mut day = random_day(dice);
    let sort = dice.below(3);
    for job in day.jobs.iter_mut() {
        if sort != 1 {
            job.wanted += dice.below(3);
        }
        if sort != 0 {
            job.energy = dice.between(1, 6);
        }
    }
    match sort {
        0 => day.capacity += 40,
        _ => day.capacity = dice.between(0, 5),
    }
    day
}

/// Few charges that cost much beside what a slot brings: whole slots often cannot be paid where
/// the sums would allow it.
fn stiff_day(dice: &mut Dice) -> Day {
    let slots = dice.between(5, 12);
    let brings = dice.between(1, 2);
    let capacity = dice.between(0, 6);
    let harvest = (0..slots).map(|_| (brings - dice.one_in(6) as i64) as u8).collect();
    let mut day = Day { jobs: Vec::new(), capacity, harvest };
    for _ in 0..dice.between(1, 3) {
        let release = dice.below(slots - 3);
        let deadline = dice.between(release + 3, slots);
        let energy = dice.between(2, 5);
        let there = capacity + harvest_sum(&day.harvest, release, deadline);
        let most = (there / energy).min(deadline - release);
        let wanted = if dice.one_in(2) { most } else { most / 2 }.max(1);
        day.jobs.push(Job { release, deadline, wanted, energy });
    }
    day
}

/// A small day of any sort.
fn small_day(dice: &mut Dice) -> Day {
    match dice.below(20) {
        0 => tiny_day(dice),
        1 | 2 => random_day(dice),
        3 | 4 => even_day(dice),
        5 => tied_day(dice),
        6 => wide_day(dice),
        7 => day_at_edge(dice).0,
        8 | 9 | 10 | 11 => saving_day(dice),
        12 => crowded_day(dice),
        13 => planned_day(dice).0,
        14 | 15 => stiff_day(dice),
        _ => {
            let sorts: [fn(&mut Dice) -> Day; 5] =
                [random_day, tied_day, tiny_day, saving_day, stiff_day];
            let sort = one_of(dice, &sorts);
            let day = sort(dice);
            tuned_to_run(dice, day)
        }
    }
}

/// A day of quarters or of minutes with up to a dozen jobs.
fn typical_day(dice: &mut Dice) -> Day {
    let slots = one_of(dice, &[24, 48, 96, 96, 144, 288]);
    let mut day = Day { jobs: Vec::new(), capacity: dice.between(5, 120), harvest: Vec::new() };
    for slot in 0..slots {
        // some light by day, none at night
        let light = slot > slots / 4 && slot < 3 * slots / 4;
        day.harvest.push(if light { dice.below(7) as u8 } else { 0 });
    }
    for _ in 0..dice.between(2, 12) {
        let release = dice.below(slots - 1);
        let deadline = dice.between(release + 1, (release + slots / 3).min(slots));
        let wanted = dice.between(1, (deadline - release).min(1 + slots / 10));
        day.jobs.push(Job { release, deadline, wanted, energy: dice.between(1, 6) });
    }
    day
}

/// 64 jobs, 1,440 slots.
fn largest_day(dice: &mut Dice) -> Day {
    let load = one_of(dice, &[10, 14, 18, 18, 20, 40]);
    large_day(dice, load)
}

#[derive(Clone, Copy, PartialEq)]
pub enum Size {
    Small,
    Typical,
    Largest,
}

fn day_of(dice: &mut Dice, size: Size) -> Day {
    match size {
        Size::Small => small_day(dice),
        Size::Typical => typical_day(dice),
        Size::Largest => largest_day(dice),
    }
}

// ------------------------------------------------------------------------------------------
// Sheets and tables, good and damaged
// ------------------------------------------------------------------------------------------

/// A table with numbers that need not fit each other.
struct Loose {
    count: u64,
    slots: i64,
    capacity: i64,
    given: Vec<Job>,
    harvest: Vec<u8>,
}

impl Loose {
    fn new(day: &Day) -> Loose {
        Loose {
            count: day.jobs.len() as u64,
            slots: day.slots(),
            capacity: day.capacity,
            given: day.jobs.clone(),
            harvest: day.harvest.clone(),
        }
    }

    fn part(&self) -> Vec<u8> {
        table_part(self.count, self.slots, self.capacity, &self.given, &self.harvest)
    }
}

/// A job whose release is not below its deadline, or whose deadline is above slots.
fn with_no_window(dice: &mut Dice, mut job: Job, slots: i64) -> Job {
    match dice.below(5) {
        0 => job.release = job.deadline,
        1 => job.release = (job.deadline + dice.between(1, 3)).min(65535),
        2 => job.deadline = slots + 1,
        3 => job.deadline = one_of(dice, &[0, 65535, slots + 256]),
        _ => job.deadline = job.release,
    }
    job
}

/// A job that wants 0 slots or above 1,440, or has energy 0.
fn with_no_work(dice: &mut Dice, mut job: Job) -> Job {
    match dice.below(4) {
        0 => job.wanted = 0,
        1 => job.wanted = one_of(dice, &[1441, 1442, 2048, 65535]),
        _ => job.energy = 0,
    }
    job
}

fn set_record(sheet: &mut [u8], record: i64, job: Job) {
    let at = (RECORD_BYTES * record) as usize;
    sheet[at..at + 2].copy_from_slice(&little_endian(job.release));
    sheet[at + 2..at + 4].copy_from_slice(&little_endian(job.deadline));
    sheet[at + 4..at + 6].copy_from_slice(&little_endian(job.wanted));
    sheet[at + 6] = job.energy as u8;
}

/// How often sheets and tables are damaged: where that is the matter, and where it is not.
const OFTEN: i64 = 20;
const SELDOM: i64 = 50;

/// The good sheet of a day, damaged so that this number applies.
fn damage_sheet(dice: &mut Dice, day: &Day, mut sheet: Vec<u8>, number: i64) -> Vec<u8> {
    let count = day.jobs.len() as i64;
    match number {
        1 => {
            let keep = dice.below(12) as usize;
            let from = if dice.one_in(2) { sheet.len() - keep } else { 0 };
            sheet[from..from + keep].to_vec()
        }
        2 => with_number(&sheet, -2, one_of(dice, &[0, 0x4548, 0x4845 + 1, 0x4945, 0x4845 - 256])),
        3 if dice.one_in(2) => with_number(&sheet, JOBS, one_of(dice, &[65, 66, 256, 65535])),
        3 => with_number(&sheet, SLOTS, one_of(dice, &[0, 0, 1441, 1442, 65535])),
        4 => match dice.below(5) {
            0 => {
                let off = one_of(dice, &[-1, 1, 256]);
                with_number(&sheet, TO_HARVEST, day.slots() + off)
            }
            1 => {
                let off = one_of(dice, &[-1, 1, 8, 256]);
                with_number(&sheet, TO_JOBS, day.slots() + 8 * count + off)
            }
            2 => sheet[1..].to_vec(),
            3 => {
                let more = one_of(dice, &[1, 8]);
                [&dice.bytes(more)[..], &sheet].concat()
            }
            _ => with_number(&sheet, JOBS, one_of(dice, &[count + 1, (count - 1).max(0), 64])),
        },
        5 if count > 0 => {
            let record = dice.below(count);
            let bad = with_no_window(dice, day.jobs[record as usize], day.slots());
            set_record(&mut sheet, record, bad);
            sheet
        }
        6 if count > 0 => {
            let record = dice.below(count);
            if dice.one_in(3) {
                sheet[8 * record as usize + 7] = dice.between(1, 255) as u8;
            } else {
                let bad = with_no_work(dice, day.jobs[record as usize]);
                set_record(&mut sheet, record, bad);
            }
            sheet
        }
        _ => sheet,
    }
}

/// The day's sheet, damaged for two numbers: the greater is done first, since it stands on what
/// the lesser breaks.
fn doubly_damaged(dice: &mut Dice, day: &Day) -> Vec<u8> {
    let one = dice.between(1, 6);
    let other = dice.between(2, 6);
    let sheet = damage_sheet(dice, day, day.sheet(), one.max(other));
    if one == 1 || sheet.len() < 12 {
        return sheet;
    }
    damage_sheet(dice, day, sheet, one.min(other))
}

/// Mostly the day's own sheet; of that many, eight are not.
fn some_sheet(dice: &mut Dice, day: &Day, of: i64) -> Vec<u8> {
    match dice.below(of) {
        0 | 1 | 2 => {
            let number = dice.between(1, 6);
            damage_sheet(dice, day, day.sheet(), number)
        }
        3 | 4 => doubly_damaged(dice, day),
        5 => damaged_sheet(dice, &day.sheet()),
        6 => garbage(dice),
        7 if dice.one_in(3) => {
            let length = dice.below(80);
            dice.bytes(length)
        }
        _ => day.sheet(),
    }
}

/// Damaged so that this number applies: 3 to 6.
fn damage_table(dice: &mut Dice, table: &mut Loose, number: i64) {
    let places = table.given.len() as i64;
    match number {
        3 if dice.one_in(2) => table.count = odd_count(dice, table.count).max(65),
        3 => table.slots = one_of(dice, &[0, 1441, 1442, 65535]),
        4 => match dice.below(3) {
            0 => table.harvest.push(dice.byte()),
            1 => drop(table.harvest.pop()),
            _ => table.slots = (table.slots + one_of(dice, &[-1, 1, 256])).clamp(0, 65535),
        },
        5 if places > 0 => {
            let place = dice.below(places) as usize;
            table.given[place] = with_no_window(dice, table.given[place], table.slots);
        }
        6 if places > 0 => {
            let place = dice.below(places) as usize;
            table.given[place] = with_no_work(dice, table.given[place]);
        }
        _ => {}
    }
    for job in table.given.iter_mut() {
        job.deadline = job.deadline.min(65535);
    }
}

/// Mostly the day's own table; of that many, seven are not. Some places beyond the last job are
/// filled.
fn some_table(dice: &mut Dice, day: &Day, of: i64) -> Vec<u8> {
    let mut table = Loose::new(day);
    match dice.below(of) {
        0 | 1 | 2 => {
            let number = dice.between(3, 6);
            damage_table(dice, &mut table, number);
        }
        3 | 4 => {
            for _ in 0..2 {
                let number = dice.between(3, 6);
                damage_table(dice, &mut table, number);
            }
        }
        5 => return odd_table(dice, day),
        // more jobs than are given: the zeros there are no job
        6 if dice.one_in(2) => table.count = dice.between(table.count as i64, 64) as u64,
        _ => {}
    }
    if dice.one_in(4) {
        while (table.given.len() as i64) < MOST_JOBS && dice.below(4) > 0 {
            let beyond = (table.slots + 3).min(65536);
            let (release, deadline) = (dice.below(beyond), dice.below(beyond));
            let (wanted, energy) = (dice.below(6), dice.below(5));
            table.given.push(Job { release, deadline, wanted, energy });
        }
    }
    table.part()
}

// ------------------------------------------------------------------------------------------
// Buffers, states, plans and claims
// ------------------------------------------------------------------------------------------

/// A buffer of that length, or beside it, with random bytes in it.
fn some_buffer(dice: &mut Dice, length: i64) -> Vec<u8> {
    let room = match dice.below(16) {
        0 => length - 1,
        1 => length + 1,
        2 => dice.below(length + 8),
        3 if dice.one_in(2) => 0,
        _ => length,
    };
    dice.bytes(room.max(0))
}

/// A writer's buffer: the length, more, or less.
fn some_room(dice: &mut Dice, length: i64) -> Vec<u8> {
    let room = match dice.below(10) {
        0 | 1 => length - 1,
        2 | 3 => length + 1,
        4 => dice.below(length),
        5 | 6 => length + dice.below(20),
        _ => length,
    };
    dice.bytes(room)
}

/// The state with its level, or what is left, set so that a rule only just applies, or just not.
/// The capacity of the day may follow, so that the level fits it.
fn state_at_edge(dice: &mut Dice, day: &mut Day, mut state: State) -> State {
    let table = day.table();
    let chosen = match chosen_job(&table, &state) {
        Some(chosen) if state.slot < table.slots => chosen,
        _ => return state,
    };
    let p = day.harvest[state.slot as usize] as i64;
    let energy = day.jobs[chosen].energy;
    let slack = slack_energy(&table, &day.harvest, &state, chosen);
    match (dice.below(7), slack) {
        // saving, or free
        (0 | 1 | 2 | 3, Some(slack)) => state.level += energy - slack + dice.between(-1, 0),
        // empty, or ends empty
        (0 | 4, _) => state.level = energy - p + dice.between(-1, 1),
        // full, or not quite
        (1, _) => state.level = day.capacity - p + dice.between(0, 1),
        // ends full, one short or spilling
        (2 | 5, _) => state.level = day.capacity - p + energy + dice.between(-1, 1),
        // slack time 0 or 1
        _ => {
            if let Some(slack) = slack_time(&table, &state) {
                let more = slack - dice.between(0, 1);
                let number = dice.below(day.jobs.len() as i64) as usize;
                let left = &mut state.left[number];
                *left = (*left + more).clamp(0, 65535);
            }
        }
    }
    state.level = state.level.clamp(0, 65535);
    if dice.below(3) > 0 {
        // at hand is what the reservoir holds, or one less
        let least = state.level + p + dice.between(-1, 2).max(0);
        day.capacity = day.capacity.max(least.min(65535));
    }
    state
}

/// The day with some job, its slot inside some job's window, and that job not yet finished.
fn state_with_ready_job(dice: &mut Dice, day: &Day) -> State {
    let mut state = random_state(dice, day);
    if day.jobs.is_empty() {
        return state;
    }
    let number = dice.below(day.jobs.len() as i64) as usize;
    let job = day.jobs[number];
    state.slot = dice.between(job.release, (job.deadline - 1).min(job.release + 2));
    for (other, job) in day.jobs.iter().enumerate() {
        if job.release > state.slot {
            state.left[other] = job.wanted;
        }
    }
    state.left[number] = state.left[number].max(1);
    state
}

/// A state in which what is released has slots left and what is not has all of them.
fn state_before_releases(dice: &mut Dice, day: &Day) -> State {
    let mut state = first_state(&day.table());
    let latest = day.jobs.iter().map(|job| job.release).max().unwrap_or(0);
    state.slot = dice.below(latest.max(1));
    for (number, job) in day.jobs.iter().enumerate() {
        if job.release <= state.slot && dice.one_in(3) {
            state.left[number] = dice.between(0, job.wanted);
        }
    }
    state
}

/// A state of the run, a state at an edge, or any.
fn some_state(dice: &mut Dice, day: &mut Day) -> State {
    let table = day.table();
    let mut state = match dice.below(5) {
        0 | 1 => {
            let mut state = first_state(&table);
            for _ in 0..dice.below(day.slots().min(300)) {
                let decision = decide(&table, &day.harvest, &state);
                state = next_state(&table, &day.harvest, &state, decision);
            }
            state
        }
        2 => state_with_ready_job(dice, day),
        3 => state_before_releases(dice, day),
        _ => random_state(dice, day),
    };
    if dice.below(3) > 0 {
        state = state_at_edge(dice, day, state);
    }
    match dice.below(24) {
        0 => state.slot = one_of(dice, &[day.slots(), day.slots() + 1, 1440, 65535]),
        1 => state.level = one_of(dice, &[65535, 65535, day.capacity, 0]),
        2 => {
            let place = dice.below(MOST_JOBS) as usize;
            state.left[place] = one_of(dice, &[1, 7, 65535]);
        }
        3 => {
            for (number, job) in day.jobs.iter().enumerate() {
                if job.release > state.slot {
                    state.left[number] = dice.below(job.wanted + 2);
                }
            }
        }
        4 => {
            for (number, job) in day.jobs.iter().enumerate() {
                state.left[number] = job.wanted + dice.below(3);
            }
        }
        _ => {}
    }
    state
}

/// A day with a plan for it: of the run, beside it, or of any bytes.
fn day_and_plan(dice: &mut Dice, size: Size) -> (Day, Vec<u8>) {
    if size == Size::Small && dice.one_in(2) {
        return planned_day(dice);
    }
    let mut day = day_of(dice, size);
    let mut plan = run_plan(&day);
    if dice.one_in(4) {
        day = tuned_to_plan(dice, day, &plan);
    }
    let slot = dice.below(day.slots()) as usize;
    let any_job = dice.below(day.jobs.len() as i64 + 1) as u8;
    match dice.below(12) {
        0 => plan[slot] = any_job,
        1 => plan[slot] = IDLE_BYTE,
        2 => plan[slot] = one_of(dice, &[63, 64, 65, 128, 254]),
        3 | 4 => {
            let other = dice.below(day.slots()) as usize;
            plan.swap(slot, other);
        }
        5 => drop(plan.pop()),
        6 => plan.push(one_of(dice, &[IDLE_BYTE, 0])),
        7 if dice.one_in(2) => plan.truncate(dice.below(day.slots()) as usize),
        7 => plan = dice.bytes(day.slots()),
        8 => {
            let jobs = day.jobs.len() as i64 + 1;
            for byte in plan.iter_mut() {
                let number = dice.below(jobs) as u8;
                *byte = if number as usize == day.jobs.len() { IDLE_BYTE } else { number };
            }
        }
        _ => {}
    }
    (day, plan)
}

/// A day with a claim on it: at the edge, of any slots, or no interval of the day at all.
fn day_and_claim(dice: &mut Dice, size: Size) -> (Day, Claim) {
    if size == Size::Small && dice.one_in(2) {
        return day_at_edge(dice);
    }
    let day = day_of(dice, size);
    let slots = day.slots() as u64;
    let claim = match dice.below(8) {
        0 => {
            let odd = odd_claims(slots);
            odd[dice.below(odd.len() as i64) as usize]
        }
        1 => {
            let numbers = [0, 1, 2, slots, slots + 1, 1 << 16, 1 << 32, 1 << 63, u64::MAX];
            let mut any = || numbers[dice.below(9) as usize];
            Claim { kind: any(), start: any(), end: any() }
        }
        2 | 3 => match search_overload(&day.table(), &day.harvest) {
            Some(Overload { kind, start, end, .. }) => {
                let kind = if kind == Kind::Time { TIME } else { ENERGY };
                Claim { kind, start: start as u64, end: end as u64 }
            }
            None => Claim { kind: dice.below(2) as u64, start: 0, end: slots },
        },
        _ => {
            let start = dice.below(slots as i64);
            let end = dice.between(start + 1, slots as i64);
            Claim { kind: dice.below(2) as u64, start: start as u64, end: end as u64 }
        }
    };
    (day, claim)
}

// ------------------------------------------------------------------------------------------
// Requests
// ------------------------------------------------------------------------------------------

/// A request of that kind.
fn request_of_kind(dice: &mut Dice, kind: u8, size: Size) -> Request {
    match kind {
        b'J' | b'K' => {
            let (day, plan) = day_and_plan(dice, size);
            let plan = bytes_part(&plan);
            if kind == b'J' {
                let sheet = some_sheet(dice, &day, SELDOM);
                return Request::new(kind, &[&bytes_part(&sheet), &plan]);
            }
            Request::new(kind, &[&some_table(dice, &day, SELDOM), &plan])
        }
        b'I' | b'L' => {
            let (day, claim) = day_and_claim(dice, size);
            let claim = claim_part(claim);
            if kind == b'I' {
                let sheet = some_sheet(dice, &day, SELDOM);
                return Request::new(kind, &[&bytes_part(&sheet), &claim]);
            }
            Request::new(kind, &[&some_table(dice, &day, SELDOM), &claim])
        }
        _ => {
            let mut day = day_of(dice, size);
            if kind == b'N' && day.jobs.len() < 2 && dice.below(4) > 0 {
                day = saving_day(dice);
            }
            request_on_day(dice, kind, &day)
        }
    }
}

fn request_on_day(dice: &mut Dice, kind: u8, day: &Day) -> Request {
    match kind {
        b'R' | b'H' | b'D' => {
            let sheet = some_sheet(dice, day, OFTEN);
            Request::new(kind, &[&bytes_part(&sheet)])
        }
        b'X' => {
            let sheet = some_sheet(dice, day, OFTEN);
            let mut count = day.jobs.len() as u64;
            let mut slots = day.slots();
            match dice.below(8) {
                0 => count = odd_count(dice, count),
                1 => count = dice.below(6) as u64,
                2 => slots = one_of(dice, &[0, slots + 1, slots + 12, slots + 13, 65535]),
                3 => slots = dice.below(40),
                _ => {}
            }
            Request::new(kind, &[&bytes_part(&sheet), &count.to_le_bytes(), &little_endian(slots)])
        }
        b'P' => {
            let sheet = some_sheet(dice, day, SELDOM);
            Request::new(kind, &[&bytes_part(&sheet), &bytes_part(&some_buffer(dice, day.slots()))])
        }
        b'Q' => {
            let table = some_table(dice, day, SELDOM);
            Request::new(kind, &[&table, &bytes_part(&some_buffer(dice, day.slots()))])
        }
        b'W' => {
            let table = some_table(dice, day, OFTEN);
            let length = day.sheet().len() as i64;
            Request::new(kind, &[&table, &bytes_part(&some_room(dice, length))])
        }
        b'N' => {
            let mut day = day.clone();
            let state = some_state(dice, &mut day);
            let table = some_table(dice, &day, SELDOM);
            Request::new(kind, &[&table, &state_part(&state)])
        }
        _ => Request::new(kind, &[&some_table(dice, day, OFTEN)]),
    }
}

/// No request: an unknown kind, or a payload whose parts do not fill it exactly. A few are requests
/// after all.
fn no_request(dice: &mut Dice) -> Request {
    let kind = one_of(dice, KINDS);
    let mut request = request_of_kind(dice, kind, Size::Small);
    let length = request.payload.len() as i64;
    match dice.below(8) {
        0 | 1 => {
            while KINDS.contains(&request.kind) {
                request.kind = dice.byte();
            }
        }
        2 => request.kind = request.kind.to_ascii_lowercase(),
        3 => request.payload.truncate(dice.below(length) as usize),
        4 => {
            let more = dice.between(1, 9);
            request.payload.extend(dice.bytes(more));
        }
        5 => {
            // in a table's number of given jobs, or in a length
            let at = one_of(dice, &[12, 12, 0, 1, 3]).min(request.payload.len() - 1);
            request.payload[at] = one_of(dice, &[65, 255, 128, 1]);
        }
        6 => request.kind = one_of(dice, KINDS),
        _ => {
            let length = dice.below(120);
            request.payload = dice.bytes(length);
        }
    }
    request
}

/// A payload one byte too long or more, or as long as may be.
fn long_request(dice: &mut Dice, too_long: bool) -> Request {
    let length = MOST_PAYLOAD as usize + if too_long { 1 + dice.below(99) as usize } else { 0 };
    let kind = one_of(dice, b"RHD?");
    let mut payload = ((length - 4) as u32).to_le_bytes().to_vec();
    payload.resize(length, 0);
    payload[length - 2..].copy_from_slice(&MARK);
    Request { kind, payload }
}

/// Mixes a number's bits, so that neighbours have nothing in common.
fn mixed(number: u64) -> u64 {
    let mut bits = number.wrapping_add(0x9E37_79B9_7F4A_7C15);
    bits = (bits ^ (bits >> 30)).wrapping_mul(0xBF58_476D_1CE4_E5B9);
    bits = (bits ^ (bits >> 27)).wrapping_mul(0x94D0_49BB_1331_11EB);
    bits ^ (bits >> 31)
}

/// How often each kind comes.
const TURNS: &[u8] = b"CRHXWSBNNNNPPQQJJKKIILLDSNWR";

/// A request of that size from that seed.
pub fn request(seed: u64, number: u64, size: Size) -> Request {
    let dice = &mut Dice { state: mixed(mixed(seed) ^ number) };
    if size == Size::Small && dice.one_in(60) {
        return no_request(dice);
    }
    let kind = one_of(dice, TURNS);
    request_of_kind(dice, kind, size)
}

/// Request `number` of that seed: of ten thousand one is as long as a payload may be, one longer,
/// two have the largest day, and of each hundred two have a typical one.
pub fn request_in_turn(seed: u64, number: u64) -> Request {
    match number % 10_000 {
        7777 => long_request(&mut Dice { state: mixed(seed ^ number) }, true),
        7778 => long_request(&mut Dice { state: mixed(seed ^ number) }, false),
        499 | 5499 => request(seed, number, Size::Largest),
        turn if turn % 50 == 25 => request(seed, number, Size::Typical),
        _ => request(seed, number, Size::Small),
    }
}

/// The bytes of request `number` of `count`. In every third seed the last is cut off.
pub fn request_bytes(seed: u64, number: u64, count: u64) -> Vec<u8> {
    let mut bytes = request_in_turn(seed, number).bytes();
    if seed % 3 == 2 && number + 1 == count {
        let dice = &mut Dice { state: mixed(seed) };
        bytes.truncate(1 + dice.below(bytes.len() as i64 - 1) as usize);
    }
    bytes
}

/// Writes the requests of that seed, one after the other.
pub fn write_requests(seed: u64, count: u64, output: &mut impl Write) -> std::io::Result<()> {
    for number in 0..count {
        output.write_all(&request_bytes(seed, number, count))?;
    }
    Ok(())
}
