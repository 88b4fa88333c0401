//! The plain Rust program beside which the proved calls are measured: the same table by value, the same
//! checks in the same order. bench.rs times it, bare.rs takes the size of its planner.

pub const MOST_JOBS: usize = 64;
pub const MOST_SLOTS: u16 = 1440;
pub const RECORD: usize = 8;
pub const TRAILER: usize = 12;
const MARK: [u8; 2] = [0x45, 0x48];
pub const IDLE: u8 = 255;

/// The answers beside an interval's number and 0, as crates/bench has them.
const REFUSED: u64 = 1 << 40;
const UNDECIDED: u64 = 1 << 41;

#[derive(Clone, Copy, Default)]
pub struct Job {
    pub release: u16,
    pub deadline: u16,
    pub wanted: u16,
    pub energy: u8,
}

pub struct Table {
    pub jobs: [Job; MOST_JOBS],
    pub count: usize,
    pub slots: u16,
    pub capacity: u16,
}

/// What is wrong, with the record where the paper names one. (Only the judge tells which.)
pub enum Refusal {
    Short,
    Mark,
    Counts,
    Layout,
    Window(usize),
    Work(usize),
    NoRoom,
}

fn u16_at(bytes: &[u8], at: usize) -> u16 {
    u16::from_le_bytes([bytes[at], bytes[at + 1]])
}

fn check_counts(count: usize, slots: u16) -> Result<(), Refusal> {
    if count > MOST_JOBS || slots == 0 || slots > MOST_SLOTS {
        return Err(Refusal::Counts);
    }
    Ok(())
}

fn check_record(slots: u16, job: Job, last: u8, number: usize) -> Result<(), Refusal> {
    if job.release >= job.deadline || job.deadline > slots {
        return Err(Refusal::Window(number));
    }
    if job.wanted == 0 || job.wanted > MOST_SLOTS || job.energy == 0 || last != 0 {
        return Err(Refusal::Work(number));
    }
    Ok(())
}

/// The table, and the harvest as that stretch of the sheet.
fn read(bytes: &[u8]) -> Result<(Table, &[u8]), Refusal> {
    if bytes.len() < TRAILER {
        return Err(Refusal::Short);
    }
    let (body, trailer) = bytes.split_at(bytes.len() - TRAILER);
    if trailer[10..] != MARK {
        return Err(Refusal::Mark);
    }
    let count = u16_at(trailer, 4) as usize;
    let slots = u16_at(trailer, 6);
    let capacity = u16_at(trailer, 8);
    check_counts(count, slots)?;
    let back = slots as usize + RECORD * count;
    if u16_at(trailer, 0) != slots || u16_at(trailer, 2) as usize != back || body.len() != back {
        return Err(Refusal::Layout);
    }
    let (records, harvest) = body.split_at(RECORD * count);
    let mut jobs = [Job::default(); MOST_JOBS];
    for (number, record) in records.chunks_exact(RECORD).enumerate() {
        let job = Job {
            release: u16_at(record, 0),
            deadline: u16_at(record, 2),
            wanted: u16_at(record, 4),
            energy: record[6],
        };
        check_record(slots, job, record[7], number)?;
        jobs[number] = job;
    }
    Ok((Table { jobs, count, slots, capacity }, harvest))
}

/// The sheet at the front of the buffer: its length.
pub fn write(table: &Table, harvest: &[u8], out: &mut [u8]) -> Result<usize, Refusal> {
    check_counts(table.count, table.slots)?;
    if harvest.len() != table.slots as usize {
        return Err(Refusal::Layout);
    }
    let jobs = &table.jobs[..table.count];
    for (number, job) in jobs.iter().enumerate() {
        check_record(table.slots, *job, 0, number)?;
    }
    let to_harvest = RECORD * table.count;
    let to_trailer = to_harvest + harvest.len();
    let length = to_trailer + TRAILER;
    if out.len() < length {
        return Err(Refusal::NoRoom);
    }
    for (job, record) in jobs.iter().zip(out.chunks_exact_mut(RECORD)) {
        record[0..2].copy_from_slice(&job.release.to_le_bytes());
        record[2..4].copy_from_slice(&job.deadline.to_le_bytes());
        record[4..6].copy_from_slice(&job.wanted.to_le_bytes());
        record[6] = job.energy;
        record[7] = 0;
    }
    out[to_harvest..to_trailer].copy_from_slice(harvest);
    let trailer = &mut out[to_trailer..length];
    trailer[0..2].copy_from_slice(&table.slots.to_le_bytes());
    trailer[2..4].copy_from_slice(&(to_trailer as u16).to_le_bytes());
    trailer[4..6].copy_from_slice(&(table.count as u16).to_le_bytes());
    trailer[6..8].copy_from_slice(&table.slots.to_le_bytes());
    trailer[8..10].copy_from_slice(&table.capacity.to_le_bytes());
    trailer[10..12].copy_from_slice(&MARK);
    Ok(length)
}

/// The length written, or 0 where it is refused. Not inlined: the proved call is not either.
#[inline(never)]
pub fn rust_there_and_back(bytes: &[u8], out: &mut [u8]) -> u64 {
    match read(bytes).and_then(|(table, harvest)| write(&table, harvest, out)) {
        Ok(length) => length as u64,
        Err(_) => 0,
    }
}

// ---- demand and overload

impl Table {
    fn jobs(&self) -> &[Job] {
        &self.jobs[..self.count]
    }
}

pub type Totals = [u32; MOST_SLOTS as usize + 1];

/// Entry k is what the first k slots harvest.
pub fn totals(harvest: &[u8]) -> Totals {
    let mut sums = [0; MOST_SLOTS as usize + 1];
    let mut sum = 0;
    for (at, byte) in sums[1..].iter_mut().zip(harvest) {
        sum += *byte as u32;
        *at = sum;
    }
    sums
}

#[derive(Clone, Copy)]
enum Kind {
    Time,
    Energy,
}

/// An overloaded interval. (Nobody here asks for its demand and supply.)
#[allow(dead_code)]
#[derive(Clone, Copy)]
struct Overload {
    kind: Kind,
    from: u16,
    to: u16,
    demand: u32,
    supply: u32,
}

/// The overloaded interval with the latest start among those from a job's release to this end.
fn latest_start(table: &Table, totals: &Totals, to: u16) -> Option<Overload> {
    let mut found = None;
    let mut earliest = 0;
    for start in table.jobs() {
        let from = start.release;
        if from < earliest || to <= from {
            continue;
        }
        let (mut time, mut energy) = (0, 0);
        for job in table.jobs() {
            if from <= job.release && job.deadline <= to {
                time += job.wanted as u32;
                energy += job.wanted as u32 * job.energy as u32;
            }
        }
        let slots = (to - from) as u32;
        let supply = table.capacity as u32 + totals[to as usize] - totals[from as usize];
        if slots < time {
            found = Some(Overload { kind: Kind::Time, from, to, demand: time, supply: slots });
            earliest = from + 1;
        } else if supply < energy {
            found = Some(Overload { kind: Kind::Energy, from, to, demand: energy, supply });
            earliest = from + 1;
        }
    }
    found
}

/// The first deadline after a slot, or slots + 1 where there is none.
fn next_deadline(table: &Table, after: u16) -> u16 {
    let mut next = table.slots + 1;
    for job in table.jobs() {
        if after < job.deadline && job.deadline < next {
            next = job.deadline;
        }
    }
    next
}

/// The overloaded interval with the smallest end, then the latest start, of a table that was read.
fn search(table: &Table, totals: &Totals) -> Option<Overload> {
    let mut to = next_deadline(table, 0);
    while to <= table.slots {
        if let Some(found) = latest_start(table, totals, to) {
            return Some(found);
        }
        to = next_deadline(table, to);
    }
    None
}

// ---- the slot run

pub struct State {
    slot: u16,
    level: u16,
    left: [u16; MOST_JOBS],
}

/// What a slot does, and why.
#[derive(Clone, Copy, Debug, PartialEq)]
pub enum Decision {
    None,
    Empty,
    Full(usize),
    NoSlack(usize),
    Saving,
    Free(usize),
}

/// Of the jobs that pass, the one with the smallest deadline, ties the lowest number.
fn earliest(table: &Table, passes: impl Fn(usize, &Job) -> bool) -> Option<usize> {
    let mut so_far: Option<(usize, u16)> = None;
    for (number, job) in table.jobs().iter().enumerate() {
        if passes(number, job) && so_far.is_none_or(|(_, deadline)| job.deadline < deadline) {
            so_far = Some((number, job.deadline));
        }
    }
    so_far.map(|(number, _)| number)
}

/// Slack time is 0 or less.
fn no_slack(table: &Table, state: &State) -> bool {
    let slot = state.slot;
    for (own, left) in table.jobs().iter().zip(&state.left) {
        let end = own.deadline;
        if slot < end && 0 < *left {
            let mut pending = 0;
            for (job, left) in table.jobs().iter().zip(&state.left) {
                if slot < job.deadline && job.deadline <= end {
                    pending += *left as u32;
                }
            }
            if end as u32 <= slot as u32 + pending {
                return true;
            }
        }
    }
    false
}

/// Slack energy is below the chosen job's energy.
fn needs_charge(table: &Table, totals: &Totals, state: &State, chosen: &Job) -> bool {
    let slot = state.slot;
    for own in table.jobs() {
        let end = own.deadline;
        if slot < own.release && end < chosen.deadline {
            let mut coming = 0;
            for job in table.jobs() {
                if slot < job.release && job.deadline <= end {
                    coming += job.wanted as u32 * job.energy as u32;
                }
            }
            let needed = coming + chosen.energy as u32;
            if state.level as u32 + totals[end as usize] < needed + totals[slot as usize] {
                return true;
            }
        }
    }
    false
}

/// The first of the six rules that applies, with what is at hand in the slot.
fn decide(table: &Table, totals: &Totals, state: &State, at_hand: u32) -> Decision {
    let slot = state.slot;
    let ready = |number: usize, job: &Job| {
        job.release <= slot && slot < job.deadline && 0 < state.left[number]
    };
    let Some(number) = earliest(table, ready) else {
        return Decision::None;
    };
    let chosen = &table.jobs[number];
    if at_hand < chosen.energy as u32 {
        return Decision::Empty;
    }
    if at_hand > table.capacity as u32 {
        return Decision::Full(number);
    }
    if no_slack(table, state) {
        return Decision::NoSlack(number);
    }
    if needs_charge(table, totals, state, chosen) {
        return Decision::Saving;
    }
    Decision::Free(number)
}

/// One step, where the state stands.
pub fn step(table: &Table, harvest: &[u8], totals: &Totals, state: &mut State) -> Decision {
    let at_hand = state.level as u32 + harvest[state.slot as usize] as u32;
    let decision = decide(table, totals, state, at_hand);
    let mut level = at_hand;
    if let Decision::Full(number) | Decision::NoSlack(number) | Decision::Free(number) = decision {
        level -= table.jobs[number].energy as u32;
        state.left[number] -= 1;
    }
    state.slot += 1;
    state.level = level.min(table.capacity as u32) as u16;
    decision
}

pub fn first_state(table: &Table) -> State {
    let mut left = [0; MOST_JOBS];
    for (left, job) in left.iter_mut().zip(table.jobs()) {
        *left = job.wanted;
    }
    State { slot: 0, level: table.capacity, left }
}

/// The plan of a table that was read, and the state after the last slot.
fn whole_run(table: &Table, harvest: &[u8], totals: &Totals, plan: &mut [u8]) -> State {
    let mut state = first_state(table);
    for byte in plan.iter_mut() {
        *byte = match step(table, harvest, totals, &mut state) {
            Decision::Full(number) | Decision::NoSlack(number) | Decision::Free(number) => number as u8,
            Decision::None | Decision::Empty | Decision::Saving => IDLE,
        };
    }
    state
}

// ---- the judge

/// Why a plan is refused, with the slot, or for the last the job.
enum PlanFault {
    WrongLength,
    NoJob(usize),
    OutsideWindow(usize),
    HasAllSlots(usize),
    LacksCharge(usize),
    LacksSlots(usize),
}

/// A busy slot's job, which got so many slots before and finds that much charge.
fn judge_job(job: &Job, slot: usize, got: u16, charge: u32) -> Result<(), PlanFault> {
    if slot < job.release as usize || job.deadline as usize <= slot {
        return Err(PlanFault::OutsideWindow(slot));
    }
    if job.wanted <= got {
        return Err(PlanFault::HasAllSlots(slot));
    }
    if charge < job.energy as u32 {
        return Err(PlanFault::LacksCharge(slot));
    }
    Ok(())
}

/// A plan against a table that was read.
fn judge_plan(table: &Table, harvest: &[u8], plan: &[u8]) -> Result<(), PlanFault> {
    if plan.len() != table.slots as usize {
        return Err(PlanFault::WrongLength);
    }
    let capacity = table.capacity as u32;
    let mut got = [0; MOST_JOBS];
    let mut level = table.capacity;
    for (slot, (byte, harvest)) in plan.iter().zip(harvest).enumerate() {
        let charge = level as u32 + *harvest as u32;
        if *byte == IDLE {
            level = charge.min(capacity) as u16;
            continue;
        }
        let number = *byte as usize;
        let Some(job) = table.jobs().get(number) else {
            return Err(PlanFault::NoJob(slot));
        };
        judge_job(job, slot, got[number], charge)?;
        got[number] += 1;
        level = (charge - job.energy as u32).min(capacity) as u16;
    }
    for (number, (job, got)) in table.jobs().iter().zip(&got).enumerate() {
        if *got < job.wanted {
            return Err(PlanFault::LacksSlots(number));
        }
    }
    Ok(())
}

struct Sums {
    demand: u32,
    supply: u32,
}

/// The demand and the supply of an interval of the day, in one kind.
fn weigh(table: &Table, harvest: &[u8], kind: Kind, from: u16, to: u16) -> Sums {
    let mut demand = 0;
    for job in table.jobs() {
        if from <= job.release && job.deadline <= to {
            demand += match kind {
                Kind::Time => job.wanted as u32,
                Kind::Energy => job.wanted as u32 * job.energy as u32,
            };
        }
    }
    let supply = match kind {
        Kind::Time => (to - from) as u32,
        Kind::Energy => {
            let mut supply = table.capacity as u32;
            for byte in &harvest[from as usize..to as usize] {
                supply += *byte as u32;
            }
            supply
        }
    };
    Sums { demand, supply }
}

/// What a claim weighs, against a table that was read; nothing where it is no interval of the day.
fn judge_claim(table: &Table, harvest: &[u8], kind: u64, start: u64, end: u64) -> Option<Sums> {
    let kind = match kind {
        0 => Kind::Time,
        1 => Kind::Energy,
        _ => return None,
    };
    if end <= start || (table.slots as u64) < end {
        return None;
    }
    Some(weigh(table, harvest, kind, start as u16, end as u16))
}

// ---- the calls, each answer as one number. Not inlined: the proved calls are not either.

fn interval_number(found: &Overload) -> u64 {
    let kind = match found.kind {
        Kind::Time => 1,
        Kind::Energy => 2,
    };
    kind + 4 * found.from as u64 + 4 * 65536 * found.to as u64
}

#[inline(never)]
pub fn rust_search(bytes: &[u8], _: &mut [u8]) -> u64 {
    let Ok((table, harvest)) = read(bytes) else {
        return REFUSED;
    };
    search(&table, &totals(harvest)).map_or(0, |found| interval_number(&found))
}

/// The level after the first slot, or 0 where the sheet is refused.
#[inline(never)]
pub fn rust_first_step(bytes: &[u8], _: &mut [u8]) -> u64 {
    let Ok((table, harvest)) = read(bytes) else {
        return 0;
    };
    let mut state = first_state(&table);
    step(&table, harvest, &totals(harvest), &mut state);
    state.level as u64
}

#[inline(never)]
pub fn rust_plan(bytes: &[u8], plan: &mut [u8]) -> u64 {
    let Ok((table, harvest)) = read(bytes) else {
        return REFUSED;
    };
    if plan.len() != harvest.len() {
        return REFUSED;
    }
    let totals = totals(harvest);
    if let Some(found) = search(&table, &totals) {
        return interval_number(&found);
    }
    let end = whole_run(&table, harvest, &totals, plan);
    earliest(&table, |number, _| 0 < end.left[number]).map_or(0, |number| UNDECIDED + number as u64)
}

fn number_at(number: u64, place: usize) -> u64 {
    number + 32 * (place as u64 % 2048)
}

fn refusal_number(why: Refusal) -> u64 {
    match why {
        Refusal::Short => 1,
        Refusal::Mark => 2,
        Refusal::Counts => 3,
        Refusal::Layout => 4,
        Refusal::Window(number) => number_at(5, number),
        Refusal::Work(number) => number_at(6, number),
        Refusal::NoRoom => 8,
    }
}

fn fault_number(fault: PlanFault) -> u64 {
    match fault {
        PlanFault::WrongLength => 11,
        PlanFault::NoJob(slot) => number_at(12, slot),
        PlanFault::OutsideWindow(slot) => number_at(13, slot),
        PlanFault::HasAllSlots(slot) => number_at(14, slot),
        PlanFault::LacksCharge(slot) => number_at(15, slot),
        PlanFault::LacksSlots(number) => number_at(16, number),
    }
}

fn sums_number(sums: &Sums) -> u64 {
    (sums.demand as u64 % (1 << 26) << 16) + (sums.supply as u64 % (1 << 20) << 42)
}

#[inline(never)]
pub fn rust_judge_plan(bytes: &[u8], plan: &mut [u8]) -> u64 {
    match read(bytes) {
        Ok((table, harvest)) => judge_plan(&table, harvest, plan).map_or_else(fault_number, |()| 0),
        Err(why) => refusal_number(why),
    }
}

#[inline(never)]
pub fn rust_judge_claim(bytes: &[u8], kind: u64, start: u64, end: u64) -> u64 {
    let (table, harvest) = match read(bytes) {
        Ok(read) => read,
        Err(why) => return refusal_number(why),
    };
    match judge_claim(&table, harvest, kind, start, end) {
        None => 17,
        Some(sums) if sums.supply < sums.demand => sums_number(&sums),
        Some(sums) => 18 + sums_number(&sums),
    }
}
