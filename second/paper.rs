//! Document 01: the day sheet, the overload search, the slot run, the planner and the judge.
//!
//! Every sum and search is the loop that the paper's sentence describes. All arithmetic is in i64,
//! which nothing here can overflow. `slip(..)` is false unless that slip was asked for by name.

use crate::slips::{slip, Slip};

// ------------------------------------------------------------------------------------------
// The paper's numbers
// ------------------------------------------------------------------------------------------

pub const MOST_JOBS: i64 = 64;
pub const MOST_SLOTS: i64 = 1440;
pub const RECORD_BYTES: i64 = 8;
pub const TRAILER_BYTES: i64 = 12;
pub const MARK: [u8; 2] = [0x45, 0x48];
pub const IDLE_BYTE: u8 = 255;

// ------------------------------------------------------------------------------------------
// Tables and refusals
// ------------------------------------------------------------------------------------------

#[derive(Clone, Copy, PartialEq, Debug)]
pub struct Job {
    pub release: i64,
    pub deadline: i64,
    pub wanted: i64,
    pub energy: i64,
}

pub const ZERO_JOB: Job = Job { release: 0, deadline: 0, wanted: 0, energy: 0 };

/// The jobs are the first `count` places; what stands beyond them is never looked at.
#[derive(Clone, PartialEq, Debug)]
pub struct Table {
    pub count: u64,
    pub slots: i64,
    pub capacity: i64,
    pub places: [Job; MOST_JOBS as usize],
}

pub const NO_TABLE: Table =
    Table { count: 0, slots: 0, capacity: 0, places: [ZERO_JOB; MOST_JOBS as usize] };

impl Table {
    /// The table's jobs in order. Only for tables whose count is at most 64.
    pub fn jobs(&self) -> &[Job] {
        &self.places[..self.count as usize]
    }
}

/// What a refusal names: 5 and 6 the record, 12 to 15 the slot, 16 the job, the others nothing.
#[derive(Clone, Copy, PartialEq, Debug)]
pub enum Named {
    Nothing,
    Record(i64),
    Slot(i64),
    Job(i64),
}

#[derive(Clone, Copy, PartialEq, Debug)]
pub struct Refusal {
    pub number: i64,
    pub named: Named,
}

pub fn refuse<T>(number: i64) -> Result<T, Refusal> {
    refuse_naming(number, Named::Nothing)
}

pub fn refuse_naming<T>(number: i64, named: Named) -> Result<T, Refusal> {
    Err(Refusal { number, named })
}

/// 3: more than 64 jobs, or slots 0 or above 1,440.
fn check_limits(count: u64, slots: i64, capacity: i64) -> Result<(), Refusal> {
    if capacity == 0 && slip(Slip::CapacityZeroRefused) {
        return refuse(3);
    }
    let most_jobs = MOST_JOBS - slip(Slip::FewerJobs) as i64;
    let most_slots = MOST_SLOTS - slip(Slip::FewerSlots) as i64 + slip(Slip::MoreSlots) as i64;
    let no_slots = slots == 0 && !slip(Slip::SlotsZeroRead);
    let no_jobs = count == 0 && slip(Slip::NoJobsRefused);
    if count > most_jobs as u64 || no_slots || slots > most_slots || no_jobs {
        return refuse(3);
    }
    Ok(())
}

/// 5: a job's release is not below its deadline, or its deadline is above slots.
fn check_window(record: i64, job: Job, slots: i64) -> Result<(), Refusal> {
    let no_window = if slip(Slip::EmptyWindow) {
        job.release > job.deadline
    } else {
        !(job.release < job.deadline)
    };
    let most = if slip(Slip::DeadlineBelowSlots) { slots - 1 } else { slots };
    let missing = slip(Slip::ReleaseMissing) && job.release == 0;
    if no_window || job.deadline > most || missing {
        return refuse_naming(5, Named::Record(record));
    }
    Ok(())
}

/// 6: slots wanted 0 or above 1,440, energy 0, or last byte not zero.
fn check_work(record: i64, job: Job, last_byte: u8) -> Result<(), Refusal> {
    let most = if slip(Slip::WantedBelowMost) { MOST_SLOTS - 1 } else { MOST_SLOTS };
    let no_energy = job.energy == 0 && !slip(Slip::EnergyZero);
    let not_zero = last_byte != 0 && !slip(Slip::LastByteUnasked);
    let too_many = slip(Slip::WantedFitsWindow) && job.wanted > job.deadline - job.release;
    if job.wanted == 0 || job.wanted > most || no_energy || not_zero || too_many {
        return refuse_naming(6, Named::Record(record));
    }
    Ok(())
}

/// The records in order, with 5 before 6 in each.
fn check_records(jobs: &[Job], last_bytes: &[u8], slots: i64) -> Result<(), Refusal> {
    if slip(Slip::AllFivesFirst) {
        for (record, job) in jobs.iter().enumerate() {
            check_window(record as i64, *job, slots)?;
        }
    }
    for (record, job) in jobs.iter().enumerate() {
        if slip(Slip::SixBeforeFive) {
            check_work(record as i64, *job, last_bytes[record])?;
        }
        check_window(record as i64, *job, slots)?;
        check_work(record as i64, *job, last_bytes[record])?;
    }
    Ok(())
}

/// A table has no last bytes to check.
const NO_LAST_BYTES: [u8; MOST_JOBS as usize] = [0; MOST_JOBS as usize];

/// Before the records: 3, then 4 (harvest length is not slots).
fn check_table_front(table: &Table, harvest: &[u8]) -> Result<(), Refusal> {
    let fits = harvest.len() as i64 == table.slots
        || slip(Slip::HarvestAtLeastSlots) && harvest.len() as i64 > table.slots;
    if slip(Slip::TableFourBeforeThree) && !fits {
        return refuse(4);
    }
    check_limits(table.count, table.slots, table.capacity)?;
    if !fits {
        return refuse(4);
    }
    Ok(())
}

/// A table and harvest in place of a sheet: 3, then 4, then the records in order.
pub fn check_table(table: &Table, harvest: &[u8]) -> Result<(), Refusal> {
    check_table_front(table, harvest)?;
    check_records(table.jobs(), &NO_LAST_BYTES, table.slots)?;
    if slip(Slip::BeyondChecked) {
        let filled = table.places.iter().rposition(|job| *job != ZERO_JOB).map_or(0, |at| at + 1);
        let last = filled.max(table.count as usize);
        check_records(&table.places[..last], &NO_LAST_BYTES, table.slots)?;
    }
    Ok(())
}

// ------------------------------------------------------------------------------------------
// The day sheet: reader and writer
// ------------------------------------------------------------------------------------------

/// The little-endian u16 at a place.
pub fn number_at(bytes: &[u8], at: i64) -> i64 {
    let at = at as usize;
    bytes[at] as i64 + 256 * bytes[at + 1] as i64
}

pub fn little_endian(number: i64) -> [u8; 2] {
    assert!(0 <= number && number <= 65535);
    [(number % 256) as u8, (number / 256) as u8]
}

/// The table and the harvest of a sheet, and each record's last byte: nothing is checked but what
/// stands before the records. Order: 1, 2, 3, 4.
fn open_sheet(sheet: &[u8]) -> Result<(Table, Vec<u8>, &[u8]), Refusal> {
    let length = sheet.len() as i64;
    if slip(Slip::MarkBeforeLength) && !sheet.ends_with(&MARK) {
        return refuse(2);
    }
    if length < TRAILER_BYTES {
        return refuse(1);
    }
    if !sheet.ends_with(&MARK) {
        return refuse(2);
    }
    let trailer = length - TRAILER_BYTES;
    let back_to_harvest = number_at(sheet, trailer);
    let back_to_jobs = number_at(sheet, trailer + 2);
    let count = number_at(sheet, trailer + 4);
    let slots = number_at(sheet, trailer + 6);
    let capacity = number_at(sheet, trailer + 8);

    let before_trailer = slots + RECORD_BYTES * count;
    let harvest_fits = back_to_harvest == slots || slip(Slip::BackToHarvestUnasked);
    let jobs_fit = back_to_jobs == before_trailer || slip(Slip::BackToJobsUnasked);
    let length_fits =
        trailer == before_trailer || slip(Slip::LongerSheetRead) && trailer > before_trailer;
    let fits = harvest_fits && jobs_fit && length_fits;
    if slip(Slip::FourBeforeThree) && !fits || slip(Slip::NoHarvestIsFour) && trailer == 0 {
        return refuse(4);
    }
    check_limits(count as u64, slots, capacity)?;
    let records_are_there = trailer >= before_trailer;
    if !fits && !(slip(Slip::RecordsBeforeDistances) && records_are_there) {
        return refuse(4);
    }
    let mut table = Table { count: count as u64, slots, capacity, ..NO_TABLE };
    let mut last_bytes = Vec::new();
    for record in 0..count {
        let at = trailer - before_trailer + RECORD_BYTES * record;
        table.places[record as usize] = Job {
            release: number_at(sheet, at),
            deadline: number_at(sheet, at + 2),
            wanted: number_at(sheet, at + 4),
            energy: sheet[at as usize + 6] as i64,
        };
        last_bytes.push(sheet[at as usize + 7]);
    }
    if !fits {
        check_records(table.jobs(), &last_bytes, slots)?;
        return refuse(4);
    }
    Ok((table, last_bytes, &sheet[(trailer - slots) as usize..trailer as usize]))
}

/// The table and the harvest of a sheet. Order: 1, 2, 3, 4, then the records.
pub fn read_sheet(sheet: &[u8]) -> Result<(Table, &[u8]), Refusal> {
    let (table, last_bytes, harvest) = open_sheet(sheet)?;
    check_records(table.jobs(), &last_bytes, table.slots)?;
    Ok((table, harvest))
}

/// The answer, the table and the harvest that a read hands back. Where the sheet is refused the
/// table has no jobs, slots 0, capacity 0, and the stretch is empty.
pub fn read(sheet: &[u8]) -> (Result<(), Refusal>, Table, &[u8]) {
    match read_sheet(sheet) {
        Ok((table, harvest)) => (Ok(()), table, harvest),
        Err(refusal) => {
            let (mut table, mut harvest) = (NO_TABLE, &sheet[..0]);
            if let Ok((opened, _, stretch)) = open_sheet(sheet) {
                if slip(Slip::RefusedReadKept) {
                    table = opened;
                }
                if slip(Slip::RefusedHarvestKept) {
                    harvest = stretch;
                }
            }
            (Err(refusal), table, harvest)
        }
    }
}

/// The `slots` bytes that stand behind `count` records; empty where the count is above 64 or the
/// sheet has not that many.
pub fn stretch(sheet: &[u8], count: u64, slots: i64) -> &[u8] {
    let from = RECORD_BYTES as u128 * count as u128;
    let to = from + slots as u128;
    let length = sheet.len() as u128;
    if count > MOST_JOBS as u64 {
        return &sheet[..0];
    }
    if to > length && !slip(Slip::StretchCut) {
        return &sheet[..0];
    }
    &sheet[from.min(length) as usize..to.min(length) as usize]
}

/// Writes the sheet at the front of the buffer, keeps the bytes behind it, and answers the
/// length. Order: 3, 4, the records, then 8.
pub fn write_sheet(table: &Table, harvest: &[u8], buffer: &mut [u8]) -> Result<i64, Refusal> {
    check_table_front(table, harvest)?;
    let length = table.slots + RECORD_BYTES * table.count as i64 + TRAILER_BYTES;
    let has_room = if slip(Slip::EightAsksEquality) {
        buffer.len() as i64 == length
    } else {
        buffer.len() as i64 >= length
    };
    if slip(Slip::EightBeforeRecords) && !has_room {
        return refuse(8);
    }
    let sheet = sheet_bytes(table.jobs(), &harvest[..table.slots as usize], table.capacity);
    if let Err(refusal) = check_table(table, harvest) {
        if let (Named::Record(record), true) = (refusal.named, slip(Slip::BadRecordTouched)) {
            let before = buffer.len().min(8 * record as usize);
            buffer[..before].copy_from_slice(&sheet[..before]);
        }
        return Err(refusal);
    }
    if !has_room {
        if slip(Slip::RefusedWriteTouched) {
            let room = buffer.len().min(sheet.len());
            buffer[..room].copy_from_slice(&sheet[..room]);
        }
        return refuse(8);
    }
    buffer[..sheet.len()].copy_from_slice(&sheet);
    if slip(Slip::WriteClearsBehind) {
        buffer[sheet.len()..].fill(0);
    }
    if slip(Slip::WriteAnswersRoom) {
        return Ok(buffer.len() as i64);
    }
    Ok(sheet.len() as i64)
}

/// The bytes of a sheet, from the front: records, harvest, trailer. Checks nothing.
pub fn sheet_bytes(jobs: &[Job], harvest: &[u8], capacity: i64) -> Vec<u8> {
    let count = jobs.len() as i64;
    let slots = harvest.len() as i64;
    let mut sheet = Vec::new();
    for job in jobs {
        sheet.extend(little_endian(job.release));
        sheet.extend(little_endian(job.deadline));
        sheet.extend(little_endian(job.wanted));
        sheet.push(job.energy as u8);
        sheet.push(0);
    }
    sheet.extend(harvest);
    sheet.extend(little_endian(slots));
    sheet.extend(little_endian(slots + RECORD_BYTES * count));
    sheet.extend(little_endian(count));
    sheet.extend(little_endian(slots));
    sheet.extend(little_endian(capacity));
    sheet.extend(MARK);
    sheet
}

// ------------------------------------------------------------------------------------------
// Demand and overload
// ------------------------------------------------------------------------------------------

#[derive(Clone, Copy, PartialEq, Debug)]
pub enum Kind {
    Time,
    Energy,
}

#[derive(Clone, Copy, PartialEq, Debug)]
pub struct Overload {
    pub kind: Kind,
    pub start: i64,
    pub end: i64,
    pub demand: i64,
    pub supply: i64,
}

/// The harvest of slots `from` to `to` - 1.
pub fn harvest_sum(harvest: &[u8], from: i64, to: i64) -> i64 {
    let to = to.min(harvest.len() as i64); // only a slip goes past the last slot
    if from >= to {
        return 0;
    }
    harvest[from as usize..to as usize].iter().map(|byte| *byte as i64).sum()
}

fn cut_sum(sum: i64) -> i64 {
    if slip(Slip::SumsIn16Bits) { sum % 65536 } else { sum }
}

/// An interval's jobs are those with release at or after t1 and deadline at or before t2.
fn is_of_interval(job: &Job, t1: i64, t2: i64) -> bool {
    job.release >= t1 && job.deadline <= t2
}

/// Time demand is their slots wanted, energy demand the sum of slots wanted x energy.
pub fn demand(kind: Kind, table: &Table, t1: i64, t2: i64) -> i64 {
    let partly_inside = slip(Slip::PartlyInside);
    let strictly_inside = slip(Slip::StrictlyInside);
    let deadline_inside = slip(Slip::DeadlineInside);
    let cut_to_window = slip(Slip::DemandCutToWindow);
    let mut sum = 0;
    for job in table.jobs() {
        let counts = if partly_inside {
            job.release < t2 && job.deadline > t1
        } else {
            is_of_interval(job, t1, t2)
                && !(strictly_inside && job.release == t1)
                && !(deadline_inside && job.deadline == t2)
        };
        if !counts {
            continue;
        }
        let wanted = if cut_to_window {
            job.wanted.min(job.deadline - job.release)
        } else {
            job.wanted
        };
        sum += match kind {
            Kind::Time => wanted,
            Kind::Energy => wanted * job.energy,
        };
    }
    cut_sum(sum)
}

/// Time supply is t2 - t1, energy supply capacity plus the harvest of slots t1 to t2 - 1.
pub fn supply(kind: Kind, table: &Table, harvest: &[u8], t1: i64, t2: i64) -> i64 {
    if kind == Kind::Time {
        return t2 - t1 + slip(Slip::TimeSupplyInclusive) as i64;
    }
    let mut stored = table.capacity;
    if slip(Slip::LateStartNoCapacity) && t1 > 0 {
        stored = 0;
    }
    if slip(Slip::LateStartLevel) && t1 > 0 {
        let due_before = demand(Kind::Energy, table, 0, t1);
        stored = (stored + harvest_sum(harvest, 0, t1) - due_before).clamp(0, table.capacity);
    }
    let to = if slip(Slip::SupplyHarvestLast) { t2 + 1 } else { t2 };
    let from = if slip(Slip::SupplyHarvestFirst) { t1 + 1 } else { t1 };
    cut_sum(stored + harvest_sum(harvest, from, to))
}

/// The interval in that kind, where it is overloaded: demand above supply.
fn overload_in(kind: Kind, table: &Table, harvest: &[u8], t1: i64, t2: i64) -> Option<Overload> {
    let demand = demand(kind, table, t1, t2);
    let supply = supply(kind, table, harvest, t1, t2);
    if demand > supply || slip(Slip::OverloadedIfEqual) && demand == supply {
        Some(Overload { kind, start: t1, end: t2, demand, supply })
    } else {
        None
    }
}

/// What comes first has the least of these: the smallest end, then the latest start, and there
/// time before energy.
fn place_in_order(overload: &Overload) -> (i64, i64, i64) {
    let Overload { kind, start, end, .. } = *overload;
    let kind = (kind == Kind::Energy) as i64;
    if slip(Slip::SearchEarliestStart) {
        (end, start, kind)
    } else if slip(Slip::SearchEnergyFirst) {
        (end, -start, -kind)
    } else if slip(Slip::SearchEnergyAnyStart) {
        (end, -kind, -start)
    } else if slip(Slip::SearchTimeAnyStart) {
        (end, kind, -start)
    } else if slip(Slip::SearchTimeOnly) {
        (kind, end, -start)
    } else if slip(Slip::SearchStartFirst) {
        (-start, end, kind)
    } else if slip(Slip::SearchLargestEnd) {
        (-end, -start, kind)
    } else {
        (end, -start, kind)
    }
}

/// Of these intervals, the overloaded one with the smallest end, then the latest start, and
/// there time before energy.
pub fn first_overload(
    table: &Table,
    harvest: &[u8],
    intervals: impl Iterator<Item = (i64, i64)>,
) -> Option<Overload> {
    let mut first: Option<Overload> = None;
    for (t1, t2) in intervals {
        for kind in [Kind::Time, Kind::Energy] {
            let here = match overload_in(kind, table, harvest, t1, t2) {
                None => continue,
                Some(here) => here,
            };
            match first {
                Some(before) if place_in_order(&before) <= place_in_order(&here) => {}
                _ => first = Some(here),
            }
        }
    }
    first
}

/// The search tries intervals from a job's release to a job's deadline.
pub fn search_overload(table: &Table, harvest: &[u8]) -> Option<Overload> {
    let jobs = table.jobs();
    let pairs = (0..jobs.len()).flat_map(|from| (0..jobs.len()).map(move |to| (from, to)));
    let intervals = pairs
        .filter(|(from, to)| from == to || !slip(Slip::SearchOneJob))
        .map(|(from, to)| (jobs[from].release, jobs[to].deadline))
        .filter(|(t1, t2)| t1 < t2);
    first_overload(table, harvest, intervals)
}

/// The search on a table and harvest: the table's checks, then the search.
pub fn search_table(table: &Table, harvest: &[u8]) -> Result<Option<Overload>, Refusal> {
    check_table(table, harvest)?;
    Ok(search_overload(table, harvest))
}

// ------------------------------------------------------------------------------------------
// The slot run
// ------------------------------------------------------------------------------------------

/// `left` is slots still wanted, a place a job; beyond the last job it is handed on unread.
#[derive(Clone, PartialEq, Debug)]
pub struct State {
    pub slot: i64,
    pub level: i64,
    pub left: [i64; MOST_JOBS as usize],
}

pub const ZERO_STATE: State = State { slot: 0, level: 0, left: [0; MOST_JOBS as usize] };

#[derive(Clone, Copy, PartialEq, Debug)]
pub enum IdleWhy {
    None,
    Empty,
    Saving,
}

#[derive(Clone, Copy, PartialEq, Debug)]
pub enum BusyWhy {
    Full,
    NoSlack,
    Free,
}

#[derive(Clone, Copy, PartialEq, Debug)]
pub enum Decision {
    Idle(IdleWhy),
    Busy(usize, BusyWhy),
}

/// The level starts at capacity, and every job has all its slots to come.
pub fn first_state(table: &Table) -> State {
    let mut state = ZERO_STATE;
    state.level = if slip(Slip::StartsEmpty) { 0 } else { table.capacity };
    for (number, job) in table.jobs().iter().enumerate() {
        state.left[number] = job.wanted;
    }
    state
}

/// The first state of a table and harvest: the table's checks come first, as for a step.
pub fn begin(table: &Table, harvest: &[u8]) -> Result<State, Refusal> {
    check_table(table, harvest)?;
    Ok(first_state(table))
}

/// Ready: released, deadline after t, slots still wanted.
fn is_ready(table: &Table, state: &State, number: usize) -> bool {
    let job = table.jobs()[number];
    let come = job.deadline <= state.slot
        && !slip(Slip::RunsLate)
        && !(slip(Slip::DeadlineSlotRun) && job.deadline == state.slot);
    let early = slip(Slip::ReleaseSlotNotReady) && job.release == state.slot;
    job.release <= state.slot && !early && !come && state.left[number] > 0
}

/// Of the ready jobs that pass the test, the one with the smallest deadline, ties the lowest
/// number.
fn chosen_of(table: &Table, state: &State, test: impl Fn(&Job) -> bool) -> Option<usize> {
    let mut chosen: Option<usize> = None;
    for (number, job) in table.jobs().iter().enumerate() {
        if !is_ready(table, state, number) || !test(job) {
            continue;
        }
        let keeps = match chosen.map(|before| table.jobs()[before].deadline) {
            None => false,
            Some(_) if slip(Slip::LowestNumberChosen) => true,
            Some(deadline) if slip(Slip::TiesHighest) => deadline < job.deadline,
            Some(deadline) => deadline <= job.deadline,
        };
        if !keeps {
            chosen = Some(number);
        }
    }
    chosen
}

/// The chosen job has the smallest deadline, ties the lowest number.
pub fn chosen_job(table: &Table, state: &State) -> Option<usize> {
    chosen_of(table, state, |_| true)
}

/// The lesser of the least so far and one more; none so far is unlimited.
fn least(so_far: Option<i64>, one: i64) -> Option<i64> {
    match so_far {
        None => Some(one),
        Some(least) => Some(least.min(one)),
    }
}

/// The slack time; None is unlimited.
pub fn slack_time(table: &Table, state: &State) -> Option<i64> {
    let t = state.slot;
    let mut slack = None;
    // over each job with deadline D after t and slots still wanted
    for (number, job) in table.jobs().iter().enumerate() {
        let passed_over = slip(Slip::TimeOverReady) && job.release > t;
        if !(job.deadline > t && state.left[number] > 0) || passed_over {
            continue;
        }
        // slots still wanted by all jobs with deadlines after t and up to D, released or not
        let mut still_wanted = 0;
        for (other_number, other) in table.jobs().iter().enumerate() {
            let counts = (other.deadline > t || slip(Slip::TimeCountsCome))
                && (other.release <= t || !slip(Slip::TimeSumsReady));
            let up_to = if slip(Slip::TimeBelowEnd) {
                other.deadline < job.deadline || other_number == number
            } else {
                other.deadline <= job.deadline
            };
            if counts && up_to {
                still_wanted += if slip(Slip::TimeByWanted) {
                    other.wanted
                } else {
                    state.left[other_number]
                };
            }
        }
        slack = least(slack, job.deadline - t - still_wanted);
    }
    slack
}

/// The slack energy for the chosen job; None is unlimited.
pub fn slack_energy(table: &Table, harvest: &[u8], state: &State, chosen: usize) -> Option<i64> {
    let t = state.slot;
    let is_after = |release: i64| release > t || slip(Slip::EnergyReleasedNow) && release == t;
    let before = table.jobs()[chosen].deadline;
    let mut slack = None;
    // over each job released after t with deadline D below the chosen job's
    for (number, job) in table.jobs().iter().enumerate() {
        let is_below = job.deadline < before
            || slip(Slip::EnergyUpTo) && job.deadline == before
            || slip(Slip::EnergyAnyDeadline);
        let released_counts = slip(Slip::EnergyOverReleased) && job.deadline > t;
        let finished = slip(Slip::EnergyUnfinished) && state.left[number] == 0;
        if !(is_after(job.release) || released_counts) || !is_below || finished {
            continue;
        }
        // slots wanted x energy of all jobs released after t with deadlines up to D
        let mut needed = 0;
        for (other_number, other) in table.jobs().iter().enumerate() {
            let released_counts = (slip(Slip::EnergySumsReleased)
                || slip(Slip::EnergyOverReleased))
                && other.deadline > t;
            let up_to = if slip(Slip::EnergyBelowEnd) {
                other.deadline < job.deadline
            } else if slip(Slip::EnergyOneJob) {
                other_number == number
            } else {
                other.deadline <= job.deadline
            };
            let finished = slip(Slip::EnergyUnfinished) && state.left[other_number] == 0;
            if (is_after(other.release) || released_counts) && up_to && !finished {
                let wanted = if slip(Slip::EnergyStillWanted) {
                    state.left[other_number]
                } else {
                    other.wanted
                };
                needed += wanted * other.energy;
            }
        }
        let from = if slip(Slip::EnergyWithoutOwnHarvest) { t + 1 } else { t };
        let to = if slip(Slip::EnergyHarvestEnd) { job.deadline + 1 } else { job.deadline };
        let mut there = state.level + harvest_sum(harvest, from, to);
        if slip(Slip::EnergyCut) {
            there = there.min(table.capacity);
        }
        slack = least(slack, there - needed);
    }
    slack
}

/// Level + p, what is at hand in a slot.
fn at_hand(level: i64, p: i64) -> i64 {
    if slip(Slip::ChargeWraps) {
        (level + p) % 65536
    } else if slip(Slip::ChargeStops) {
        (level + p).min(65535)
    } else {
        level + p
    }
}

/// Rules 2 to 5, which ask something of the chosen job.
#[derive(Clone, Copy)]
enum Rule {
    Empty,
    Full,
    NoSlack,
    Saving,
}

/// The order of the rules decides.
fn rules_in_order() -> [Rule; 4] {
    if slip(Slip::FullBeforeEmpty) {
        [Rule::Full, Rule::Empty, Rule::NoSlack, Rule::Saving]
    } else if slip(Slip::NoSlackBeforeEmpty) {
        [Rule::NoSlack, Rule::Empty, Rule::Full, Rule::Saving]
    } else if slip(Slip::SavingBeforeEmpty) {
        [Rule::Saving, Rule::Empty, Rule::Full, Rule::NoSlack]
    } else if slip(Slip::NoSlackBeforeFull) {
        [Rule::Empty, Rule::NoSlack, Rule::Full, Rule::Saving]
    } else if slip(Slip::SavingBeforeFull) {
        [Rule::Empty, Rule::Saving, Rule::Full, Rule::NoSlack]
    } else if slip(Slip::SavingBeforeNoSlack) {
        [Rule::Empty, Rule::Full, Rule::Saving, Rule::NoSlack]
    } else {
        [Rule::Empty, Rule::Full, Rule::NoSlack, Rule::Saving]
    }
}

fn applies(rule: Rule, table: &Table, harvest: &[u8], state: &State, chosen: usize) -> bool {
    let energy = table.jobs()[chosen].energy;
    let level = state.level;
    let p = harvest[state.slot as usize] as i64;
    match rule {
        // 2. level + p below the chosen job's energy
        Rule::Empty if slip(Slip::EmptyAtMost) => at_hand(level, p) <= energy,
        Rule::Empty if slip(Slip::EmptyWithoutHarvest) => level < energy,
        Rule::Empty => at_hand(level, p) < energy,
        // 3. level + p above capacity
        Rule::Full if slip(Slip::FullIfEqual) => level == table.capacity,
        Rule::Full if slip(Slip::FullAtLeast) => at_hand(level, p) >= table.capacity,
        Rule::Full if slip(Slip::FullAfterSpending) => level + p - energy > table.capacity,
        Rule::Full => at_hand(level, p) > table.capacity,
        // 4. slack time 0 or less
        Rule::NoSlack => {
            let most = if slip(Slip::NoSlackBelowZero) { -1 } else { 0 };
            if slip(Slip::TimeOfChosen) {
                let own = table.jobs()[chosen].deadline - state.slot - state.left[chosen];
                return own <= most;
            }
            matches!(slack_time(table, state), Some(slack) if slack <= most)
        }
        // 5. slack energy below the job's energy
        Rule::Saving if slip(Slip::EarliestDeadline) => false,
        Rule::Saving => {
            let slack = slack_energy(table, harvest, state, chosen);
            let most = if slip(Slip::SavingAtMost) { energy } else { energy - 1 };
            matches!(slack, Some(slack) if slack <= most)
                || slack.is_none() && slip(Slip::EnergyUnlimitedIsZero)
        }
    }
}

/// What happens in the state's slot: the first rule that applies.
pub fn decide(table: &Table, harvest: &[u8], state: &State) -> Decision {
    // 1. nothing ready
    let chosen = match chosen_job(table, state) {
        None => return Decision::Idle(IdleWhy::None),
        Some(chosen) => chosen,
    };
    for rule in rules_in_order() {
        if !applies(rule, table, harvest, state, chosen) {
            continue;
        }
        return match rule {
            Rule::Empty => another_or_empty(table, harvest, state),
            Rule::Full => Decision::Busy(chosen, BusyWhy::Full),
            Rule::NoSlack => Decision::Busy(chosen, BusyWhy::NoSlack),
            Rule::Saving => Decision::Idle(IdleWhy::Saving),
        };
    }
    // 6.
    Decision::Busy(chosen, BusyWhy::Free)
}

/// The chosen job cannot be paid: `empty`, even where another ready job could be.
fn another_or_empty(table: &Table, harvest: &[u8], state: &State) -> Decision {
    let at_hand = state.level + harvest[state.slot as usize] as i64;
    match chosen_of(table, state, |job| job.energy <= at_hand) {
        Some(other) if slip(Slip::AnotherRuns) => Decision::Busy(other, BusyWhy::Free),
        _ => Decision::Idle(IdleWhy::Empty),
    }
}

/// The state after the slot. The next level is the lesser of capacity and
/// level + p - energy spent.
pub fn next_state(table: &Table, harvest: &[u8], state: &State, decision: Decision) -> State {
    let mut next = state.clone();
    let mut spent = 0;
    if let Decision::Busy(number, _) = decision {
        spent = table.jobs()[number].energy;
        next.left[number] -= 1;
    }
    let at_hand = at_hand(state.level, harvest[state.slot as usize] as i64);
    next.level = if slip(Slip::CutBeforeSpending) {
        table.capacity.min(at_hand) - spent
    } else if slip(Slip::NeverCut) {
        at_hand - spent
    } else if slip(Slip::IdleGainsNothing) && spent == 0 {
        state.level
    } else {
        table.capacity.min(at_hand - spent)
    };
    next.slot = state.slot + 1;
    next
}

#[derive(Clone, PartialEq, Debug)]
pub enum Step {
    Over,
    Taken(Decision),
}

/// One slot from any state, and the state after it: the table's checks, then "day over", then the
/// rules. A refused step and one past the last slot hand back the state as it was.
pub fn step(table: &Table, harvest: &[u8], state: &State) -> (Result<Step, Refusal>, State) {
    if slip(Slip::DayOverFirst) && state.slot >= table.slots {
        return (Ok(Step::Over), state.clone());
    }
    if let Err(refusal) = check_table(table, harvest).and_then(|_| check_state(table, state)) {
        let zeros = slip(Slip::RefusedStepZeros);
        return (Err(refusal), if zeros { ZERO_STATE } else { state.clone() });
    }
    if state.slot >= table.slots {
        let mut same = state.clone();
        same.slot += slip(Slip::OverMoves) as i64;
        return (Ok(Step::Over), same);
    }
    if slip(Slip::StepSearches) && search_overload(table, harvest).is_some() {
        return (Ok(Step::Over), state.clone());
    }
    let mut from = state.clone();
    if slip(Slip::StepCutsLevel) {
        from.level = from.level.min(table.capacity);
    }
    for (number, job) in table.jobs().iter().enumerate() {
        if slip(Slip::StepCutsLeft) {
            from.left[number] = from.left[number].min(job.wanted);
        }
        if slip(Slip::StepNotReleased) && job.release > state.slot {
            from.left[number] = job.wanted;
        }
    }
    if slip(Slip::StepDropsBeyond) {
        from.left[table.count as usize..].fill(0);
    }
    let decision = decide(table, harvest, &from);
    (Ok(Step::Taken(decision)), next_state(table, harvest, &from, decision))
}

/// No refusal exists for an odd state: a step follows the rules from any.
fn check_state(table: &Table, state: &State) -> Result<(), Refusal> {
    if slip(Slip::StepRefusesOdd) && state.level > table.capacity {
        return refuse(3);
    }
    let more = |(job, left): (&Job, &i64)| *left > job.wanted;
    if slip(Slip::StepRefusesLeft) && table.jobs().iter().zip(&state.left).any(more) {
        return refuse(6);
    }
    Ok(())
}

/// The whole run of a checked table: each slot's decision and the state after it.
pub fn run(table: &Table, harvest: &[u8]) -> Vec<(Decision, State)> {
    let mut state = first_state(table);
    let mut slots = Vec::new();
    while state.slot < table.slots {
        let decision = decide(table, harvest, &state);
        state = next_state(table, harvest, &state, decision);
        slots.push((decision, state.clone()));
    }
    slots
}

// ------------------------------------------------------------------------------------------
// The planner
// ------------------------------------------------------------------------------------------

#[derive(Clone, Copy, PartialEq, Debug)]
pub enum Answer {
    Overloaded(Overload),
    Met,
    Undecided(usize),
}

/// Met if every job got its slots, else undecided with the job unfinished at the smallest
/// deadline, ties the lowest number.
pub fn verdict(table: &Table, slots: &[(Decision, State)]) -> Answer {
    let first = first_state(table);
    let last = slots.last().map_or(&first, |slot| &slot.1);
    let mut named: Option<usize> = None;
    for (number, job) in table.jobs().iter().enumerate() {
        if last.left[number] == 0 {
            continue;
        }
        let keeps = match named.map(|before| table.jobs()[before].deadline) {
            None => false,
            Some(_) if slip(Slip::UndecidedByNumber) => true,
            Some(deadline) if slip(Slip::UndecidedHighest) => deadline < job.deadline,
            Some(deadline) => deadline <= job.deadline,
        };
        if !keeps {
            named = Some(number);
        }
    }
    match named {
        None => Answer::Met,
        Some(number) => Answer::Undecided(number),
    }
}

pub fn plan_byte(decision: Decision) -> u8 {
    match decision {
        Decision::Idle(_) => IDLE_BYTE,
        Decision::Busy(number, _) => number as u8,
    }
}

/// 7: the plan buffer's length is not slots.
fn check_plan_buffer(table: &Table, plan: &mut [u8]) -> Result<(), Refusal> {
    let longer = slip(Slip::SevenAsksRoom) && plan.len() as i64 > table.slots;
    if plan.len() as i64 == table.slots || longer {
        return Ok(());
    }
    if slip(Slip::RefusedPlanTouched) {
        plan.fill(IDLE_BYTE);
    }
    refuse(7)
}

/// The planner past the table's checks: 7, then the overload search, then the run, which alone
/// writes into the plan buffer.
fn plan_checked(table: &Table, harvest: &[u8], plan: &mut [u8]) -> Result<Answer, Refusal> {
    let overload = search_overload(table, harvest);
    if let (Some(overload), true) = (overload, slip(Slip::SevenNotOnOverload)) {
        return Ok(Answer::Overloaded(overload));
    }
    check_plan_buffer(table, plan)?;
    if let (Some(overload), false) = (overload, slip(Slip::OverloadedWritten)) {
        return Ok(Answer::Overloaded(overload));
    }
    let slots = run(table, harvest);
    let answer = verdict(table, &slots);
    if slip(Slip::UndecidedUnwritten) && answer != Answer::Met {
        return Ok(answer);
    }
    for (slot, (decision, _)) in slots.iter().enumerate() {
        plan[slot] = plan_byte(*decision);
    }
    Ok(overload.map_or(answer, Answer::Overloaded))
}

/// The planner on a table and harvest: the table's checks, then 7.
pub fn plan_table(table: &Table, harvest: &[u8], plan: &mut [u8]) -> Result<Answer, Refusal> {
    if slip(Slip::SevenBeforeRecords) {
        check_table_front(table, harvest)?;
        check_plan_buffer(table, plan)?;
    }
    check_table(table, harvest)?;
    plan_checked(table, harvest, plan)
}

/// The planner on a sheet.
pub fn plan_sheet(sheet: &[u8], plan: &mut [u8]) -> Result<Answer, Refusal> {
    if slip(Slip::SevenBeforeRecords) {
        check_plan_buffer(&open_sheet(sheet)?.0, plan)?;
    }
    let (table, harvest) = read_sheet(sheet)?;
    plan_checked(&table, harvest, plan)
}

// ------------------------------------------------------------------------------------------
// The judge of evidence
//
// It stands on the sheet and on demand alone, and knows nothing of the run or the planner.
// ------------------------------------------------------------------------------------------

/// 11: the judged plan's length is not slots.
fn check_plan_length(table: &Table, plan: &[u8]) -> Result<(), Refusal> {
    let longer = slip(Slip::LongerPlan) && plan.len() as i64 > table.slots;
    if plan.len() as i64 != table.slots && !longer {
        return refuse(11);
    }
    Ok(())
}

/// 12: a plan byte is neither 255 nor a job's number.
fn is_byte_of_plan(table: &Table, byte: u8) -> bool {
    let idle = byte == IDLE_BYTE && !slip(Slip::IdleIsNoJob);
    let beyond = slip(Slip::BeyondIsJob)
        && (byte as i64) < MOST_JOBS
        && table.places[byte as usize] != ZERO_JOB;
    idle || (byte as u64) < table.count || beyond || slip(Slip::NoJobIsIdle)
}

/// The judge of a plan past the sheet's or the table's checks: 11, then slot by slot 12, 13, 14,
/// 15, then 16. Not refused is accepted.
fn judge_plan_checked(table: &Table, harvest: &[u8], plan: &[u8]) -> Result<(), Refusal> {
    check_plan_length(table, plan)?;
    if slip(Slip::TwelveFirst) {
        if let Some(slot) = plan.iter().position(|byte| !is_byte_of_plan(table, *byte)) {
            return refuse_naming(12, Named::Slot(slot as i64));
        }
    }
    let mut level = if slip(Slip::JudgeStartsEmpty) { 0 } else { table.capacity };
    let mut given = [0; MOST_JOBS as usize];
    for slot in 0..table.slots {
        let byte = plan[slot as usize];
        let p = harvest[slot as usize] as i64;
        let at_hand = at_hand(level, p);
        if !is_byte_of_plan(table, byte) {
            return refuse_naming(12, Named::Slot(slot));
        }
        let is_idle = byte == IDLE_BYTE || slip(Slip::NoJobIsIdle) && byte as u64 >= table.count;
        let mut spent = 0;
        if !is_idle {
            let number = byte as usize;
            let job = table.places[number];
            // 13: from its release up to, not including, its deadline
            let come = if slip(Slip::DeadlineSlotJudged) {
                slot > job.deadline
            } else {
                slot >= job.deadline
            };
            let early = slip(Slip::ReleaseSlotJudged) && slot == job.release;
            let thirteen = slot < job.release || early || come;
            // 14: that job already has all its slots
            let fourteen = given[number] >= job.wanted && !slip(Slip::AtLeast);
            // 15: level plus the slot's harvest is below that job's energy
            let fifteen = if slip(Slip::FifteenAtMost) {
                at_hand <= job.energy
            } else if slip(Slip::FifteenWithoutHarvest) {
                level < job.energy
            } else {
                at_hand < job.energy
            };
            let in_order = if slip(Slip::FourteenBeforeThirteen) {
                [(14, fourteen), (13, thirteen), (15, fifteen)]
            } else if slip(Slip::FifteenBeforeFourteen) {
                [(13, thirteen), (15, fifteen), (14, fourteen)]
            } else if slip(Slip::FifteenBeforeThirteen) {
                [(15, fifteen), (13, thirteen), (14, fourteen)]
            } else {
                [(13, thirteen), (14, fourteen), (15, fifteen)]
            };
            for (number, given) in in_order {
                if given {
                    return refuse_naming(number, Named::Slot(slot));
                }
            }
            given[number] += 1;
            spent = job.energy;
        }
        level = if slip(Slip::JudgeNeverCuts) {
            at_hand - spent
        } else if slip(Slip::JudgeCutsBefore) {
            table.capacity.min(at_hand) - spent
        } else {
            table.capacity.min(at_hand - spent)
        };
    }
    // 16: the lowest job that lacks slots
    let lacks = |number: &usize| given[*number] < table.jobs()[*number].wanted;
    let mut lacking = (0..table.jobs().len()).filter(lacks);
    let named = if slip(Slip::SixteenByDeadline) {
        lacking.min_by_key(|number| (table.jobs()[*number].deadline, *number))
    } else {
        lacking.next()
    };
    match named {
        Some(number) => refuse_naming(16, Named::Job(number as i64)),
        None => Ok(()),
    }
}

/// The judge of a plan on a table and harvest.
pub fn judge_plan_table(table: &Table, harvest: &[u8], plan: &[u8]) -> Result<(), Refusal> {
    if slip(Slip::ElevenBeforeRecords) {
        check_table_front(table, harvest)?;
        check_plan_length(table, plan)?;
    }
    check_table(table, harvest)?;
    judge_plan_checked(table, harvest, plan)
}

/// The judge of a plan on a sheet.
pub fn judge_plan_sheet(sheet: &[u8], plan: &[u8]) -> Result<(), Refusal> {
    if slip(Slip::ElevenBeforeRecords) {
        check_plan_length(&open_sheet(sheet)?.0, plan)?;
    }
    let (table, harvest) = read_sheet(sheet)?;
    judge_plan_checked(&table, harvest, plan)
}

/// A claim is a kind, a start and an end: any three numbers of 64 bits.
#[derive(Clone, Copy, PartialEq, Debug)]
pub struct Claim {
    pub kind: u64,
    pub start: u64,
    pub end: u64,
}

/// A claim past 17: an interval of the day in one of the two kinds, its demand and its supply.
/// It is accepted where demand is above supply; else it is refused 18.
#[derive(Clone, Copy, PartialEq, Debug)]
pub struct Weighed {
    pub accepted: bool,
    pub kind: Kind,
    pub start: i64,
    pub end: i64,
    pub demand: i64,
    pub supply: i64,
}

/// A claim with its numbers cut, where a slip cuts them.
fn cut_claim(claim: Claim) -> Claim {
    let Claim { mut kind, mut start, mut end } = claim;
    if slip(Slip::ClaimKindIn8Bits) {
        kind %= 1 << 8;
    }
    for number in [&mut kind, &mut start, &mut end] {
        if slip(Slip::ClaimIn16Bits) {
            *number %= 1 << 16;
        }
        if slip(Slip::ClaimIn32Bits) {
            *number %= 1 << 32;
        }
    }
    Claim { kind, start, end }
}

/// 17 of a claim by itself: the kind is neither 0 nor 1, or the start is not below the end.
fn check_claim(claim: Claim) -> Result<Kind, Refusal> {
    let kind = match claim.kind {
        0 => Kind::Time,
        1 => Kind::Energy,
        _ if slip(Slip::ClaimKindAny) => Kind::Energy,
        _ => return refuse(17),
    };
    let empty = slip(Slip::ClaimEmpty) && claim.start == claim.end;
    if !(claim.start < claim.end) && !empty {
        return refuse(17);
    }
    Ok(kind)
}

/// The judge of a claim past the sheet's or the table's checks: 17, then 18.
fn judge_claim_checked(table: &Table, harvest: &[u8], claim: Claim) -> Result<Weighed, Refusal> {
    let claim = cut_claim(claim);
    let kind = check_claim(claim)?;
    let most = table.slots as u64 - slip(Slip::ClaimEndBelow) as u64;
    if claim.end > most {
        return refuse(17);
    }
    let (start, end) = (claim.start as i64, claim.end as i64);
    let by_jobs = table.jobs().iter().any(|job| job.release == start)
        && table.jobs().iter().any(|job| job.deadline == end);
    if slip(Slip::ClaimByJobs) && !by_jobs {
        return refuse(17);
    }
    let demand = demand(kind, table, start, end);
    let supply = supply(kind, table, harvest, start, end);
    let mut accepted = demand > supply || slip(Slip::OverloadedIfEqual) && demand == supply;
    if slip(Slip::ClaimSearched) {
        let searched = Some(Overload { kind, start, end, demand, supply });
        accepted = search_overload(table, harvest) == searched;
    }
    Ok(Weighed { accepted, kind, start, end, demand, supply })
}

/// The judge of a claim on a table and harvest.
pub fn judge_claim_table(table: &Table, harvest: &[u8], claim: Claim) -> Result<Weighed, Refusal> {
    if slip(Slip::ClaimBeforeSheet) {
        check_claim(claim)?;
    }
    check_table(table, harvest)?;
    judge_claim_checked(table, harvest, claim)
}

/// The judge of a claim on a sheet.
pub fn judge_claim_sheet(sheet: &[u8], claim: Claim) -> Result<Weighed, Refusal> {
    if slip(Slip::ClaimBeforeSheet) {
        check_claim(claim)?;
    }
    let (table, harvest) = read_sheet(sheet)?;
    judge_claim_checked(&table, harvest, claim)
}
