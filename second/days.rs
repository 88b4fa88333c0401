//! Days: the paper's, the telling ones, random ones of many sorts, the files of examples/, and what
//! is made from days: sheets, tables, damaged sheets, states.

use crate::paper::*;
use crate::words::*;

pub const FILL: u8 = 0xA5;

/// A table and its harvest, kept together while cases are made.
#[derive(Clone, Debug)]
pub struct Day {
    pub jobs: Vec<Job>,
    pub capacity: i64,
    pub harvest: Vec<u8>,
}

impl Day {
    /// Jobs as (release, deadline, slots, energy).
    pub fn new(capacity: i64, harvest: &[u8], jobs: &[(i64, i64, i64, i64)]) -> Day {
        let mut day = Day { jobs: Vec::new(), capacity, harvest: harvest.to_vec() };
        for &(release, deadline, wanted, energy) in jobs {
            day.jobs.push(Job { release, deadline, wanted, energy });
        }
        day
    }

    pub fn slots(&self) -> i64 {
        self.harvest.len() as i64
    }

    pub fn table(&self) -> Table {
        let mut places = [ZERO_JOB; MOST_JOBS as usize];
        places[..self.jobs.len()].copy_from_slice(&self.jobs);
        Table {
            count: self.jobs.len() as u64,
            slots: self.slots(),
            capacity: self.capacity,
            places,
        }
    }

    pub fn sheet(&self) -> Vec<u8> {
        sheet_bytes(&self.jobs, &self.harvest, self.capacity)
    }

    pub fn answer(&self) -> Answer {
        let mut plan = vec![FILL; self.harvest.len()];
        plan_table(&self.table(), &self.harvest, &mut plan).expect("a day that is not refused")
    }
}

/// Days 1 to 8 of the paper.
pub fn paper_days() -> Vec<Day> {
    vec![
        Day::new(1, &[0, 0, 1, 0], &[(0, 4, 1, 1), (1, 2, 1, 1)]),
        Day::new(1, &[0, 0, 0, 0], &[(0, 4, 1, 1), (1, 2, 1, 1)]),
        Day::new(2, &[0], &[(0, 1, 1, 1), (0, 1, 1, 1)]),
        Day::new(1, &[0], &[(0, 1, 1, 1), (0, 1, 1, 1)]),
        Day::new(4, &[2; 9], &[(0, 9, 3, 3), (1, 5, 4, 3)]),
        Day::new(5, &[0, 0], &[(0, 2, 3, 1)]),
        Day::new(0, &[0], &[]),
        Day::new(0, &[1, 1], &[(0, 2, 2, 1)]),
    ]
}

/// The plans of days 9 and 10.
pub const DAY_9_ACCEPTED: [u8; 4] = [0xFF, 0x01, 0x00, 0xFF];
pub const DAY_9_REFUSED: [u8; 4] = [0x00, 0x01, 0xFF, 0xFF];
pub const DAY_10_PLAN: [u8; 9] = [0xFF, 0x01, 0x01, 0x01, 0x01, 0xFF, 0x00, 0x00, 0xFF];

/// Days that show what hardly any run shows.
pub fn telling_days() -> Vec<Day> {
    vec![
        // slack energy: "below" the chosen deadline is not "up to" it
        Day::new(5, &[2, 1, 1, 0, 2, 2, 0, 0, 1], &[(2, 6, 3, 3), (0, 9, 3, 1), (7, 9, 1, 2)]),
        // noslack comes before saving
        Day::new(4, &[0, 0, 1, 3], &[(0, 4, 2, 2), (3, 4, 1, 1), (1, 2, 1, 3)]),
        // empty comes before full
        Day::new(0, &[1, 1, 1], &[(0, 3, 1, 2)]),
        // empty by the chosen job, where another ready job could be paid
        Day::new(1, &[0, 0, 3, 0], &[(0, 3, 1, 3), (0, 4, 1, 1)]),
        // capacity 0: harvest at or above the energy is full
        Day::new(0, &[0, 2, 1, 3], &[(0, 4, 2, 1)]),
        // undecided: the smallest deadline, not the lowest number
        Day::new(0, &[1; 6], &[(0, 6, 1, 2), (0, 4, 1, 2)]),
        // undecided: of tied deadlines the lowest number
        Day::new(0, &[1; 5], &[(0, 5, 1, 2), (0, 5, 1, 2)]),
        Day::new(0, &[1; 8], &[(0, 2, 1, 1), (0, 8, 1, 2), (1, 5, 1, 2), (0, 5, 1, 2)]),
        // the smallest end before the latest start: 0 to 2 and 2 to 4 are overloaded
        Day::new(9, &[0, 0, 0, 0], &[(0, 2, 3, 1), (2, 4, 3, 1)]),
        // the latest start: 0 to 4 and 2 to 4 are overloaded
        Day::new(9, &[0, 0, 0, 0], &[(0, 4, 2, 1), (2, 4, 3, 1)]),
        // energy at a later start before time at an earlier one
        Day::new(3, &[0, 0, 0, 0], &[(0, 4, 3, 1), (2, 4, 2, 2)]),
        // release and deadline of the interval from different jobs
        Day::new(9, &[0; 6], &[(1, 3, 2, 1), (2, 5, 3, 1), (0, 6, 1, 1)]),
        // an interval that starts late still counts the whole capacity
        Day::new(2, &[0; 6], &[(0, 2, 1, 2), (3, 6, 1, 2)]),
        Day::new(2, &[0; 6], &[(0, 2, 1, 1), (3, 6, 1, 3)]),
        // supply equal to demand is no overload
        Day::new(4, &[0, 0, 0], &[(0, 3, 2, 2)]),
        // ties in the deadline go to the lowest number, released later or not
        Day::new(9, &[0; 5], &[(1, 5, 1, 1), (0, 5, 2, 1), (0, 5, 1, 1)]),
        // an earlier deadline preempts
        Day::new(9, &[0; 6], &[(0, 6, 3, 1), (1, 3, 2, 1)]),
        // a level one short of full spills too
        Day::new(4, &[0, 3, 0, 0, 0, 0], &[(0, 6, 2, 1), (3, 5, 2, 2)]),
        // the largest numbers: level + harvest above 65,535
        Day::new(65535, &[255; 6], &[(0, 6, 3, 255), (1, 4, 2, 255)]),
        // the largest energy demand of one job
        Day::new(65535, &[255; 3], &[(0, 3, 1440, 255)]),
        Day::new(65535, &[255; 3], &[(0, 3, 3, 255), (0, 3, 1440, 1)]),
        // energy demand above 65,535, and energy supply too
        Day::new(100, &[0; 260], &[(0, 260, 258, 255)]),
        Day::new(65535, &[1; 260], &[(0, 260, 258, 255)]),
        // no jobs, some slots
        Day::new(3, &[0, 9, 0], &[]),
    ]
}

// ------------------------------------------------------------------------------------------
// Random days
// ------------------------------------------------------------------------------------------

/// A linear congruential generator with a fixed seed.
pub struct Dice {
    pub state: u64,
}

impl Dice {
    /// A number from 0 to `limit` - 1.
    pub fn below(&mut self, limit: i64) -> i64 {
        self.state = self.state.wrapping_mul(6364136223846793005).wrapping_add(1442695040888963407);
        ((self.state >> 33) % limit as u64) as i64
    }

    /// A number from `low` to `high`.
    pub fn between(&mut self, low: i64, high: i64) -> i64 {
        low + self.below(high - low + 1)
    }

    pub fn one_in(&mut self, many: i64) -> bool {
        self.below(many) == 0
    }

    pub fn byte(&mut self) -> u8 {
        self.below(256) as u8
    }

    pub fn bytes(&mut self, length: i64) -> Vec<u8> {
        (0..length).map(|_| self.byte()).collect()
    }
}

/// A day that is not refused: up to 8 jobs and up to 16 slots.
pub fn random_day(dice: &mut Dice) -> Day {
    let slots = dice.between(1, 16);
    let most_harvest = [0, 1, 2, 3, 3, 8][dice.below(6) as usize];
    let most_capacity = [0, 1, 3, 6, 10, 20][dice.below(6) as usize];
    let most_energy = [1, 2, 3, 4, 8][dice.below(5) as usize];
    let mut day = Day {
        jobs: Vec::new(),
        capacity: dice.between(0, most_capacity),
        harvest: (0..slots).map(|_| dice.between(0, most_harvest) as u8).collect(),
    };
    let most_jobs = [2, 4, 6, 8][dice.below(4) as usize];
    for _ in 0..dice.between(0, most_jobs) {
        let release = dice.below(slots);
        let deadline = dice.between(release + 1, slots);
        let most_wanted = if dice.one_in(12) { 20 } else { (deadline - release).min(4) };
        let wanted = dice.between(1, most_wanted);
        day.jobs.push(Job { release, deadline, wanted, energy: dice.between(1, most_energy) });
    }
    day
}

/// Energy 1 in every job, harvest 0 or 1 in every slot.
pub fn even_day(dice: &mut Dice) -> Day {
    let mut day = random_day(dice);
    for job in day.jobs.iter_mut() {
        job.energy = 1;
    }
    for byte in day.harvest.iter_mut() {
        *byte = dice.below(2) as u8;
    }
    day
}

/// At most two different deadlines.
pub fn tied_day(dice: &mut Dice) -> Day {
    let mut day = random_day(dice);
    let slots = day.slots();
    let middle = dice.between(1, slots);
    for job in day.jobs.iter_mut() {
        job.deadline = if dice.one_in(2) { middle } else { slots };
        job.release = dice.below(job.deadline);
        job.wanted = dice.between(1, 2);
    }
    day
}

/// Energies, harvest and capacity anywhere in their ranges.
pub fn wide_day(dice: &mut Dice) -> Day {
    let mut day = random_day(dice);
    day.capacity = if dice.one_in(3) { dice.below(65536) } else { dice.below(2000) };
    for job in day.jobs.iter_mut() {
        job.energy = dice.between(1, 255);
    }
    for byte in day.harvest.iter_mut() {
        *byte = dice.byte();
    }
    day
}

/// 64 jobs, 1,440 slots; `load` scales the slots wanted.
pub fn large_day(dice: &mut Dice, load: i64) -> Day {
    let mut day = Day { jobs: Vec::new(), capacity: 250, harvest: Vec::new() };
    for _ in 0..MOST_SLOTS {
        day.harvest.push(dice.below(10) as u8);
    }
    for number in 0..MOST_JOBS {
        let release = dice.below(1340);
        let deadline = if number == 40 { MOST_SLOTS } else { release + 60 + dice.below(41) };
        let (wanted, energy) = (dice.between(1, load), dice.between(1, 20));
        day.jobs.push(Job { release, deadline, wanted, energy });
    }
    day
}

/// Days of one sort until one passes the test.
pub fn day_with(dice: &mut Dice, sort: fn(&mut Dice) -> Day, test: impl Fn(&Day) -> bool) -> Day {
    loop {
        let day = sort(dice);
        if test(&day) {
            return day;
        }
    }
}

pub fn is_overloaded_in(day: &Day, kind: Kind) -> bool {
    matches!(day.answer(), Answer::Overloaded(overload) if overload.kind == kind)
}

pub fn is_undecided(day: &Day) -> bool {
    matches!(day.answer(), Answer::Undecided(_))
}

/// Not overloaded, and some slot of the run carries that ground.
pub fn shows(day: &Day, ground: &str) -> bool {
    !matches!(day.answer(), Answer::Overloaded(_))
        && run(&day.table(), &day.harvest).iter().any(|slot| ground_word(slot.0) == ground)
}

/// The i-th of a run of days in which every answer and ground has its turn.
pub fn day_in_turn(dice: &mut Dice, i: usize) -> Day {
    let sorts = [random_day, tied_day, random_day, even_day, random_day, wide_day, random_day];
    let sort = sorts[i % sorts.len()];
    match i % 10 {
        0 => day_with(dice, random_day, |day| is_overloaded_in(day, Kind::Time)),
        1 => day_with(dice, sort, |day| is_overloaded_in(day, Kind::Energy)),
        2 => day_with(dice, random_day, is_undecided),
        3 => day_with(dice, sort, |day| day.answer() == Answer::Met && day.jobs.len() > 1),
        4 => day_with(dice, sort, |day| shows(day, "noslack")),
        5 => day_with(dice, random_day, |day| shows(day, "saving")),
        6 => day_with(dice, random_day, |day| shows(day, "saving") && shows(day, "noslack")),
        7 => day_with(dice, random_day, |day| is_undecided(day) && shows(day, "empty")),
        8 => day_with(dice, sort, |day| shows(day, "full") && shows(day, "free")),
        _ => sort(dice),
    }
}
// ------------------------------------------------------------------------------------------
// Sheets and tables at the limits, for each refusal and for which comes first
// ------------------------------------------------------------------------------------------

/// A length and that many bytes.
pub fn bytes_part(bytes: &[u8]) -> Vec<u8> {
    [&(bytes.len() as u32).to_le_bytes()[..], bytes].concat()
}

/// A table and its harvest, with a count and a slot number of their own, which need not fit the
/// jobs and the harvest.
pub fn table_part(count: u64, slots: i64, capacity: i64, given: &[Job], harvest: &[u8]) -> Vec<u8> {
    let mut part = count.to_le_bytes().to_vec();
    part.extend(little_endian(slots));
    part.extend(little_endian(capacity));
    assert!(given.len() as i64 <= MOST_JOBS);
    part.push(given.len() as u8);
    for job in given {
        part.extend(little_endian(job.release));
        part.extend(little_endian(job.deadline));
        part.extend(little_endian(job.wanted));
        part.push(job.energy as u8);
    }
    part.extend(bytes_part(harvest));
    part
}

pub fn day_part(day: &Day) -> Vec<u8> {
    table_part(day.jobs.len() as u64, day.slots(), day.capacity, &day.jobs, &day.harvest)
}

/// Kind, start and end, each a number of 64 bits.
pub fn claim_part(claim: Claim) -> Vec<u8> {
    [claim.kind, claim.start, claim.end].map(u64::to_le_bytes).concat()
}

/// Slot, level, and what every place has left.
pub fn state_part(state: &State) -> Vec<u8> {
    let mut part = Vec::new();
    part.extend(little_endian(state.slot));
    part.extend(little_endian(state.level));
    for left in state.left {
        part.extend(little_endian(left));
    }
    part
}

/// A trailer with numbers of its own.
pub fn trailer(to_harvest: i64, to_jobs: i64, jobs: i64, slots: i64, capacity: i64) -> Vec<u8> {
    let mut bytes = Vec::new();
    for number in [to_harvest, to_jobs, jobs, slots, capacity] {
        bytes.extend(little_endian(number));
    }
    bytes.extend(MARK);
    bytes
}

/// The sheet with one byte set.
pub fn with_byte(sheet: &[u8], at: usize, byte: u8) -> Vec<u8> {
    let mut sheet = sheet.to_vec();
    sheet[at] = byte;
    sheet
}

/// The sheet with a little-endian number set; a place below 0 counts from the sheet's end.
pub fn with_number(sheet: &[u8], at: i64, number: i64) -> Vec<u8> {
    let at = if at < 0 { sheet.len() as i64 + at } else { at } as usize;
    let mut sheet = sheet.to_vec();
    sheet[at..at + 2].copy_from_slice(&little_endian(number));
    sheet
}

// Places in the trailer, from the end of the sheet.
pub const TO_HARVEST: i64 = -12;
pub const TO_JOBS: i64 = -10;
pub const JOBS: i64 = -8;
pub const SLOTS: i64 = -6;
pub const CAPACITY: i64 = -4;

/// Sheets at the limits and sheets for each refusal of the reader, and for which comes first.
pub fn telling_sheets() -> Vec<Vec<u8>> {
    let day = Day::new(3, &[1, 0, 2, 0], &[(0, 4, 1, 1), (1, 2, 1, 1), (2, 4, 1, 2)]);
    let good = day.sheet();
    let mut sheets = Vec::new();

    // 1, also with a good mark at the end
    sheets.push(vec![]);
    sheets.push(vec![0x45]);
    sheets.push(MARK.to_vec());
    sheets.push(vec![0; 11]);
    sheets.push(trailer(1, 1, 0, 1, 0)[1..].to_vec());
    // 2, before 3 and 4
    sheets.push(vec![0; 12]);
    sheets.push(with_byte(&trailer(1, 1, 0, 1, 0), 10, 0x44));
    sheets.push(with_byte(&trailer(1, 1, 0, 1, 0), 11, 0x45));
    sheets.push(with_number(&good, -2, 0x4548));
    sheets.push(with_number(&with_number(&good, JOBS, 65), -2, 0));
    sheets.push(with_number(&with_number(&good, TO_JOBS, 65), -2, 0));
    // 3, before 4
    sheets.push(trailer(0, 0, 0, 0, 0));
    sheets.push(with_number(&good, JOBS, 65));
    sheets.push(with_number(&good, JOBS, 65535));
    sheets.push(with_number(&good, JOBS, 256));
    sheets.push(with_number(&good, SLOTS, 0));
    sheets.push(with_number(&good, SLOTS, 1441));
    sheets.push(with_number(&good, SLOTS, 65535));
    sheets.push(trailer(4, 524, 65, 4, 7));
    sheets.push(trailer(0, 8, 1, 0, 7));
    sheets.push([&good[..8], &trailer(0, 8, 1, 0, 7)[..]].concat());
    // 4, each test of it, before the records
    sheets.push(trailer(1, 1, 0, 1, 0));
    sheets.push(with_number(&good, JOBS, 64));
    sheets.push(with_number(&good, JOBS, 2));
    sheets.push(with_number(&good, SLOTS, 1440));
    sheets.push(with_number(&good, SLOTS, 3));
    sheets.push(with_number(&good, TO_HARVEST, 3));
    sheets.push(with_number(&good, TO_HARVEST, 5));
    sheets.push(with_number(&good, TO_HARVEST, 4 + 256));
    sheets.push(with_number(&good, TO_JOBS, 27));
    sheets.push(with_number(&good, TO_JOBS, 29));
    sheets.push(with_number(&good, TO_JOBS, 28 + 256));
    sheets.push(good[1..].to_vec());
    sheets.push(good[8..].to_vec());
    sheets.push([&[0][..], &good[..]].concat());
    sheets.push([&good[..8], &good[..]].concat());
    sheets.push(with_number(&with_number(&good, 2, 0), TO_HARVEST, 5));
    sheets.push(with_number(&with_number(&good, 4, 0), TO_JOBS, 5));
    // an empty day, in two sizes
    sheets.push([&[9][..], &trailer(1, 1, 0, 1, 65535)[..]].concat());
    sheets.push([&[9, 255][..], &trailer(2, 2, 0, 2, 0)[..]].concat());
    // capacity is never refused
    sheets.push(with_number(&good, CAPACITY, 0));
    sheets.push(with_number(&good, CAPACITY, 65535));
    // 5
    sheets.push(with_number(&good, 8, 2)); // release equal to the deadline
    sheets.push(with_number(&good, 8, 3)); // release above the deadline
    sheets.push(with_number(&good, 8, 65535));
    sheets.push(with_number(&good, 10, 4)); // deadline equal to slots
    sheets.push(with_number(&good, 10, 5)); // deadline one more
    sheets.push(with_number(&good, 10, 65535));
    sheets.push(with_number(&good, 10, 0));
    // 6
    sheets.push(with_number(&good, 4, 0));
    sheets.push(with_number(&good, 4, 1440));
    sheets.push(with_number(&good, 4, 1441));
    sheets.push(with_number(&good, 4, 65535));
    sheets.push(with_byte(&good, 6, 0));
    sheets.push(with_byte(&good, 6, 255));
    sheets.push(with_byte(&good, 7, 1));
    sheets.push(with_byte(&good, 23, 255));
    // both in one record is 5; 6 in an earlier record comes before 5 in a later one
    sheets.push(with_number(&with_number(&good, 8, 2), 12, 0));
    sheets.push(with_byte(&with_number(&good, 18, 5), 23, 1));
    sheets.push(with_number(&with_number(&good, 4, 0), 10, 5));
    sheets.push(with_byte(&with_number(&good, 8, 3), 7, 1));
    sheets.push(with_byte(&with_number(&good, 16, 4), 14, 0));
    sheets.push(with_byte(&with_number(&good, 8, 3), 22, 0));
    sheets
}

/// The limits that need more bytes: 64 and 65 jobs, 1,440 and 1,441 slots.
pub fn limit_sheets() -> Vec<Vec<u8>> {
    let many = |count: usize| Day::new(80, &[1, 2, 3], &vec![(0, 3, 1, 1); count]).sheet();
    let mut last_bad = many(64);
    last_bad[63 * 8 + 7] = 1;
    let wide = |slots: usize, deadline: i64| {
        Day::new(1, &vec![1; slots], &[(1439, deadline, 1440, 1)]).sheet()
    };
    vec![many(64), many(65), last_bad, wide(1440, 1440), wide(1440, 1441), wide(1441, 1441)]
}

/// Tables for each refusal and for which comes first, with the harvest that goes with them.
pub fn telling_tables() -> Vec<Vec<u8>> {
    let jobs = Day::new(0, &[], &[(0, 4, 1, 1), (1, 2, 1, 1), (2, 4, 1, 2)]).jobs;
    let with = |number: usize, release: i64, deadline: i64, wanted: i64, energy: i64| {
        let mut jobs = jobs.clone();
        jobs[number] = Job { release, deadline, wanted, energy };
        jobs
    };
    let mut six_then_five = with(0, 0, 4, 0, 1);
    six_then_five[1].deadline = 5;
    let four = [1, 0, 2, 0];
    vec![
        table_part(3, 4, 3, &jobs, &four),
        // 3, before 4 and the records
        table_part(65, 4, 3, &jobs, &four),
        table_part(256, 4, 3, &jobs, &four),
        table_part(65535, 4, 3, &jobs, &four),
        table_part((1 << 8) + 3, 4, 3, &jobs, &four),
        table_part((1 << 16) + 3, 4, 3, &jobs, &four),
        table_part((1 << 32) + 3, 4, 3, &jobs, &four),
        table_part((1 << 63) + 3, 4, 3, &jobs, &four),
        table_part(u64::MAX, 4, 3, &jobs, &four),
        table_part(3, 0, 3, &jobs, &four),
        table_part(0, 0, 3, &jobs, &[]),
        table_part(3, 1441, 3, &jobs, &four),
        table_part(65, 5, 3, &jobs, &four),
        table_part(65535, 65535, 65535, &[], &[]),
        // 4, before the records
        table_part(3, 5, 3, &jobs, &four),
        table_part(3, 3, 3, &jobs, &four),
        table_part(3, 4, 3, &jobs, &[]),
        table_part(64, 4, 3, &jobs, &[1, 2, 3]),
        table_part(3, 4, 3, &with(0, 0, 5, 1, 1), &[1, 2, 3]),
        table_part(3, 4, 3, &with(0, 0, 5, 1, 1), &[1, 2, 3, 4, 5]),
        // count above the given jobs: the zero job there is 5; count below: the rest is unread
        table_part(4, 4, 3, &jobs, &four),
        table_part(64, 4, 3, &jobs, &four),
        table_part(2, 4, 3, &jobs, &four),
        table_part(0, 4, 3, &jobs, &four),
        table_part(2, 4, 3, &with(2, 9, 3, 0, 0), &four),
        table_part(1, 4, 3, &with(1, 65535, 65535, 65535, 255), &four),
        table_part(1, 1, 0, &[], &[7]),
        // 5
        table_part(3, 4, 3, &with(0, 4, 4, 1, 1), &four),
        table_part(3, 4, 3, &with(1, 3, 2, 1, 1), &four),
        table_part(3, 4, 3, &with(2, 2, 5, 1, 1), &four),
        table_part(3, 4, 3, &with(2, 3, 4, 1, 1), &four),
        table_part(3, 4, 3, &with(2, 0, 65535, 1, 1), &four),
        // 6
        table_part(3, 4, 3, &with(0, 0, 4, 0, 1), &four),
        table_part(3, 4, 3, &with(1, 0, 4, 1440, 1), &four),
        table_part(3, 4, 3, &with(1, 0, 4, 1441, 1), &four),
        table_part(3, 4, 3, &with(2, 0, 4, 1, 0), &four),
        table_part(3, 4, 3, &with(2, 0, 4, 65535, 255), &four),
        // both in one record is 5; 6 in record 0 comes before 5 in record 1
        table_part(3, 4, 3, &with(1, 2, 2, 0, 0), &four),
        table_part(3, 4, 3, &six_then_five, &four),
    ]
}

// ------------------------------------------------------------------------------------------
// Damage and odd states
// ------------------------------------------------------------------------------------------

/// A sheet that was good: one byte changed, cut or extended.
pub fn damaged_sheet(dice: &mut Dice, sheet: &[u8]) -> Vec<u8> {
    let length = sheet.len() as i64;
    match dice.below(8) {
        0 => sheet[..dice.below(length) as usize].to_vec(),
        1 => sheet[dice.between(1, length) as usize..].to_vec(),
        2 => {
            let more = dice.between(1, 9);
            [sheet, &dice.bytes(more)[..]].concat()
        }
        3 => {
            let more = dice.between(1, 9);
            [&dice.bytes(more)[..], sheet].concat()
        }
        4 => {
            let at = length - 12 + dice.below(12);
            with_byte(sheet, at as usize, dice.between(0, 5) as u8)
        }
        _ => {
            // in a record where there is one
            let records = number_at(sheet, length - 8) * RECORD_BYTES;
            let at = if records > 0 { dice.below(records) } else { dice.below(length) } as usize;
            let byte = if dice.one_in(3) { dice.byte() } else { dice.below(4) as u8 };
            let changed = if byte == sheet[at] { byte ^ 1 } else { byte };
            with_byte(sheet, at, changed)
        }
    }
}

/// Bytes of length 0 to 60: nothing right, a good mark, or a trailer that fits the length.
pub fn garbage(dice: &mut Dice) -> Vec<u8> {
    let length = dice.below(61);
    let mut bytes = dice.bytes(length);
    let end = bytes.len();
    match dice.below(4) {
        0 => {}
        1 if end >= 2 => bytes[end - 2..].copy_from_slice(&MARK),
        _ if end >= 13 => {
            let body = end as i64 - 12;
            let jobs = dice.between(0, (body - 1) / RECORD_BYTES);
            let slots = body - RECORD_BYTES * jobs;
            let off = if dice.one_in(3) { dice.below(3) } else { 0 };
            let capacity = dice.below(65536);
            let fitting = trailer(slots, slots + 8 * jobs + off, jobs, slots, capacity);
            bytes[end - 12..].copy_from_slice(&fitting);
            // records of small numbers, so that some are good
            for at in 0..8 * jobs as usize {
                bytes[at] = match at % 8 {
                    1 | 3 | 5 => 0,
                    7 => dice.one_in(6) as u8,
                    _ => dice.below(slots.min(9) + 2) as u8,
                };
            }
        }
        _ => {}
    }
    bytes
}

/// A count that is none, or that would be this one if it were cut.
pub fn odd_count(dice: &mut Dice, count: u64) -> u64 {
    let above = [63, 64, 65, 66, 127, 128, 255, 256, 512, 65535, u64::MAX, 1 << 32, 1 << 63];
    match dice.below(2) {
        0 => above[dice.below(13) as usize],
        _ => count + (1 << [8, 16, 32, 61, 63][dice.below(5) as usize]),
    }
}

/// A table of a day with something odd about it: the count, the slots, a job, the harvest or
/// what stands beyond the last job.
pub fn odd_table(dice: &mut Dice, day: &Day) -> Vec<u8> {
    let mut count = day.jobs.len() as u64;
    let mut slots = day.slots();
    let mut jobs = day.jobs.clone();
    let mut harvest = day.harvest.clone();
    match dice.below(7) {
        0 => count = dice.below(10) as u64,
        1 => count = odd_count(dice, count),
        2 => slots = (slots + dice.between(-2, 2)).max(0),
        3 => harvest.push(dice.byte()),
        4 if count > 0 => {
            let job = &mut jobs[dice.below(count as i64) as usize];
            match dice.below(5) {
                0 => job.release = dice.below(20),
                1 => job.deadline = dice.below(20),
                2 => job.wanted = [0, 1440, 1441, 65535][dice.below(4) as usize],
                3 => job.energy = 0,
                _ => *job = ZERO_JOB,
            }
        }
        _ => {
            // jobs beyond the last one, which nothing may look at
            for _ in 0..dice.between(1, 4) {
                let (release, deadline) = (dice.below(18), dice.below(18));
                jobs.push(Job { release, deadline, wanted: dice.below(5), energy: dice.below(3) });
            }
        }
    }
    jobs.truncate(MOST_JOBS as usize);
    table_part(count, slots, day.capacity, &jobs, &harvest)
}

/// Some state for a day: in about half of them nothing is odd.
pub fn random_state(dice: &mut Dice, day: &Day) -> State {
    let past = dice.one_in(25);
    let slot = if past { day.slots() + dice.below(3) } else { dice.below(day.slots()) };
    let above = dice.one_in(6);
    let level = if above { day.capacity + dice.below(10) } else { dice.between(0, day.capacity) };
    let mut state = State { slot, level: level.min(65535), left: [0; MOST_JOBS as usize] };
    let odd = dice.one_in(3);
    for place in 0..state.left.len() {
        state.left[place] = match day.jobs.get(place) {
            Some(job) if odd => dice.below(job.wanted + 4),
            Some(job) if job.release > state.slot => job.wanted,
            Some(job) => dice.between(0, job.wanted),
            None if odd => dice.below(65536),
            None => 0,
        };
    }
    state
}

/// The step from there carries that ground, which its rule only just gives: one more or one
/// less, and another rule would have decided.
pub fn only_just(day: &Day, state: &State, ground: &str) -> bool {
    let table = day.table();
    if state.slot >= table.slots {
        return false;
    }
    let taken = decide(&table, &day.harvest, state);
    if ground_word(taken) != ground {
        return false;
    }
    let chosen = match chosen_job(&table, state) {
        None => return true,
        Some(chosen) => chosen,
    };
    let energy = day.jobs[chosen].energy;
    let charge = state.level + day.harvest[state.slot as usize] as i64;
    match ground {
        "empty" => charge == energy - 1,
        "full" => charge == day.capacity + 1,
        "noslack" => slack_time(&table, state) == Some(0),
        "saving" => slack_energy(&table, &day.harvest, state, chosen) == Some(energy - 1),
        "free" => slack_energy(&table, &day.harvest, state, chosen) == Some(energy),
        _ => false,
    }
}

/// The step from there is `saving` with a slack energy below 0.
pub fn owes(day: &Day, state: &State) -> bool {
    let table = day.table();
    let saving = Decision::Idle(IdleWhy::Saving);
    state.slot < table.slots
        && decide(&table, &day.harvest, state) == saving
        && chosen_job(&table, state)
            .and_then(|chosen| slack_energy(&table, &day.harvest, state, chosen))
            .map_or(false, |slack| slack < 0)
}

// ------------------------------------------------------------------------------------------
// The files of examples/
// ------------------------------------------------------------------------------------------

/// Not overloaded, and each of the six grounds in a dozen slots and more.
pub fn largest_example() -> Day {
    large_day(&mut Dice { state: 3580 }, 18)
}

/// The sheets of the folder examples/, by name.
pub fn examples() -> Vec<(String, Vec<u8>)> {
    let mut sheets = Vec::new();
    for (i, day) in paper_days().iter().enumerate() {
        sheets.push((format!("day-{}", i + 1), day.sheet()));
    }
    sheets.push(("largest-day".to_string(), largest_example().sheet()));
    // day 1, where the deadline of job 1 is one slot past the end of the day
    sheets.push(("refused".to_string(), with_number(&paper_days()[0].sheet(), 10, 5)));
    sheets
}

/// The plans of the folder examples/, by name.
pub fn example_plans() -> Vec<(String, Vec<u8>)> {
    let plans: [(&str, &[u8]); 8] = [
        ("day-9-accepted.plan", &DAY_9_ACCEPTED),
        ("day-9-refused.plan", &DAY_9_REFUSED),
        ("day-10.plan", &DAY_10_PLAN),
        ("largest-day.plan", &run_plan(&largest_example())),
        // slips in a plan for day 1: refused 12, 13 and 14
        ("day-1-no-job.plan", &[0xFF, 0x01, 0x02, 0xFF]),
        ("day-1-too-early.plan", &[0x01, 0xFF, 0x00, 0xFF]),
        ("day-1-twice.plan", &[0xFF, 0x01, 0x00, 0x00]),
        // job 0 in the only slot, for a day with no jobs
        ("day-7-no-job.plan", &[0x00]),
    ];
    plans.iter().map(|(name, plan)| (name.to_string(), plan.to_vec())).collect()
}

/// The sheets and the plans of the folder examples/, by name.
fn all_examples() -> impl Iterator<Item = (String, Vec<u8>)> {
    examples().into_iter().chain(example_plans())
}

/// A sheet by its name, or a plan by its name and ending.
pub fn example(name: &str) -> Vec<u8> {
    all_examples().find(|example| example.0 == name).expect("the name of an example").1
}

/// The name of every example, a line each.
pub fn example_names() -> String {
    all_examples().map(|example| example.0 + "\n").collect()
}

/// The plan of the run, whether or not an interval is overloaded.
pub fn run_plan(day: &Day) -> Vec<u8> {
    run(&day.table(), &day.harvest).iter().map(|slot| plan_byte(slot.0)).collect()
}
