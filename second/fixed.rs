//! The fixed set of requests.

use crate::days::*;
use crate::hand::*;
use crate::make::{request, Request, Size};
use crate::paper::*;
use crate::requests::KINDS;
use crate::words::*;

/// The set while it grows.
struct Fixed {
    requests: Vec<Request>,
}

/// What a lent buffer holds before the call: no two neighbours alike.
fn lent(room: i64) -> Vec<u8> {
    (0..room).map(|at| (0xA5 + 7 * at) as u8).collect()
}

impl Fixed {
    /// A request that the set does not have yet.
    fn add(&mut self, kind: u8, parts: &[&[u8]]) {
        let request = Request::new(kind, parts);
        if !self.requests.contains(&request) {
            self.requests.push(request);
        }
    }

    fn count(&self, kind: u8) -> i64 {
        self.requests.iter().filter(|request| request.kind == kind).count() as i64
    }

    fn read(&mut self, sheet: &[u8]) {
        self.add(b'R', &[&bytes_part(sheet)]);
    }

    fn harvest(&mut self, sheet: &[u8]) {
        self.add(b'H', &[&bytes_part(sheet)]);
    }

    fn stretch(&mut self, sheet: &[u8], count: u64, slots: i64) {
        self.add(b'X', &[&bytes_part(sheet), &count.to_le_bytes(), &little_endian(slots)]);
    }

    /// `C`, `S` or `B`.
    fn on_table(&mut self, kind: u8, table: &[u8]) {
        self.add(kind, &[table]);
    }

    fn write(&mut self, room: i64, table: &[u8]) {
        self.add(b'W', &[table, &bytes_part(&lent(room))]);
    }

    fn plan_sheet(&mut self, room: i64, sheet: &[u8]) {
        self.add(b'P', &[&bytes_part(sheet), &bytes_part(&lent(room))]);
    }

    fn plan_table(&mut self, room: i64, table: &[u8]) {
        self.add(b'Q', &[table, &bytes_part(&lent(room))]);
    }

    fn step(&mut self, state: &State, table: &[u8]) {
        self.add(b'N', &[table, &state_part(state)]);
    }

    fn list(&mut self, sheet: &[u8]) {
        self.add(b'D', &[&bytes_part(sheet)]);
    }

    fn judge_sheet(&mut self, plan: &[u8], sheet: &[u8]) {
        self.add(b'J', &[&bytes_part(sheet), &bytes_part(plan)]);
    }

    fn judge_table(&mut self, plan: &[u8], table: &[u8]) {
        self.add(b'K', &[table, &bytes_part(plan)]);
    }

    fn claim_sheet(&mut self, claim: Claim, sheet: &[u8]) {
        self.add(b'I', &[&bytes_part(sheet), &claim_part(claim)]);
    }

    fn claim_table(&mut self, claim: Claim, table: &[u8]) {
        self.add(b'L', &[table, &claim_part(claim)]);
    }

    /// The plan on the day's sheet and on its table in turn.
    fn judge_in_turn(&mut self, plan: &[u8], day: &Day) {
        if self.requests.len() % 2 == 0 {
            self.judge_sheet(plan, &day.sheet());
        } else {
            self.judge_table(plan, &day_part(day));
        }
    }

    /// The claim on the day's sheet and on its table in turn, so that both kinds come to both.
    fn claim_in_turn(&mut self, claim: Claim, day: &Day) {
        if (claim.kind + claim.start + claim.end) % 2 == 0 {
            self.claim_sheet(claim, &day.sheet());
        } else {
            self.claim_table(claim, &day_part(day));
        }
    }

    /// A step from every state the day's run passes through, and one from its end.
    fn steps_of(&mut self, day: &Day) {
        let table = day_part(day);
        self.step(&first_state(&day.table()), &table);
        for (_, state) in run(&day.table(), &day.harvest) {
            self.step(&state, &table);
        }
    }
}

/// The paper's days and the telling ones, in every kind of case.
fn add_known_days(set: &mut Fixed) {
    for day in paper_days() {
        let length = day.sheet().len() as i64;
        let slots = day.slots();
        set.read(&day.sheet());
        set.write(length, &day_part(&day));
        set.write(length + 3, &day_part(&day));
        set.plan_sheet(slots, &day.sheet());
        set.plan_sheet(slots + 1, &day.sheet());
        set.plan_table(slots, &day_part(&day));
        set.steps_of(&day);
        add_small_calls(set, &day);
    }
    for day in telling_days() {
        set.read(&day.sheet());
        set.plan_sheet(day.slots(), &day.sheet());
        set.plan_table(day.slots(), &day_part(&day));
        set.list(&day.sheet());
        add_small_calls(set, &day);
    }
    for day in &telling_days()[..5] {
        set.steps_of(day);
    }
}
/// The calls that take a table or a sheet and lend no buffer.
fn add_small_calls(set: &mut Fixed, day: &Day) {
    for kind in [b'C', b'S', b'B'] {
        set.on_table(kind, &day_part(day));
    }
    set.harvest(&day.sheet());
    set.stretch(&day.sheet(), day.jobs.len() as u64, day.slots());
}

/// Stretches: inside the sheet, up to its end, past it, and counts of any size.
fn add_stretches(set: &mut Fixed) {
    let sheet = paper_days()[0].sheet();
    for slots in [0, 1, 4, 15, 16, 17, 65535] {
        set.stretch(&sheet, 2, slots);
        set.stretch(&sheet, 0, slots);
    }
    for count in [0, 1, 3, 4, 5, 64, 65, 255, 1 << 32, 1 << 60, 1 << 61, (1 << 61) + 2, u64::MAX] {
        set.stretch(&sheet, count, 4);
        set.stretch(&sheet, count, 0);
    }
    set.stretch(&[], 0, 0);
    set.stretch(&[], 0, 1);
    set.stretch(&[7; 11], 1, 3);
    set.stretch(&[7; 11], 1, 4);
    // behind 65 records and more
    let long: Vec<u8> = (0..600).map(|at| at as u8).collect();
    set.stretch(&long, 64, 20);
    set.stretch(&long, 65, 20);
    set.stretch(&long, 75, 0);
    set.stretch(&long, 74, 9);
}

/// The refusals of every call, and the rooms for 7 and 8.
fn add_refusals(set: &mut Fixed) {
    for (i, sheet) in telling_sheets().iter().enumerate() {
        set.read(sheet);
        set.harvest(sheet);
        set.list(sheet);
        set.stretch(sheet, i as u64 % 4, 4);
    }
    for (i, sheet) in telling_sheets().iter().enumerate() {
        // 4 is the good plan room; elsewhere 7 would stand, were it not last
        if i % 3 == 0 {
            set.plan_sheet(4, sheet);
        } else if i % 3 == 1 {
            set.plan_sheet(3, sheet);
        }
    }
    for sheet in limit_sheets() {
        set.read(&sheet);
    }
    let middle = State { slot: 1, level: 2, left: [1; MOST_JOBS as usize] };
    let past = State { slot: 4, level: 9, left: [2; MOST_JOBS as usize] };
    for (i, table) in telling_tables().iter().enumerate() {
        // three jobs and four slots need 40 bytes: room 0 shows that 8 comes last
        set.write(if i % 2 == 0 { 44 } else { 0 }, table);
        set.plan_table(if i % 2 == 0 { 4 } else { 5 }, table);
        set.step(if i % 2 == 0 { &middle } else { &past }, table);
        for kind in [b'C', b'S', b'B'] {
            set.on_table(kind, table);
        }
    }
    let good = &telling_tables()[0];
    for room in [0, 11, 12, 39, 40, 41, 2100] {
        set.write(room, good);
    }
    for room in [0, 3, 5, 260, 1500] {
        set.plan_sheet(room, &paper_days()[0].sheet());
        set.plan_table(room, good);
    }
    for day in &paper_days()[1..4] {
        // overloaded with a wrong room is 7
        set.plan_table(day.slots() + 1, &day_part(day));
        set.plan_sheet(0, &day.sheet());
    }
}

/// Steps from states no run passes through.
fn add_odd_states(set: &mut Fixed) {
    let day = Day::new(4, &[0, 0, 2, 1, 0, 3], &[(0, 6, 3, 2), (2, 4, 1, 3), (1, 3, 2, 1)]);
    let table = day_part(&day);
    let state = |slot: i64, level: i64, left: [i64; 3]| {
        let mut state = State { slot, level, left: [7; MOST_JOBS as usize] };
        state.left[..3].copy_from_slice(&left);
        state
    };
    // day over
    for slot in [6, 7, 1440, 65535] {
        set.step(&state(slot, 3, [3, 1, 2]), &table);
    }
    // the last slot, and the level at, one short of and above capacity
    for level in [0, 1, 2, 3, 4, 5, 65535] {
        set.step(&state(5, level, [1, 0, 0]), &table);
        set.step(&state(0, level, [3, 1, 2]), &table);
        set.step(&state(2, level, [0, 0, 0]), &table);
    }
    // left above wanted, and finished jobs not yet released
    set.step(&state(0, 4, [65535, 65535, 65535]), &table);
    set.step(&state(0, 4, [5, 0, 0]), &table);
    set.step(&state(0, 3, [2, 0, 0]), &table);
    set.step(&state(0, 4, [6, 0, 0]), &table);
    set.step(&state(0, 4, [7, 0, 0]), &table);
    set.step(&state(1, 4, [0, 9, 3]), &table);
    // no slack time by a job not yet released alone
    set.step(&state(0, 3, [1, 4, 0]), &table);
    set.step(&state(0, 3, [1, 3, 0]), &table);
    set.step(&state(1, 3, [1, 3, 0]), &table);
    for second in 0..6 {
        for third in 0..3 {
            set.step(&state(0, 3, [1, second, third]), &table);
        }
    }
    // a job that is not yet released has no time to spare, and those that are have
    let crowd = Day::new(9, &[0; 8], &[(0, 8, 1, 1), (3, 5, 2, 1), (4, 5, 1, 2)]);
    for third in 0..4 {
        for slot in 0..3 {
            set.step(&state(slot, 8, [1, 3, third]), &day_part(&crowd));
        }
    }
    // a finished job that is released in this very slot, with a deadline below the chosen one's
    let just = Day::new(9, &[0; 8], &[(0, 8, 1, 3), (2, 5, 2, 2), (1, 4, 1, 2)]);
    for level in 3..9 {
        set.step(&state(2, level, [1, 0, 0]), &day_part(&just));
        set.step(&state(1, level, [1, 0, 0]), &day_part(&just));
    }
    // jobs whose deadline has come have slots left
    for second in 1..5 {
        set.step(&state(5, 5, [1, second, 0]), &day_part(&just));
        set.step(&state(4, 5, [1, 0, second]), &day_part(&just));
    }
    // at hand is 65,535, one more, and the most there is
    let brim = Day::new(65535, &[1, 255, 0], &[(0, 3, 1, 1), (1, 2, 1, 255)]);
    for (slot, level) in [(0, 65534), (0, 65535), (1, 65280), (1, 65281), (1, 65535), (2, 65535)] {
        set.step(&state(slot, level, [1, 1, 0]), &day_part(&brim));
        set.step(&state(slot, level, [1, 0, 0]), &day_part(&brim));
    }
    // sums of what is left above 65,535
    set.step(&state(0, 4, [32768, 0, 32768]), &table);
    set.step(&state(1, 3, [65534, 1, 1]), &table);
    // a finished job released in this very slot does not count into slack energy
    set.step(&state(1, 4, [1, 1, 0]), &table);
    set.step(&state(1, 3, [1, 1, 0]), &table);
    // a job whose deadline has come: neither run nor counted
    set.step(&state(3, 3, [2, 1, 60000]), &table);
    set.step(&state(4, 3, [1, 50, 60]), &table);
    set.step(&state(4, 3, [0, 50, 60]), &table);
    set.step(&state(5, 1, [2, 1, 1]), &table);
    // slack energy below 0, and a demand in it above 65,535
    let owing = Day::new(2000, &[0; 6], &[(0, 6, 1, 1), (2, 4, 2, 4), (0, 6, 1, 1)]);
    for level in [1, 7, 8, 9] {
        set.step(&state(0, level, [1, 2, 0]), &day_part(&owing));
    }
    let owing = Day::new(2000, &[0; 6], &[(0, 6, 1, 1), (2, 4, 258, 255)]);
    for level in [253, 300, 2000] {
        set.step(&state(0, level, [1, 1, 0]), &day_part(&owing));
    }
}

/// Requests with 64 jobs and 1,440 slots.
fn add_large(set: &mut Fixed) {
    let met = large_day(&mut Dice { state: 55 }, 14);
    let undecided = large_day(&mut Dice { state: 365 }, 20);
    let overloaded = large_day(&mut Dice { state: 1 }, 40);
    assert!(met.sheet().len() == 1964 && met.answer() == Answer::Met);
    assert!(is_undecided(&undecided) && is_overloaded_in(&overloaded, Kind::Energy));
    set.read(&met.sheet());
    set.write(1964, &day_part(&undecided));
    set.write(1963, &day_part(&met));
    set.plan_sheet(1440, &undecided.sheet());
    set.plan_sheet(1440, &overloaded.sheet());
    set.plan_table(1440, &day_part(&met));
    let slots = run(&met.table(), &met.harvest);
    let saving = slots.iter().rposition(|slot| ground_word(slot.0) == "saving").unwrap();
    set.step(&slots[saving - 1].1, &day_part(&met));
    let most = State { slot: 700, level: 65535, left: [65535; MOST_JOBS as usize] };
    set.step(&most, &day_part(&overloaded));
}

/// The i-th of a run of steps in which every ground has its turn, in many of them only just.
fn add_random_step(set: &mut Fixed, dice: &mut Dice, i: usize) {
    let turns = [
        "saving", "free", "noslack", "odd", "saving", "free", "full", "any", "saving", "free",
        "empty", "odd", "none", "saving", "free", "noslack", "owing", "any",
    ];
    let turn = turns[i % turns.len()];
    let sorts = [random_day, tied_day, random_day, even_day, random_day, wide_day];
    loop {
        let day = sorts[dice.below(6) as usize](dice);
        let state = random_state(dice, &day);
        if turn == "odd" {
            return set.step(&state, &odd_table(dice, &day));
        }
        let fits = match turn {
            "any" => true,
            "owing" => owes(&day, &state),
            _ => only_just(&day, &state, turn),
        };
        if fits && day.jobs.len() > 1 {
            return set.step(&state, &day_part(&day));
        }
    }
}

/// Random requests until there are that many of the kind.
fn add_random(set: &mut Fixed, dice: &mut Dice) {
    let mut i = 0;
    while set.count(b'R') < 250 {
        let day = day_in_turn(dice, i);
        match i % 3 {
            0 => set.read(&[random_day, wide_day][i % 2](dice).sheet()),
            1 => set.read(&damaged_sheet(dice, &day.sheet())),
            _ => set.read(&garbage(dice)),
        }
        i += 1;
    }
    i = 0;
    while set.count(b'W') < 120 {
        let day = [random_day, wide_day][i % 2](dice);
        let length = day.sheet().len() as i64;
        match i % 4 {
            0 => set.write(length + dice.between(-2, 20), &day_part(&day)),
            1 => set.write(dice.below(length + 5), &day_part(&day)),
            2 => set.write(length, &day_part(&day)),
            _ => set.write(length + 40, &odd_table(dice, &day)),
        }
        i += 1;
    }
    i = 0;
    while set.count(b'P') < 250 {
        let day = day_in_turn(dice, i);
        match i % 12 {
            7 => set.plan_sheet(day.slots(), &damaged_sheet(dice, &day.sheet())),
            11 if i % 24 == 11 => set.plan_sheet(dice.below(17), &day.sheet()),
            11 => set.plan_sheet(dice.below(9), &garbage(dice)),
            _ => set.plan_sheet(day.slots(), &day.sheet()),
        }
        i += 1;
    }
    i = 0;
    while set.count(b'Q') < 105 {
        let day = day_in_turn(dice, i + 2);
        if i % 3 == 0 {
            set.plan_table(day.slots(), &odd_table(dice, &day));
        } else {
            set.plan_table(day.slots(), &day_part(&day));
        }
        i += 1;
    }
    i = 0;
    while set.count(b'N') < 370 {
        add_random_step(set, dice, i);
        i += 1;
    }
}
/// The listings: the examples, and random days in which every answer and ground has its turn.
fn add_listings(set: &mut Fixed, dice: &mut Dice) {
    for (_, sheet) in examples() {
        set.list(&sheet);
    }
    for i in 0..12 {
        set.list(&day_in_turn(dice, i).sheet());
    }
}

/// Evidence on the paper's days: plans of the run and beside it, and every interval.
fn add_judged_days(set: &mut Fixed) {
    for day in paper_days() {
        let plan = run_plan(&day);
        let mut plans = vec![plan.clone()];
        plans.extend(changed_plans(&day, &plan));
        plans.extend(idle_and_odd_lengths(&plan));
        plans.extend(swapped_plans(&plan));
        for plan in plans {
            set.judge_sheet(&plan, &day.sheet());
            set.judge_table(&plan, &day_part(&day));
        }
        for plan in plans_with_no_job(&day, &plan) {
            set.judge_in_turn(&plan, &day);
        }
        for claim in all_claims(&day) {
            set.claim_in_turn(claim, &day);
        }
    }
    let days = paper_days();
    for (day, plan) in [(&days[0], &DAY_9_ACCEPTED[..]), (&days[0], &DAY_9_REFUSED[..])] {
        set.judge_sheet(plan, &day.sheet());
        set.judge_table(plan, &day_part(day));
    }
    set.judge_sheet(&DAY_10_PLAN, &days[4].sheet());
    set.judge_table(&DAY_10_PLAN, &day_part(&days[4]));
    // every byte there is in one slot
    let day = Day::new(2, &[0, 1], &[(0, 2, 1, 1), (1, 2, 1, 1)]);
    for byte in 0..=255 {
        set.judge_sheet(&[0, byte], &day.sheet());
    }
}

/// Evidence made by hand, on the sheet and on the table.
fn add_evidence_by_hand(set: &mut Fixed) {
    for JudgedPlans { day, plans } in plans_by_hand() {
        for (plan, _) in plans {
            // the long ones in turn
            if plan.len() < 10 {
                set.judge_sheet(&plan, &day.sheet());
                set.judge_table(&plan, &day_part(&day));
            } else {
                set.judge_in_turn(&plan, &day);
            }
        }
    }
    for JudgedClaims { day, claims } in claims_by_hand() {
        for (claim, _) in claims {
            if day.slots() < 10 && day.jobs.len() < 10 {
                set.claim_sheet(claim, &day.sheet());
                set.claim_table(claim, &day_part(&day));
            } else {
                set.claim_in_turn(claim, &day);
            }
        }
    }
    // an energy overload and a time overload over the whole day
    for claim in odd_claims(4) {
        set.claim_sheet(claim, &paper_days()[1].sheet());
    }
    for claim in odd_claims(2) {
        set.claim_table(claim, &day_part(&paper_days()[5]));
    }
}

/// 1 to 6 come before anything that plan or claim could be refused for.
fn add_judged_refusals(set: &mut Fixed) {
    // for the good ones of these sheets and tables: accepted, 12, 11, 11 and 16
    let plans: [&[u8]; 5] = [&[0, 1, 2, 255], &[0, 9, 2, 255], &[0, 1, 2], &[], &[255; 4]];
    // and 18, 17 by the kind, by the start and by the end, and 18
    let claim = |kind, start, end| Claim { kind, start, end };
    let claims = [
        claim(TIME, 0, 4),
        claim(2, 0, 4),
        claim(ENERGY, 3, 3),
        claim(TIME, 0, u64::MAX),
        claim(ENERGY, 1, 2),
    ];
    for (i, sheet) in telling_sheets().iter().enumerate() {
        set.judge_sheet(plans[i % 5], sheet);
        set.claim_sheet(claims[i % 5], sheet);
    }
    for (i, table) in telling_tables().iter().enumerate() {
        set.judge_table(plans[i % 5], table);
        set.claim_table(claims[i % 5], table);
    }
    // places beyond the count that would be good jobs
    let jobs = Day::new(0, &[], &[(0, 3, 1, 1), (0, 3, 1, 1), (1, 2, 2, 1)]).jobs;
    for count in 0..4 {
        let table = table_part(count, 3, 9, &jobs, &[0, 1, 2]);
        for plan in [[0, 1, 2], [1, 0, 255], [0, 2, 255], [1, 2, 0], [0, 1, 255], [0, 255, 255]] {
            set.judge_table(&plan, &table);
        }
    }
    // all five on a good one; a place beyond the last job is no job's number
    let (good, fewer) = (&telling_tables()[0], &telling_tables()[17]);
    for i in 0..5 {
        set.judge_table(plans[i], good);
        set.claim_table(claims[i], good);
        set.judge_table(plans[i], fewer);
    }
    // the limits of jobs
    let limits = limit_sheets();
    set.judge_sheet(&[63, 0, 64], &limits[0]);
    set.judge_sheet(&[63, 0, 64], &limits[1]);
    set.claim_sheet(claim(TIME, 0, 3), &limits[1]);
    set.claim_sheet(claim(2, 0, 3), &limits[2]);
}

/// Random evidence: small days with plans beside the run's, claims at the edge, damaged sheets
/// and odd tables.
fn add_random_evidence(set: &mut Fixed, dice: &mut Dice) {
    for i in 0..20 {
        let day = small_day_in_turn(dice, i);
        let plan = run_plan(&day);
        let mut plans = vec![plan.clone()];
        plans.extend(changed_plans(&day, &plan));
        // one of the three in each of most slots
        plans.extend(plans_with_no_job(&day, &plan).into_iter().step_by(4));
        // idle, and one byte too few or too many
        plans.extend(idle_and_odd_lengths(&plan).into_iter().take(3));
        for plan in plans {
            set.judge_in_turn(&plan, &day);
        }
    }
    for i in 0..40 {
        let day = small_day_in_turn(dice, i);
        let plan = run_plan(&day);
        set.judge_in_turn(&plan, &day);
        for plan in swapped_plans(&plan) {
            set.judge_in_turn(&plan, &day);
        }
    }
    for _ in 0..8 {
        let (day, plan) = undecided_with_plan(dice);
        set.judge_in_turn(&run_plan(&day), &day);
        set.judge_in_turn(&plan, &day);
        for plan in swapped_plans(&plan) {
            set.judge_in_turn(&plan, &day);
        }
    }
    for i in 0..10 {
        let day = day_in_turn(dice, i);
        set.judge_in_turn(&run_plan(&day), &day);
        for claim in claims_at_edge(&day) {
            set.claim_in_turn(claim, &day);
        }
    }
    for i in 0..40 {
        // a sort in turn, or overloaded in time, in energy or in both
        let day = small_day_in_turn(dice, if i % 2 == 0 { i / 2 } else { 5 + i / 2 % 3 });
        for claim in claims_at_edge(&day) {
            set.claim_in_turn(claim, &day);
        }
    }
    // every interval of three days that are overloaded
    for i in 5..8 {
        let day = small_day_in_turn(dice, i);
        for claim in all_claims(&day) {
            set.claim_in_turn(claim, &day);
        }
    }
    for i in 0..40 {
        let day = small_day_in_turn(dice, i);
        let plan = if dice.one_in(3) { dice.bytes(4) } else { run_plan(&day) };
        let (start, end) = (dice.below(4) as u64, dice.below(8) as u64);
        let claim = Claim { kind: dice.below(3) as u64, start, end };
        let sheet = if i % 4 == 3 { garbage(dice) } else { damaged_sheet(dice, &day.sheet()) };
        set.judge_sheet(&plan, &sheet);
        set.claim_sheet(claim, &sheet);
        let table = odd_table(dice, &day);
        set.judge_table(&plan, &table);
        set.claim_table(claim, &table);
    }
}

/// 64 jobs and 1,440 slots: the plan of the run, and the whole day in both kinds.
fn add_large_evidence(set: &mut Fixed) {
    let met = large_day(&mut Dice { state: 150 }, 14);
    let largest = largest_example();
    set.judge_table(&run_plan(&met), &day_part(&met));
    set.judge_sheet(&run_plan(&largest), &largest.sheet());
    let whole = |kind: u64| Claim { kind, start: 0, end: 1440 };
    set.claim_sheet(whole(TIME), &largest.sheet());
    set.claim_table(whole(ENERGY), &day_part(&largest));
}

/// What is no request, or only just one.
fn add_no_requests(set: &mut Fixed) {
    let day = paper_days()[0].clone();
    let sheet = bytes_part(&day.sheet());
    let table = day_part(&day);
    for kind in [0, b' ', b'A', b'Z', b'c', b'r', b'd', 0x80, 255] {
        set.add(kind, &[]);
        set.add(kind, &[&sheet]);
    }
    for kind in KINDS {
        // nothing, part of what is wanted, and one byte more
        set.add(*kind, &[]);
        set.add(*kind, &[&sheet[..sheet.len() - 1]]);
        set.add(*kind, &[&sheet, &[0]]);
        set.add(*kind, &[&table, &[0]]);
        set.add(*kind, &[&table[..12]]);
    }
    // a length that would wrap
    set.add(b'R', &[&u32::MAX.to_le_bytes(), &[0; 3]]);
    // a table that gives 65 jobs
    let many = [&table[..12], &[65], &[0; 65 * 7], &bytes_part(&[1])[..]].concat();
    set.add(b'C', &[&many]);
    let most = [&table[..12], &[64], &[0; 64 * 7], &bytes_part(&day.harvest)[..]].concat();
    set.add(b'C', &[&most]);
}

/// How many of the case maker's requests are in the set, small ones and typical ones, and their
/// seed.
const SMALL: u64 = 1500;
const TYPICAL: u64 = 40;
const SEED: u64 = 2026;

/// The fixed set: what is known and made by hand, then some of the case maker's; its last request
/// is cut off.
pub fn fixed_requests() -> Vec<u8> {
    let mut set = Fixed { requests: Vec::new() };
    let mut dice = Dice { state: 2026 };
    add_known_days(&mut set);
    add_stretches(&mut set);
    add_refusals(&mut set);
    add_odd_states(&mut set);
    add_random(&mut set, &mut dice);
    add_large(&mut set);
    add_listings(&mut set, &mut dice);
    let mut dice = Dice { state: 1611 };
    add_judged_days(&mut set);
    add_evidence_by_hand(&mut set);
    add_judged_refusals(&mut set);
    add_random_evidence(&mut set, &mut dice);
    add_large_evidence(&mut set);
    add_no_requests(&mut set);
    for number in 0..SMALL {
        set.requests.push(request(SEED, number, Size::Small));
    }
    for number in 0..TYPICAL {
        set.requests.push(request(SEED, number, Size::Typical));
    }
    let mut bytes: Vec<u8> = set.requests.iter().flat_map(Request::bytes).collect();
    bytes.extend(&Request::new(b'R', &[&bytes_part(&paper_days()[0].sheet())]).bytes()[..20]);
    bytes
}
