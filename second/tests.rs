//! The self-test.

use crate::days::*;
use crate::evidence::*;
use crate::fixed::fixed_requests;
use crate::hand::*;
use crate::make::{request_bytes, Request};
use crate::paper::*;
use crate::requests::{answer, KINDS, MOST_PAYLOAD};
use crate::words::*;

const DAY_1_SHEET: [u8; 32] = [
    0x00, 0x00, 0x04, 0x00, 0x01, 0x00, 0x01, 0x00, 0x01, 0x00, 0x02, 0x00, 0x01, 0x00, 0x01, 0x00,
    0x00, 0x00, 0x01, 0x00, 0x04, 0x00, 0x14, 0x00, 0x02, 0x00, 0x04, 0x00, 0x01, 0x00, 0x45, 0x48,
];

const DAY_1_LISTING: &str = "\
day slots 4 jobs 2 capacity 1
slot 0 idle saving level 1
slot 1 job 1 noslack level 0
slot 2 job 0 free level 0
slot 3 idle none level 0
verdict met
";

/// Day, what the planner answers, and the plan (an empty one: the buffer is untouched).
const PAPER_ANSWERS: [(usize, &str, &[u8]); 8] = [
    (1, "met", &[0xFF, 0x01, 0x00, 0xFF]),
    (2, "energy 0 4 demand 2 supply 1", &[]),
    (3, "time 0 1 demand 2 supply 1", &[]),
    (4, "time 0 1 demand 2 supply 1", &[]),
    (5, "undecided job 1", &[0x00, 0x01, 0x01, 0x01, 0xFF, 0x00, 0x00, 0xFF, 0xFF]),
    (6, "time 0 2 demand 3 supply 2", &[]),
    (7, "met", &[0xFF]),
    (8, "met", &[0x00, 0x00]),
];

fn test_paper_days() {
    let days = paper_days();
    assert_eq!(days[0].sheet(), DAY_1_SHEET);
    assert_eq!(day_listing(&DAY_1_SHEET), DAY_1_LISTING);
    for (number, words, wanted_plan) in PAPER_ANSWERS {
        let day = &days[number - 1];
        let untouched = vec![FILL; day.harvest.len()];
        let mut plan = untouched.clone();
        let answer = plan_sheet(&day.sheet(), &mut plan).unwrap();
        assert_eq!(answer_words(answer), words, "day {number}");
        if wanted_plan.is_empty() {
            assert_eq!(plan, untouched, "day {number}");
            let listing = day_listing(&day.sheet());
            assert!(listing.ends_with(&format!("\nverdict {words}\n")), "day {}", number);
            assert_eq!(listing.lines().count(), 2, "day {number}");
        } else {
            assert_eq!(plan, wanted_plan, "day {number}");
        }
    }
}

/// Days 9 to 11.
fn test_paper_evidence() {
    let days = paper_days();
    let (day_1, day_5) = (days[0].sheet(), days[4].sheet());
    let judged = |sheet: &[u8], plan: &[u8]| judge_line(judge_plan_sheet(sheet, plan));
    assert_eq!(judged(&day_1, &DAY_9_ACCEPTED), "judge accepted");
    assert_eq!(judged(&day_1, &DAY_9_REFUSED), "judge refused 15 slot 1");
    assert_eq!(judged(&day_5, &DAY_10_PLAN), "judge refused 16 job 0");
    let day_11 = judge_claim_sheet(&day_1, Claim { kind: 1, start: 0, end: 4 });
    assert_eq!(claim_line(day_11), "claim refused 18 demand 2 supply 2");
}

fn test_day_program() {
    assert_eq!(day_listing(&[]), "refused 1\n");
    assert_eq!(day_listing(&vec![0; 4096]), "refused 2\n");
    assert_eq!(day_listing(&vec![0; 4097]), "too long\n");
    assert!(day_listing(&paper_days()[4].sheet()).ends_with("\nverdict undecided job 1\n"));
}

/// The largest example has the longest sheet, and every ground.
fn test_largest_example() {
    assert_eq!(example("largest-day").len(), 1964);
    let listing = day_listing(&example("largest-day"));
    for ground in ["none", "empty", "full", "noslack", "saving", "free"] {
        assert!(listing.matches(&format!(" {ground} level ")).count() > 12, "{}", ground);
    }
    assert_eq!(day_listing(&example("refused")), "refused 5\n");
}

fn test_limits() {
    let answers: Vec<_> = limit_sheets()
        .iter()
        .map(|sheet| read_sheet(sheet).map_or_else(refusal_words, |_| "read".to_string()))
        .collect();
    let (three, five, six) = ("refused 3", "refused 5 record 0", "refused 6 record 63");
    assert_eq!(answers, ["read", three, six, "read", five, three]);
}

/// The search over every pair of slots: the search is held against it.
fn search_all_slots(table: &Table, harvest: &[u8]) -> Option<Overload> {
    let pairs = (0..table.slots).flat_map(|t1| (t1 + 1..=table.slots).map(move |t2| (t1, t2)));
    first_overload(table, harvest, pairs)
}

/// The search against every pair of slots, the round trips, and even days that are not
/// overloaded, which are always met.
fn test_random_days() {
    let mut dice = Dice { state: 7 };
    for i in 0..30000 {
        let day = [random_day, even_day, tied_day, wide_day][i % 4](&mut dice);
        let (table, harvest) = (day.table(), &day.harvest[..]);
        assert_eq!(search_overload(&table, harvest), search_all_slots(&table, harvest), "{day:?}");
        let sheet = day.sheet();
        assert_eq!(read_sheet(&sheet), Ok((table.clone(), harvest)));
        let mut buffer = vec![FILL; sheet.len() + 2];
        assert_eq!(write_sheet(&table, harvest, &mut buffer), Ok(sheet.len() as i64));
        assert_eq!(buffer, [&sheet[..], &[FILL, FILL]].concat());
        if i % 4 == 1 {
            assert!(!is_undecided(&day), "{:?}", day);
        }
    }
}

/// The run taken one slot at a time passes through the same states, and ends with the day over.
fn test_steps() {
    let mut dice = Dice { state: 17 };
    for i in 0..5000 {
        let day = [random_day, even_day, tied_day, wide_day][i % 4](&mut dice);
        let (table, harvest) = (day.table(), &day.harvest[..]);
        let mut state = begin(&table, harvest).unwrap();
        for (decision, after) in run(&table, harvest) {
            let (answer, next) = step(&table, harvest, &state);
            assert_eq!((answer, &next), (Ok(Step::Taken(decision)), &after), "{day:?}");
            state = next;
        }
        assert_eq!(step(&table, harvest, &state), (Ok(Step::Over), state), "{day:?}");
    }
}

/// The lines of a stream.
fn lines_of(stream: &[u8]) -> String {
    let mut lines = Vec::new();
    answer(&mut &stream[..], &mut lines);
    String::from_utf8(lines).unwrap()
}

/// What docs/TRIALS.md says of a line, word for word, on day 1 and on what is no request.
fn test_requests() {
    let day = &paper_days()[0];
    let (sheet, table) = (bytes_part(&day.sheet()), day_part(day));
    let state = state_part(&State { slot: 1, level: 1, ..first_state(&day.table()) });
    let bad = bytes_part(&with_number(&day.sheet(), 10, 5));
    let whole = |kind| claim_part(Claim { kind, start: 0, end: 4 });
    let (energy_claim, no_claim) = (whole(ENERGY), whole(2));
    let places = "count 2 slots 4 capacity 1 places 0,4,1,1 1,2,1,1";
    let (count, slots) = (2u64.to_le_bytes(), [4, 0]);
    let rows: Vec<(u8, Vec<&[u8]>, String)> = vec![
        (b'C', vec![&table], "check accepted".to_string()),
        (b'R', vec![&sheet], format!("read accepted {places}")),
        (
            b'R',
            vec![&bad],
            "read refused 5 record 1 count 0 slots 0 capacity 0 places none".to_string(),
        ),
        (b'H', vec![&sheet], "harvest 00000100".to_string()),
        (b'H', vec![&bad], "harvest none".to_string()),
        (b'X', vec![&sheet, &count, &slots], "stretch 00000100".to_string()),
        (b'X', vec![&bad, &count, &slots], "stretch 00000100".to_string()),
        (b'S', vec![&table], "search clear".to_string()),
        (b'B', vec![&table], "begin accepted slot 0 level 1 left 1,1".to_string()),
        (b'N', vec![&table, &state], "step busy 1 noslack slot 2 level 0 left 1".to_string()),
        (b'P', vec![&sheet, &[4, 0, 0, 0, 9, 9, 9, 9]], "plan met buffer ff0100ff".to_string()),
        (b'Q', vec![&table, &[1, 0, 0, 0, 9]], "plan refused 7 buffer 09".to_string()),
        (b'J', vec![&sheet, &[0; 4]], "judge refused 11".to_string()),
        (b'I', vec![&sheet, &energy_claim], "claim refused 18 demand 2 supply 2".to_string()),
        (b'L', vec![&table, &no_claim], "claim refused 17".to_string()),
        (b'D', vec![&sheet], DAY_1_LISTING.trim_end().to_string()),
        (b'D', vec![&bad], "refused 5".to_string()),
        (b'W', vec![&table, &[0; 4]], "write refused 8 buffer none".to_string()),
        (b'Z', vec![&sheet], "unknown".to_string()),
        (b'R', vec![&sheet, &[0]], "malformed".to_string()),
        (b'R', vec![&sheet[1..]], "malformed".to_string()),
        (b'R', vec![], "malformed".to_string()),
    ];
    let mut stream = Vec::new();
    let mut lines = String::new();
    for (kind, parts, line) in rows {
        stream.extend(Request::new(kind, &parts).bytes());
        lines += &line;
        lines += "\n";
        assert_eq!(lines_of(&stream), lines);
    }
    // cut off anywhere in the next one, and at its end not
    let next = Request::new(b'H', &[&sheet]).bytes();
    for there in 1..next.len() {
        assert_eq!(lines_of(&next[..there]), "cut off\n");
    }
    assert_eq!(lines_of(&next), "harvest 00000100\n");
    assert_eq!(lines_of(&[]), "");
    // the longest payload, one byte more, and one that ends too soon
    let long = |length: u32| {
        let payload = [&(length - 4).to_le_bytes()[..], &vec![0; length as usize - 4]].concat();
        [&Request::new(b'H', &[&payload]).bytes()[..], &next].concat()
    };
    assert_eq!(lines_of(&long(MOST_PAYLOAD)), "harvest none\nharvest 00000100\n");
    assert_eq!(lines_of(&long(MOST_PAYLOAD + 1)), "too long\nharvest 00000100\n");
    assert_eq!(lines_of(&long(MOST_PAYLOAD + 1)[..300]), "cut off\n");
}

/// Request n of a seed does not hang on the others, every kind occurs, and the fixed set keeps to
/// its size.
fn test_made_requests() {
    let mut kinds = Vec::new();
    for number in 0..2000 {
        let bytes = request_bytes(4, number, 2000);
        assert!(bytes == request_bytes(4, number, 5000), "request {}", number);
        kinds.push(bytes[0]);
    }
    for kind in KINDS {
        assert!(kinds.iter().filter(|other| *other == kind).count() > 20, "kind {}", kind);
    }
    let fixed = fixed_requests();
    assert!(fixed.len() <= 500_000 && lines_of(&fixed).len() <= 900_000);
    assert!(lines_of(&fixed).ends_with("\ncut off\n"));
}

/// What was made by hand gets what it was made for, on the sheet and on the table.
fn test_evidence_by_hand() {
    for JudgedPlans { day, plans } in plans_by_hand() {
        for (plan, words) in plans {
            let line = format!("judge {words}");
            let on_sheet = judge_plan_sheet(&day.sheet(), &plan);
            let on_table = judge_plan_table(&day.table(), &day.harvest, &plan);
            assert_eq!(judge_line(on_sheet), line, "{day:?} {plan:?}");
            assert_eq!(judge_line(on_table), line, "{day:?} {plan:?}");
        }
    }
    for JudgedClaims { day, claims } in claims_by_hand() {
        for (claim, words) in claims {
            let line = format!("claim {words}");
            let on_sheet = judge_claim_sheet(&day.sheet(), claim);
            let on_table = judge_claim_table(&day.table(), &day.harvest, claim);
            assert_eq!(claim_line(on_sheet), line, "{day:?} {claim:?}");
            assert_eq!(claim_line(on_table), line, "{day:?} {claim:?}");
        }
    }
}

/// On random days: the plan of the run is accepted exactly when the answer is met, and is else
/// refused 16; the searched interval is accepted with its demand and supply; no day has both an
/// accepted plan and an overloaded interval; on even days one of the two holds.
fn test_random_evidence() {
    let mut dice = Dice { state: 11 };
    for i in 0..20000 {
        let day = [random_day, even_day, tied_day, wide_day][i % 4](&mut dice);
        let plan = run_plan(&day);
        let judged = judge_plan_sheet(&day.sheet(), &plan);
        let accepted = judged == Ok(());
        assert_eq!(accepted, day.answer() == Answer::Met, "{day:?}");
        assert!(accepted || judged.unwrap_err().number == 16, "{:?}", day);
        if let Answer::Overloaded(overload) = day.answer() {
            let Overload { kind, start, end, demand, supply } = overload;
            let number = if kind == Kind::Time { TIME } else { ENERGY };
            let claim = Claim { kind: number, start: start as u64, end: end as u64 };
            let weighed = Weighed { accepted: true, kind, start, end, demand, supply };
            assert_eq!(judge_claim_sheet(&day.sheet(), claim), Ok(weighed), "{day:?}");
        }
        let overloaded = has_overload(&day, Kind::Time) || has_overload(&day, Kind::Energy);
        assert!(!(accepted && overloaded), "{:?}", day);
        if i % 4 == 1 {
            assert!(accepted || overloaded, "{:?}", day);
        }
    }
}

/// Up to 4 slots and 2 jobs.
fn tiny_day(dice: &mut Dice) -> Day {
    let slots = dice.between(1, 4);
    let mut day = Day {
        jobs: Vec::new(),
        capacity: dice.between(0, 4),
        harvest: (0..slots).map(|_| dice.between(0, 2) as u8).collect(),
    };
    for _ in 0..dice.between(0, 2) {
        let release = dice.below(slots);
        let deadline = dice.between(release + 1, slots);
        let wanted = dice.between(1, deadline - release);
        day.jobs.push(Job { release, deadline, wanted, energy: dice.between(1, 4) });
    }
    day
}

/// What `evidence` says of sheets that are refused, with good evidence and with bad; and numbers
/// as they are typed.
fn test_evidence_program() {
    let good = paper_days()[0].sheet();
    let lines = [
        (good[..11].to_vec(), "refused 1: the sheet is under 12 bytes"),
        (with_number(&good, -2, 0), "refused 2: the sheet does not end in 45 48 (hex)"),
        (
            with_number(&good, SLOTS, 1441),
            "refused 3: the sheet has more than 64 jobs, or slots 0 or above 1440",
        ),
        (
            with_number(&good, TO_JOBS, 19),
            "refused 4: the sheet's back distances or its length do not fit its jobs and slots",
        ),
        (
            with_number(&good, 8, 2),
            "refused 5 at record 1: its release is not below its deadline, \
             or its deadline is above slots",
        ),
        (
            with_byte(&good, 7, 1),
            "refused 6 at record 0: it wants 0 slots or above 1440, its energy is 0, \
             or its last byte is not zero",
        ),
    ];
    for (sheet, line) in lines {
        assert_eq!(plan_evidence(&sheet, &DAY_9_ACCEPTED), line);
        assert_eq!(plan_evidence(&sheet, &[]), line);
        assert_eq!(claim_evidence(&sheet, Claim { kind: 1, start: 0, end: 4 }), line);
        assert_eq!(claim_evidence(&sheet, Claim { kind: 2, start: 4, end: 0 }), line);
    }
    assert_eq!(decimal("007"), Some(7));
    assert_eq!(decimal("18446744073709551614"), Some(u64::MAX - 1));
    for large in ["18446744073709551615", "18446744073709551616", "184467440737095516150"] {
        assert_eq!(decimal(large), Some(u64::MAX));
    }
    for word in ["", " ", "-1", "+1", "1 ", "x", "0x1", "1.0"] {
        assert_eq!(decimal(word), None);
    }
}

/// Demand 3 by itself, of a plan that has a byte for each slot: every job gets its slots inside
/// its window, no more and no fewer, every slot is idle or names a job, and no busy slot lacks
/// charge, the reservoir starting full.
fn is_acceptable(day: &Day, plan: &[u8]) -> bool {
    let times = |bytes: &[u8], number: usize| {
        bytes.iter().filter(|byte| **byte as usize == number).count() as i64
    };
    let every_job_gets_its_slots = day.jobs.iter().enumerate().all(|(number, job)| {
        let window = &plan[job.release as usize..job.deadline as usize];
        times(window, number) == job.wanted && times(plan, number) == job.wanted
    });
    let every_slot_is_idle_or_names_a_job =
        plan.iter().all(|byte| *byte == 255 || (*byte as usize) < day.jobs.len());
    every_job_gets_its_slots
        && every_slot_is_idle_or_names_a_job
        && (0..plan.len()).all(|slot| {
            charge_before(day, plan, slot) + day.harvest[slot] as i64 >= cost(day, plan[slot])
        })
}

/// What a plan byte spends; idle spends nothing.
fn cost(day: &Day, byte: u8) -> i64 {
    if byte == 255 { 0 } else { day.jobs[byte as usize].energy }
}

/// The charge before a slot, from the slots before it.
fn charge_before(day: &Day, plan: &[u8], slot: usize) -> i64 {
    if slot == 0 {
        return day.capacity;
    }
    let before = slot - 1;
    let charge = charge_before(day, plan, before) + day.harvest[before] as i64;
    (charge - cost(day, plan[before])).min(day.capacity)
}

/// On tiny days, every plan over 0, 1 and idle: accepted exactly when acceptable, and never
/// beside an overloaded interval.
fn test_tiny_days() {
    let mut dice = Dice { state: 13 };
    for _ in 0..5000 {
        let day = tiny_day(&mut dice);
        let overloaded = has_overload(&day, Kind::Time) || has_overload(&day, Kind::Energy);
        for plan in all_plans(day.slots(), &[0, 1, 255]) {
            let accepted = is_accepted(&day, &plan);
            assert_eq!(accepted, is_acceptable(&day, &plan), "{day:?} {plan:?}");
            assert!(!(accepted && overloaded), "{:?} {:?}", day, plan);
        }
    }
}

pub fn self_test() {
    test_paper_days();
    test_paper_evidence();
    test_day_program();
    test_largest_example();
    test_limits();
    test_random_days();
    test_steps();
    test_requests();
    test_made_requests();
    test_evidence_by_hand();
    test_evidence_program();
    test_random_evidence();
    test_tiny_days();
}
