//! Evidence: plans and claims made by hand with what the judge says of each, and plans and claims
//! beside those of the run.

use crate::days::*;
use crate::paper::*;

/// A day, and plans for it with what the judge says of each.
pub struct JudgedPlans {
    pub day: Day,
    pub plans: Vec<(Vec<u8>, String)>,
}

pub fn judged_plans(day: Day, plans: &[(&[u8], &str)]) -> JudgedPlans {
    let owned = |plan: &(&[u8], &str)| (plan.0.to_vec(), plan.1.to_string());
    JudgedPlans { day, plans: plans.iter().map(owned).collect() }
}

/// The day's windows, slots wanted and slots lacking: 12, 13, 14, 16 and which comes first.
pub fn window_plans() -> Vec<JudgedPlans> {
    vec![
        // both sides of a window, one slot too many, one too few
        judged_plans(
            Day::new(9, &[0; 5], &[(1, 4, 2, 1)]),
            &[
                (&[255, 0, 255, 0, 255], "accepted"),
                (&[255, 255, 0, 0, 255], "accepted"),
                (&[0, 0, 255, 255, 255], "refused 13 slot 0"),
                (&[255, 0, 255, 255, 0], "refused 13 slot 4"),
                (&[255, 0, 0, 0, 255], "refused 14 slot 3"),
                (&[255, 0, 0, 255, 0], "refused 13 slot 4"),
                (&[255, 0, 255, 255, 255], "refused 16 job 0"),
                (&[255, 255, 255, 255, 255], "refused 16 job 0"),
            ],
        ),
        // a window that is the whole day
        judged_plans(
            Day::new(1, &[0; 3], &[(0, 3, 1, 1)]),
            &[
                (&[0, 255, 255], "accepted"),
                (&[255, 255, 0], "accepted"),
                (&[0, 255, 0], "refused 14 slot 2"),
            ],
        ),
        // the lowest job that lacks slots, whatever its deadline; deadlines in any order are fine
        judged_plans(
            Day::new(9, &[0; 6], &[(0, 6, 2, 1), (0, 3, 1, 1), (0, 6, 1, 1)]),
            &[
                (&[1, 0, 0, 2, 255, 255], "accepted"),
                (&[0, 2, 1, 255, 255, 0], "accepted"),
                (&[1, 0, 255, 2, 255, 255], "refused 16 job 0"),
                (&[0, 0, 255, 2, 255, 255], "refused 16 job 1"),
                (&[1, 0, 0, 255, 255, 255], "refused 16 job 2"),
                (&[255, 0, 0, 255, 255, 255], "refused 16 job 1"),
                (&[0, 255, 255, 255, 255, 2], "refused 16 job 0"),
                (&[2, 0, 255, 0, 255, 1], "refused 13 slot 5"),
                (&[2, 0, 1, 0, 0, 255], "refused 14 slot 4"),
            ],
        ),
        // two jobs that are alike keep their numbers
        judged_plans(
            Day::new(2, &[0; 2], &[(0, 2, 1, 1), (0, 2, 1, 1)]),
            &[
                (&[0, 1], "accepted"),
                (&[1, 0], "accepted"),
                (&[0, 0], "refused 14 slot 1"),
                (&[1, 255], "refused 16 job 0"),
                (&[255, 0], "refused 16 job 1"),
            ],
        ),
        // more slots wanted than the window has, or the day
        judged_plans(
            Day::new(9, &[0; 3], &[(0, 2, 3, 1)]),
            &[(&[0, 0, 255], "refused 16 job 0"), (&[0, 0, 0], "refused 13 slot 2")],
        ),
        judged_plans(
            Day::new(9, &[0; 2], &[(0, 2, 1440, 1)]),
            &[(&[0, 0], "refused 16 job 0"), (&[255, 255], "refused 16 job 0")],
        ),
        // no jobs
        judged_plans(
            Day::new(3, &[0, 9], &[]),
            &[
                (&[255, 255], "accepted"),
                (&[255, 0], "refused 12 slot 1"),
                (&[254, 0], "refused 12 slot 0"),
                (&[255], "refused 11"),
                (&[255, 255, 255], "refused 11"),
                (&[], "refused 11"),
            ],
        ),
        // charge for all: 13 before 14 in one slot
        judged_plans(
            Day::new(9, &[0; 4], &[(0, 2, 1, 1), (1, 4, 1, 1)]),
            &[
                (&[0, 1, 255, 255], "accepted"),
                (&[0, 255, 0, 255], "refused 13 slot 2"),
                (&[0, 0, 255, 255], "refused 14 slot 1"),
                (&[1, 0, 255, 255], "refused 13 slot 0"),
            ],
        ),
        // charge for one: 13 before 14 before 15 in one slot, and an earlier slot before a later
        judged_plans(
            Day::new(1, &[0; 4], &[(0, 2, 1, 1), (1, 4, 1, 1)]),
            &[
                (&[0, 1, 255, 255], "refused 15 slot 1"),
                (&[0, 0, 255, 255], "refused 14 slot 1"),
                (&[0, 255, 0, 255], "refused 13 slot 2"),
                (&[255, 1, 0, 255], "refused 13 slot 2"),
                (&[0, 2, 255, 255], "refused 12 slot 1"),
                (&[0, 1, 2, 255], "refused 15 slot 1"),
                (&[0, 1, 0, 2], "refused 15 slot 1"),
                (&[0, 0, 2, 0], "refused 14 slot 1"),
                (&[0, 255, 0, 2], "refused 13 slot 2"),
                (&[0, 255, 2, 0], "refused 12 slot 2"),
                (&[255, 255, 255, 2], "refused 12 slot 3"),
                (&[255, 255, 255, 1], "refused 16 job 0"),
                (&[0, 255, 255, 255], "refused 16 job 1"),
                (&[0, 2, 0], "refused 11"),
                (&[2, 2, 2, 2, 2], "refused 11"),
                (&[], "refused 11"),
            ],
        ),
    ]
}

/// The level: 15 by one, what a full reservoir spills, and the ends of the ranges.
pub fn level_plans() -> Vec<JudgedPlans> {
    let accepted = |day: Day, plan: &[u8]| judged_plans(day, &[(plan, "accepted")]);
    let empty = |day: Day, plan: &[u8], slot: i64| {
        judged_plans(day, &[(plan, &format!("refused 15 slot {slot}"))])
    };
    vec![
        // spent to exactly empty, and a later slot's harvest used as it comes in
        accepted(Day::new(3, &[0, 0, 0, 1], &[(0, 4, 1, 3), (1, 4, 1, 1)]), &[0, 255, 255, 1]),
        empty(Day::new(3, &[0, 0, 0, 1], &[(0, 4, 1, 3), (1, 4, 1, 1)]), &[0, 255, 1, 255], 2),
        empty(Day::new(3, &[0, 0, 0, 1], &[(0, 4, 1, 3), (1, 4, 1, 2)]), &[0, 255, 255, 1], 3),
        // one left: enough for 1 and not for 2
        accepted(Day::new(3, &[0, 0], &[(0, 1, 1, 2), (1, 2, 1, 1)]), &[0, 1]),
        empty(Day::new(3, &[0, 0], &[(0, 1, 1, 2), (1, 2, 1, 2)]), &[0, 1], 1),
        // one short of full, exactly full and spilling after a busy slot
        accepted(Day::new(3, &[0, 0], &[(0, 1, 1, 1), (1, 2, 1, 2)]), &[0, 1]),
        empty(Day::new(3, &[0, 0], &[(0, 1, 1, 1), (1, 2, 1, 3)]), &[0, 1], 1),
        accepted(Day::new(3, &[1, 0], &[(0, 1, 1, 1), (1, 2, 1, 3)]), &[0, 1]),
        empty(Day::new(3, &[1, 0], &[(0, 1, 1, 1), (1, 2, 1, 4)]), &[0, 1], 1),
        accepted(Day::new(3, &[2, 0], &[(0, 1, 1, 1), (1, 2, 1, 3)]), &[0, 1]),
        empty(Day::new(3, &[2, 0], &[(0, 1, 1, 1), (1, 2, 1, 4)]), &[0, 1], 1),
        empty(Day::new(2, &[5, 0], &[(0, 1, 1, 1), (1, 2, 1, 3)]), &[0, 1], 1),
        // a slot's own harvest is spent before the rest is cut at capacity
        accepted(Day::new(3, &[1], &[(0, 1, 1, 4)]), &[0]),
        empty(Day::new(3, &[1], &[(0, 1, 1, 5)]), &[0], 0),
        accepted(Day::new(2, &[5, 0], &[(0, 2, 1, 3)]), &[0, 255]),
        // what an idle slot spills is gone
        empty(Day::new(2, &[5, 0], &[(0, 2, 1, 3)]), &[255, 0], 1),
        accepted(Day::new(2, &[5, 0], &[(0, 2, 1, 2)]), &[255, 0]),
        empty(Day::new(2, &[5, 0, 0], &[(0, 3, 1, 3)]), &[255, 255, 0], 2),
        accepted(Day::new(4, &[3, 0, 1, 0], &[(0, 4, 2, 3)]), &[0, 0, 255, 255]),
        empty(Day::new(4, &[3, 0, 1, 0], &[(0, 4, 2, 3)]), &[255, 0, 0, 255], 2),
        // the reservoir starts full and fills again from one short
        accepted(Day::new(4, &[0, 3, 0, 0], &[(0, 1, 1, 3), (3, 4, 1, 4)]), &[0, 255, 255, 1]),
        empty(Day::new(4, &[0, 2, 0, 0], &[(0, 1, 1, 3), (3, 4, 1, 4)]), &[0, 255, 255, 1], 3),
        accepted(Day::new(4, &[0, 4, 0, 0], &[(0, 1, 1, 3), (3, 4, 1, 4)]), &[0, 255, 255, 1]),
        empty(Day::new(4, &[0, 4, 0, 0], &[(0, 1, 1, 3), (3, 4, 1, 5)]), &[0, 255, 255, 1], 3),
        // no reservoir
        accepted(Day::new(0, &[2, 2], &[(0, 2, 1, 2)]), &[255, 0]),
        empty(Day::new(0, &[2, 2], &[(0, 2, 1, 3)]), &[255, 0], 1),
        empty(Day::new(0, &[2, 0], &[(0, 2, 2, 1)]), &[0, 0], 1),
        // the largest energy
        accepted(Day::new(255, &[0], &[(0, 1, 1, 255)]), &[0]),
        empty(Day::new(254, &[0], &[(0, 1, 1, 255)]), &[0], 0),
        accepted(Day::new(254, &[1], &[(0, 1, 1, 255)]), &[0]),
        accepted(Day::new(0, &[255], &[(0, 1, 1, 255)]), &[0]),
        empty(Day::new(0, &[254], &[(0, 1, 1, 255)]), &[0], 0),
        accepted(Day::new(256, &[0, 0], &[(0, 1, 1, 255), (1, 2, 1, 1)]), &[0, 1]),
        empty(Day::new(256, &[0, 0], &[(0, 1, 1, 255), (1, 2, 1, 2)]), &[0, 1], 1),
        // level plus harvest above 65,535, busy and idle
        accepted(Day::new(65535, &[255, 255], &[(0, 2, 2, 255)]), &[0, 0]),
        accepted(Day::new(65535, &[255, 0], &[(1, 2, 1, 255)]), &[255, 0]),
        accepted(Day::new(65535, &[1, 0], &[(0, 2, 1, 1)]), &[0, 255]),
        accepted(Day::new(65535, &[1, 0], &[(0, 2, 1, 1)]), &[255, 0]),
    ]
}

/// Plans that need more bytes: counts and slots above 255, and all 64 jobs.
pub fn longer_plans() -> Vec<JudgedPlans> {
    // 257 slots wanted of a window of 258 in a day of 260
    let long = Day::new(300, &[1; 260], &[(0, 258, 257, 1)]);
    let times = |from: usize, to: usize| {
        let mut plan = vec![IDLE_BYTE; 260];
        for slot in from..to {
            plan[slot] = 0;
        }
        plan
    };
    // job n in slot n, and every slot taken
    let jobs: Vec<_> = (0..64).map(|number| (number, number + 1, 1, 1)).collect();
    let all = Day::new(64, &[0; 64], &jobs);
    let whole: Vec<u8> = (0..64).collect();
    vec![
        judged_plans(
            long,
            &[
                (&times(1, 258), "accepted"),
                (&times(0, 1), "refused 16 job 0"),
                (&times(0, 258), "refused 14 slot 257"),
                (&times(2, 259), "refused 13 slot 258"),
            ],
        ),
        judged_plans(
            all,
            &[
                (&whole, "accepted"),
                (&with_byte(&whole, 63, IDLE_BYTE), "refused 16 job 63"),
                (&with_byte(&whole, 63, 64), "refused 12 slot 63"),
                (&with_byte(&whole, 62, 63), "refused 13 slot 62"),
            ],
        ),
    ]
}

/// Every plan made by hand.
pub fn plans_by_hand() -> Vec<JudgedPlans> {
    let mut all = window_plans();
    all.extend(level_plans());
    all.extend(longer_plans());
    all
}

pub const TIME: u64 = 0;
pub const ENERGY: u64 = 1;

/// A day, and claims on it with what the judge says of each.
pub struct JudgedClaims {
    pub day: Day,
    pub claims: Vec<(Claim, String)>,
}

pub fn judged_claims(day: Day, claims: &[(u64, u64, u64, &str)]) -> JudgedClaims {
    let owned = |&(kind, start, end, words): &(u64, u64, u64, &str)| {
        (Claim { kind, start, end }, words.to_string())
    };
    JudgedClaims { day, claims: claims.iter().map(owned).collect() }
}

pub fn claims_by_hand() -> Vec<JudgedClaims> {
    vec![
        // day 11, and the same day without its harvest
        judged_claims(
            paper_days()[0].clone(),
            &[(ENERGY, 0, 4, "refused 18 demand 2 supply 2")],
        ),
        judged_claims(
            paper_days()[1].clone(),
            &[
                (ENERGY, 0, 4, "accepted demand 2 supply 1"),
                (TIME, 0, 4, "refused 18 demand 2 supply 4"),
            ],
        ),
        // a job partly inside is not of the interval
        judged_claims(
            Day::new(1, &[0; 6], &[(1, 4, 3, 2), (2, 5, 2, 1)]),
            &[
                (TIME, 1, 4, "refused 18 demand 3 supply 3"),
                (TIME, 1, 5, "accepted demand 5 supply 4"),
                (TIME, 0, 5, "refused 18 demand 5 supply 5"),
                (TIME, 1, 6, "refused 18 demand 5 supply 5"),
                (TIME, 2, 4, "refused 18 demand 0 supply 2"),
                (TIME, 1, 3, "refused 18 demand 0 supply 2"),
                (TIME, 2, 5, "refused 18 demand 2 supply 3"),
                (ENERGY, 1, 4, "accepted demand 6 supply 1"),
                (ENERGY, 2, 4, "refused 18 demand 0 supply 1"),
                (ENERGY, 1, 3, "refused 18 demand 0 supply 1"),
                (ENERGY, 2, 5, "accepted demand 2 supply 1"),
            ],
        ),
        // a late start counts the whole capacity, and of the harvest only what lies inside
        judged_claims(
            Day::new(1, &[9, 0, 0, 9], &[(1, 3, 1, 2)]),
            &[
                (ENERGY, 1, 3, "accepted demand 2 supply 1"),
                (ENERGY, 0, 3, "refused 18 demand 2 supply 10"),
                (ENERGY, 1, 4, "refused 18 demand 2 supply 10"),
                (ENERGY, 0, 4, "refused 18 demand 2 supply 19"),
                (TIME, 1, 3, "refused 18 demand 1 supply 2"),
            ],
        ),
        judged_claims(
            Day::new(2, &[0; 6], &[(0, 2, 1, 1), (3, 6, 1, 3)]),
            &[
                (ENERGY, 3, 6, "accepted demand 3 supply 2"),
                (ENERGY, 4, 6, "refused 18 demand 0 supply 2"),
                (ENERGY, 0, 6, "accepted demand 4 supply 2"),
            ],
        ),
        // no jobs, and nothing to supply
        judged_claims(
            paper_days()[6].clone(),
            &[
                (TIME, 0, 1, "refused 18 demand 0 supply 1"),
                (ENERGY, 0, 1, "refused 18 demand 0 supply 0"),
            ],
        ),
        // one job's largest demands
        judged_claims(
            Day::new(65535, &[255; 2], &[(0, 2, 1440, 255)]),
            &[
                (TIME, 0, 2, "accepted demand 1440 supply 2"),
                (ENERGY, 0, 2, "accepted demand 367200 supply 66045"),
                (ENERGY, 0, 1, "refused 18 demand 0 supply 65790"),
            ],
        ),
        // demand above 65,535, which in 16 bits would be small
        judged_claims(
            Day::new(300, &[0; 2], &[(0, 2, 258, 255)]),
            &[(ENERGY, 0, 2, "accepted demand 65790 supply 300")],
        ),
        // supply above 65,535: 65,790 against 65,790, one more and one less
        judged_claims(
            Day::new(65535, &[255, 0], &[(0, 2, 258, 255)]),
            &[(ENERGY, 0, 2, "refused 18 demand 65790 supply 65790")],
        ),
        judged_claims(
            Day::new(65535, &[255, 0], &[(0, 2, 258, 255), (0, 1, 1, 1)]),
            &[(ENERGY, 0, 2, "accepted demand 65791 supply 65790")],
        ),
        judged_claims(
            Day::new(65535, &[255, 1], &[(0, 2, 258, 255)]),
            &[(ENERGY, 0, 2, "refused 18 demand 65790 supply 65791")],
        ),
        // the largest demands there are: 64 jobs
        judged_claims(
            Day::new(65535, &[0], &[(0, 1, 1440, 255); 64]),
            &[
                (TIME, 0, 1, "accepted demand 92160 supply 1"),
                (ENERGY, 0, 1, "accepted demand 23500800 supply 65535"),
            ],
        ),
        // the largest supply there is, equal to its demand
        judged_claims(
            Day::new(65535, &[255; 1440], &[(0, 1440, 1440, 255), (0, 1440, 257, 255)]),
            &[(ENERGY, 0, 1440, "refused 18 demand 432735 supply 432735")],
        ),
    ]
}

/// Kinds, starts and ends for a day of so many slots that are none, or that would be another's
/// if a number were cut to 8, 16 or 32 bits.
pub fn odd_claims(slots: u64) -> Vec<Claim> {
    let mut claims = Vec::new();
    let top = u64::MAX;
    let cuts: [u64; 4] = [1 << 8, 1 << 16, 1 << 32, 1 << 63];
    for kind in [0, 1, 2, 3, 255, top, top - 1] {
        claims.push(Claim { kind, start: 0, end: slots });
    }
    for cut in cuts {
        for kind in [cut, cut + 1] {
            claims.push(Claim { kind, start: 0, end: slots });
        }
    }
    for kind in [TIME, ENERGY] {
        let mut add = |start: u64, end: u64| claims.push(Claim { kind, start, end });
        // start equal to end, start above end, end slots and slots + 1
        add(0, 0);
        add(1, 1);
        add(slots, slots);
        add(1, 0);
        add(slots, 0);
        add(slots - 1, slots);
        add(slots - 1, slots + 1);
        add(0, slots + 1);
        add(slots, slots + 1);
        add(slots + 1, slots + 1);
        add(slots + 1, slots);
        add(slots + 1, slots + 2);
        // numbers that would fit if they were cut
        for cut in cuts {
            add(0, cut);
            add(0, cut + slots);
            add(cut, slots);
            add(cut, cut + slots);
        }
        add(0, top);
        add(top, slots);
        add(top, top);
        add(top, 0);
        add(top - 1, top);
    }
    // nothing of it is right
    claims.push(Claim { kind: top, start: top, end: top });
    claims.push(Claim { kind: 2, start: slots, end: 0 });
    claims
}

/// Every interval of the day in both kinds.
pub fn all_claims(day: &Day) -> Vec<Claim> {
    let mut claims = Vec::new();
    for start in 0..day.slots() as u64 {
        for end in start + 1..=day.slots() as u64 {
            claims.push(Claim { kind: TIME, start, end });
            claims.push(Claim { kind: ENERGY, start, end });
        }
    }
    claims
}

/// Of a day's intervals in each kind, the first and the last with demand one below supply,
/// equal to it, one above and above at all, where there is demand; and the searched interval in
/// both kinds.
pub fn claims_at_edge(day: &Day) -> Vec<Claim> {
    let table = day.table();
    let mut claims = Vec::new();
    for kind in [TIME, ENERGY] {
        let mut add_ends = |fits: &dyn Fn(Weighed) -> bool| {
            let mut fitting = all_claims(day);
            fitting.retain(|claim| {
                let weighed = judge_claim_table(&table, &day.harvest, *claim).unwrap();
                claim.kind == kind && weighed.demand > 0 && fits(weighed)
            });
            claims.extend(fitting.first());
            claims.extend(fitting.last());
        };
        for above in [-1, 0, 1] {
            add_ends(&|weighed| weighed.demand - weighed.supply == above);
        }
        add_ends(&|weighed| weighed.accepted);
    }
    if let Some(overload) = search_overload(&table, &day.harvest) {
        let (start, end) = (overload.start as u64, overload.end as u64);
        claims.push(Claim { kind: TIME, start, end });
        claims.push(Claim { kind: ENERGY, start, end });
    }
    claims
}
/// The plan with one byte changed, slot by slot: to each other job's number and idle.
pub fn changed_plans(day: &Day, plan: &[u8]) -> Vec<Vec<u8>> {
    let mut plans = Vec::new();
    for slot in 0..plan.len() {
        for byte in (0..day.jobs.len() as u8).chain([IDLE_BYTE]) {
            if byte != plan[slot] {
                plans.push(with_byte(plan, slot, byte));
            }
        }
    }
    plans
}

/// The plan with one byte that is no job's number, slot by slot: the job count, 64 and 254.
pub fn plans_with_no_job(day: &Day, plan: &[u8]) -> Vec<Vec<u8>> {
    let mut plans = Vec::new();
    for slot in 0..plan.len() {
        for byte in [day.jobs.len() as u8, 64, 254] {
            plans.push(with_byte(plan, slot, byte));
        }
    }
    plans
}

/// Idle throughout; too short by one, too long by one with idle or a job, and empty.
pub fn idle_and_odd_lengths(plan: &[u8]) -> Vec<Vec<u8>> {
    vec![
        vec![IDLE_BYTE; plan.len()],
        plan[..plan.len() - 1].to_vec(),
        [plan, &[IDLE_BYTE][..]].concat(),
        [plan, &[0][..]].concat(),
        vec![],
    ]
}

/// The plan with two neighbours changed about: much of it is another planner's plan.
pub fn swapped_plans(plan: &[u8]) -> Vec<Vec<u8>> {
    let mut plans = Vec::new();
    for slot in 1..plan.len() {
        let mut plan = plan.to_vec();
        plan.swap(slot - 1, slot);
        plans.push(plan);
    }
    plans
}

/// Every plan of so many slots over these bytes; for few slots.
pub fn all_plans(slots: i64, bytes: &[u8]) -> Vec<Vec<u8>> {
    let mut plans: Vec<Vec<u8>> = vec![vec![]];
    for _ in 0..slots {
        let mut longer = Vec::new();
        for plan in plans {
            for byte in bytes {
                longer.push([&plan[..], &[*byte][..]].concat());
            }
        }
        plans = longer;
    }
    plans
}

pub fn is_accepted(day: &Day, plan: &[u8]) -> bool {
    judge_plan_table(&day.table(), &day.harvest, plan) == Ok(())
}

/// Some interval of the day is overloaded in that kind.
pub fn has_overload(day: &Day, kind: Kind) -> bool {
    all_claims(day).into_iter().any(|claim| {
        let weighed = judge_claim_table(&day.table(), &day.harvest, claim).unwrap();
        weighed.kind == kind && weighed.accepted
    })
}

/// The i-th of a run of small days in which every sort and answer has its turn.
pub fn small_day_in_turn(dice: &mut Dice, i: usize) -> Day {
    let small = |day: &Day| day.slots() <= 5 && day.jobs.len() >= 1 && day.jobs.len() <= 3;
    let time = |day: &Day| has_overload(day, Kind::Time);
    let energy = |day: &Day| has_overload(day, Kind::Energy);
    let met = |day: &Day| day.jobs.len() > 1 && day.answer() == Answer::Met;
    match i % 10 {
        0 => day_with(dice, random_day, |day| small(day) && met(day)),
        1 => day_with(dice, even_day, |day| small(day) && met(day)),
        2 => day_with(dice, tied_day, |day| small(day) && met(day)),
        3 => day_with(dice, random_day, |day| small(day) && shows(day, "saving")),
        4 => day_with(dice, random_day, |day| small(day) && is_undecided(day)),
        5 => day_with(dice, random_day, |day| small(day) && time(day) && !energy(day)),
        6 => day_with(dice, even_day, |day| small(day) && energy(day) && !time(day)),
        7 => day_with(dice, random_day, |day| small(day) && energy(day) && time(day)),
        8 => day_with(dice, wide_day, |day| small(day) && met(day)),
        _ => day_with(dice, random_day, |day| small(day) && met(day) && shows(day, "full")),
    }
}

/// A small day that the run leaves undecided although there is a plan, with such a plan.
pub fn undecided_with_plan(dice: &mut Dice) -> (Day, Vec<u8>) {
    loop {
        let day = small_day_in_turn(dice, 4);
        let bytes: Vec<u8> = (0..day.jobs.len() as u8).chain([IDLE_BYTE]).collect();
        let mut plans = all_plans(day.slots(), &bytes).into_iter();
        if let Some(plan) = plans.find(|plan| is_accepted(&day, plan)) {
            return (day, plan);
        }
    }
}
