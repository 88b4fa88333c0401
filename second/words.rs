//! The words of answers, refusals, tables and states, and the listing of `day`.

use crate::paper::*;
use crate::slips::{slip, Slip};
use std::fmt::Write;

pub const LONGEST_INPUT: usize = 4096;

pub fn refusal_words(refusal: Refusal) -> String {
    let number = refusal.number;
    match refusal.named {
        Named::Nothing => format!("refused {number}"),
        Named::Record(record) => format!("refused {number} record {record}"),
        Named::Slot(slot) => format!("refused {number} slot {slot}"),
        Named::Job(job) => format!("refused {number} job {job}"),
    }
}

pub fn kind_word(kind: Kind) -> &'static str {
    match kind {
        Kind::Time => "time",
        Kind::Energy => "energy",
    }
}

pub fn overload_words(overload: Overload) -> String {
    let Overload { kind, start, end, demand, supply } = overload;
    format!("{} {start} {end} demand {demand} supply {supply}", kind_word(kind))
}

/// The planner's answer after a met, undecided or overloaded day.
pub fn answer_words(answer: Answer) -> String {
    match answer {
        Answer::Overloaded(overload) => overload_words(overload),
        Answer::Met => "met".to_string(),
        Answer::Undecided(number) => format!("undecided job {number}"),
    }
}

pub fn ground_word(decision: Decision) -> &'static str {
    match decision {
        Decision::Idle(IdleWhy::None) => "none",
        Decision::Idle(IdleWhy::Empty) => "empty",
        Decision::Idle(IdleWhy::Saving) => "saving",
        Decision::Busy(_, BusyWhy::Full) => "full",
        Decision::Busy(_, BusyWhy::NoSlack) => "noslack",
        Decision::Busy(_, BusyWhy::Free) => "free",
    }
}

/// Two lower-case digits a byte; `none` where there is no byte.
pub fn hex(bytes: &[u8]) -> String {
    if bytes.is_empty() {
        return "none".to_string();
    }
    const DIGITS: &[u8; 16] = b"0123456789abcdef";
    let mut words = String::with_capacity(2 * bytes.len());
    for byte in bytes {
        words.push(DIGITS[*byte as usize / 16] as char);
        words.push(DIGITS[*byte as usize % 16] as char);
    }
    words
}

/// Count, slots, capacity, and every place up to the last that is not all zeros.
pub fn table_words(table: &Table) -> String {
    let Table { count, slots, capacity, places } = table;
    let mut words = format!("count {count} slots {slots} capacity {capacity} places");
    match places.iter().rposition(|job| *job != ZERO_JOB) {
        None => words += " none",
        Some(last) => {
            for Job { release, deadline, wanted, energy } in &places[..=last] {
                write!(words, " {release},{deadline},{wanted},{energy}").unwrap();
            }
        }
    }
    words
}

/// Slot, level, and what every place has left up to the last that is not 0.
pub fn state_words(state: &State) -> String {
    let mut words = format!("slot {} level {} left ", state.slot, state.level);
    match state.left.iter().rposition(|left| *left != 0) {
        None => words += "none",
        Some(last) => {
            for (place, left) in state.left[..=last].iter().enumerate() {
                let comma = if place == 0 { "" } else { "," };
                write!(words, "{comma}{left}").unwrap();
            }
        }
    }
    words
}

pub fn judge_line(answer: Result<(), Refusal>) -> String {
    match answer {
        Ok(()) => "judge accepted".to_string(),
        Err(refusal) => format!("judge {}", refusal_words(refusal)),
    }
}

pub fn claim_line(answer: Result<Weighed, Refusal>) -> String {
    match answer {
        Ok(Weighed { accepted, demand, supply, .. }) => {
            let words = if accepted { "accepted" } else { "refused 18" };
            format!("claim {words} demand {demand} supply {supply}")
        }
        Err(refusal) => format!("claim {}", refusal_words(refusal)),
    }
}

/// What `day` prints for the bytes on its standard input.
pub fn day_listing(input: &[u8]) -> String {
    if input.len() > LONGEST_INPUT {
        return "too long\n".to_string();
    }
    sheet_listing(input)
}

/// The listing of the day that stands in a sheet, or the refusal's number.
pub fn sheet_listing(sheet: &[u8]) -> String {
    let (table, harvest) = match read_sheet(sheet) {
        Err(refusal) if slip(Slip::ListingNames) => return refusal_words(refusal) + "\n",
        Err(refusal) => return format!("refused {}\n", refusal.number),
        Ok(read) => read,
    };
    let mut listing = format!(
        "day slots {} jobs {} capacity {}\n",
        table.slots, table.count, table.capacity
    );
    let overload = search_overload(&table, harvest);
    if let (Some(overload), false) = (overload, slip(Slip::ListingRunsOverloaded)) {
        writeln!(listing, "verdict {}", overload_words(overload)).unwrap();
        return listing;
    }
    let slots = run(&table, harvest);
    let mut before = first_state(&table).level;
    for (slot, (decision, after)) in slots.iter().enumerate() {
        let level = if slip(Slip::ListingLevelBefore) { before } else { after.level };
        before = after.level;
        let ground = ground_word(*decision);
        match decision {
            Decision::Idle(_) => writeln!(listing, "slot {slot} idle {ground} level {level}"),
            Decision::Busy(number, _) => {
                writeln!(listing, "slot {slot} job {number} {ground} level {level}")
            }
        }
        .unwrap();
    }
    let answer = overload.map_or(verdict(&table, &slots), Answer::Overloaded);
    writeln!(listing, "verdict {}", answer_words(answer)).unwrap();
    listing
}
