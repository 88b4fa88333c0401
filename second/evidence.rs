//! The bench's program `evidence`: it judges a plan or a claim, and says in one line what the judge
//! says.

use crate::paper::*;
use crate::words::{kind_word, LONGEST_INPUT};
use std::io::Read;

pub const EVIDENCE_USAGE: &str =
    "usage: evidence SHEET plan PLAN, or evidence SHEET claim KIND START END";

/// A number in decimal digits; one above 2^64 - 1 is taken as 2^64 - 1.
pub fn decimal(word: &str) -> Option<u64> {
    if word.is_empty() || !word.bytes().all(|digit| digit.is_ascii_digit()) {
        return None;
    }
    let mut number: u64 = 0;
    for digit in word.bytes() {
        number = number.saturating_mul(10).saturating_add((digit - b'0') as u64);
    }
    Some(number)
}

/// A claim's kind: a word, or its number.
pub fn kind_number(word: &str) -> Option<u64> {
    match word {
        "time" => Some(0),
        "energy" => Some(1),
        _ => decimal(word),
    }
}

/// The bytes of a file, or the line that says why it is no evidence.
pub fn file_bytes(name: &str) -> Result<Vec<u8>, String> {
    let mut bytes = Vec::new();
    let most = LONGEST_INPUT as u64 + 1;
    let read = std::fs::File::open(name).and_then(|file| file.take(most).read_to_end(&mut bytes));
    if read.is_err() {
        return Err(format!("cannot read {name}"));
    }
    if bytes.len() > LONGEST_INPUT {
        return Err(format!("too long: {name}"));
    }
    Ok(bytes)
}

/// The line for a refused sheet: 1 to 6.
pub fn sheet_refused_line(refusal: Refusal) -> String {
    let why = match refusal.number {
        1 => "the sheet is under 12 bytes",
        2 => "the sheet does not end in 45 48 (hex)",
        3 => "the sheet has more than 64 jobs, or slots 0 or above 1440",
        4 => "the sheet's back distances or its length do not fit its jobs and slots",
        5 => "its release is not below its deadline, or its deadline is above slots",
        6 => "it wants 0 slots or above 1440, its energy is 0, or its last byte is not zero",
        _ => unreachable!("a sheet is refused 1 to 6"),
    };
    match refusal.named {
        Named::Record(record) => format!("refused {} at record {record}: {why}", refusal.number),
        _ => format!("refused {}: {why}", refusal.number),
    }
}

/// The line for a plan that was refused 12 to 15 in a slot.
pub fn slot_refused_line(table: &Table, plan: &[u8], number: i64, slot: i64) -> String {
    let byte = plan[slot as usize];
    let refused = format!("refused {number} at slot {slot}");
    if number == 12 {
        let jobs = match table.count {
            0 => "there is no job".to_string(),
            count => format!("0 to {}", count - 1),
        };
        return format!(
            "{refused}: byte {byte} is neither 255 for idle nor a job's number ({jobs})"
        );
    }
    let Job { release, deadline, wanted, energy } = table.jobs()[byte as usize];
    match number {
        13 => format!("{refused}: job {byte} may run in slots {release} to {} only", deadline - 1),
        14 => format!("{refused}: job {byte} already has all its slots ({wanted})"),
        15 => format!(
            "{refused}: level plus harvest is below the charge that job {byte} needs ({energy})"
        ),
        _ => unreachable!("a slot is refused 12 to 15"),
    }
}

/// What `evidence` says of a plan.
pub fn plan_evidence(sheet: &[u8], plan: &[u8]) -> String {
    let table = match read_sheet(sheet) {
        Err(refusal) => return sheet_refused_line(refusal),
        Ok((table, _)) => table,
    };
    let refusal = match judge_plan_sheet(sheet, plan) {
        Err(refusal) => refusal,
        Ok(()) => {
            return "accepted: every job gets its slots inside its window, \
                    and no busy slot lacks charge"
                .to_string()
        }
    };
    match refusal.named {
        Named::Slot(slot) => slot_refused_line(&table, plan, refusal.number, slot),
        Named::Job(job) => {
            let wanted = table.jobs()[job as usize].wanted;
            format!(
                "refused 16, job {job}: after the last slot it lacks some of its slots ({wanted})"
            )
        }
        _ => {
            let (bytes, slots) = (plan.len(), table.slots);
            format!("refused 11: the plan has {bytes} bytes and the day has {slots} slots")
        }
    }
}

/// What `evidence` says of a claim.
pub fn claim_evidence(sheet: &[u8], claim: Claim) -> String {
    let table = match read_sheet(sheet) {
        Err(refusal) => return sheet_refused_line(refusal),
        Ok((table, _)) => table,
    };
    let weighed = match judge_claim_sheet(sheet, claim) {
        Ok(weighed) => weighed,
        Err(_) => {
            return format!(
                "refused 17: the claim is no interval of the day: a kind is 0 (time) or \
                 1 (energy), the start is below the end, and the end is at most {}",
                table.slots
            )
        }
    };
    let Weighed { accepted, kind, start, end, demand, supply } = weighed;
    let interval = format!("in slots {start} to {} {}", end - 1, kind_word(kind));
    if accepted {
        format!("accepted: {interval} demand {demand} is above supply {supply}")
    } else {
        format!("refused 18: {interval} demand {demand} is not above supply {supply}")
    }
}

/// The line for the arguments: they are checked first, then the files, the sheet before the plan.
pub fn evidence_line(words: &[&str]) -> String {
    let line = match *words {
        [sheet, "plan", plan] => plan_line_of_files(sheet, plan),
        [sheet, "claim", kind, start, end] => {
            match (kind_number(kind), decimal(start), decimal(end)) {
                (Some(kind), Some(start), Some(end)) => {
                    claim_line_of_file(sheet, Claim { kind, start, end })
                }
                _ => Err(EVIDENCE_USAGE.to_string()),
            }
        }
        _ => Err(EVIDENCE_USAGE.to_string()),
    };
    match line {
        Ok(judged) => judged,
        Err(no_evidence) => no_evidence,
    }
}

pub fn plan_line_of_files(sheet: &str, plan: &str) -> Result<String, String> {
    let sheet = file_bytes(sheet)?;
    let plan = file_bytes(plan)?;
    Ok(plan_evidence(&sheet, &plan))
}

pub fn claim_line_of_file(sheet: &str, claim: Claim) -> Result<String, String> {
    let sheet = file_bytes(sheet)?;
    Ok(claim_evidence(&sheet, claim))
}

/// The arguments of every row of examples/evidence.txt, in order. They are split at each space, so two
/// spaces hold an empty argument between them.
const ROWS: [&str; 98] = [
    // days 9 to 11
    "day-1.sheet plan day-9-accepted.plan",
    "day-1.sheet plan day-9-refused.plan",
    "day-5.sheet plan day-10.plan",
    "day-1.sheet claim energy 0 4",
    // plans refused 12 to 16
    "largest-day.sheet plan largest-day.plan",
    "day-1.sheet plan day-1-no-job.plan",
    "day-1.sheet plan day-1-too-early.plan",
    "day-1.sheet plan day-1-twice.plan",
    "day-7.sheet plan day-7-no-job.plan",
    "day-2.sheet plan day-9-accepted.plan",
    "day-2.sheet plan day-9-refused.plan",
    "day-2.sheet plan day-1-twice.plan",
    "day-3.sheet plan day-7-no-job.plan",
    "day-4.sheet plan day-7-no-job.plan",
    // 11: plans of another length
    "day-5.sheet plan day-9-accepted.plan",
    "day-1.sheet plan day-10.plan",
    "day-7.sheet plan day-9-accepted.plan",
    "day-1.sheet plan largest-day.plan",
    "day-1.sheet plan day-1.sheet",
    "largest-day.sheet plan day-10.plan",
    // sheets refused 1, 2 and 5
    "day-9-accepted.plan plan day-9-accepted.plan",
    "day-10.plan claim time 0 1",
    "day-1.txt plan day-9-accepted.plan",
    "largest-day.plan claim energy 0 4",
    "refused.sheet plan day-9-accepted.plan",
    "refused.sheet plan day-10.plan",
    "refused.sheet claim time 0 4",
    "refused.sheet claim 2 4 0",
    // claims of an interval, good and refused 18
    "day-2.sheet claim energy 0 4",
    "day-2.sheet claim 1 0 4",
    "day-2.sheet claim 01 00 004",
    "day-2.sheet claim energy 1 2",
    "day-2.sheet claim time 0 4",
    "day-3.sheet claim time 0 1",
    "day-3.sheet claim 0 0 1",
    "day-3.sheet claim energy 0 1",
    "day-4.sheet claim time 0 1",
    "day-4.sheet claim energy 0 1",
    "day-5.sheet claim energy 1 5",
    "day-5.sheet claim energy 0 9",
    "day-5.sheet claim time 1 5",
    "day-5.sheet claim time 2 5",
    "day-6.sheet claim time 0 2",
    "day-6.sheet claim energy 0 2",
    "day-7.sheet claim energy 0 1",
    "largest-day.sheet claim time 0 1440",
    "largest-day.sheet claim energy 0 1440",
    // 17: claims of none; some would be good if they were cut
    "largest-day.sheet claim energy 0 1441",
    "day-1.sheet claim 2 0 4",
    "day-1.sheet claim 255 0 4",
    "day-1.sheet claim time 0 0",
    "day-1.sheet claim time 2 2",
    "day-1.sheet claim time 4 4",
    "day-1.sheet claim energy 3 1",
    "day-1.sheet claim time 0 5",
    "day-1.sheet claim energy 4 5",
    "day-2.sheet claim 257 0 4",
    "day-2.sheet claim 65537 0 4",
    "day-2.sheet claim 4294967297 0 4",
    "day-2.sheet claim 18446744073709551615 0 4",
    "day-2.sheet claim 18446744073709551616 0 4",
    "day-2.sheet claim 18446744073709551617 0 4",
    "day-2.sheet claim 99999999999999999999999999999999 0 4",
    "day-2.sheet claim energy 18446744073709551616 4",
    "day-2.sheet claim energy 0 18446744073709551620",
    "day-2.sheet claim energy 65536 65540",
    "day-2.sheet claim energy 4294967296 4294967300",
    "day-2.sheet claim energy 18446744073709551616 18446744073709551620",
    // files that cannot be read, or are too long
    "missing.sheet plan missing.plan",
    "missing.sheet plan day-9-accepted.plan",
    "missing.sheet claim time 0 4",
    "day-1.sheet plan missing.plan",
    "refused.sheet plan missing.plan",
    ". plan day-9-accepted.plan",
    "largest-day.txt plan day-9-accepted.plan",
    "largest-day.txt claim time 0 4",
    "day-1.sheet plan largest-day.txt",
    "refused.sheet plan largest-day.txt",
    // arguments of no form: the usage
    "day-1.sheet",
    "day-1.sheet plan",
    "day-1.sheet plan day-9-accepted.plan day-10.plan",
    "day-1.sheet Plan day-9-accepted.plan",
    "day-1.sheet claim",
    "day-1.sheet claim time 0",
    "day-1.sheet claim time 0 4 4",
    "day-1.sheet claim work 0 4",
    "day-1.sheet claim Time 0 4",
    "day-1.sheet claim  0 4",
    "day-1.sheet claim time  4",
    "day-1.sheet claim time 0 x",
    "day-1.sheet claim time 0x0 4",
    "day-1.sheet claim time -1 4",
    "day-1.sheet claim time 0 +4",
    "day-1.sheet claim time 0 4.0",
    "day-1.sheet claim -0 0 4",
    "missing.sheet claim time 0 x",
    "missing.sheet plan",
    "plan day-1.sheet day-9-accepted.plan",
];

/// The table of evidence: of each row the arguments, ` | ` and the line that comes out.
pub fn evidence_table() -> String {
    let mut table = String::new();
    for arguments in ROWS {
        let words: Vec<&str> = arguments.split(' ').collect();
        table += &format!("{arguments} | {}\n", evidence_line(&words));
    }
    table
}
