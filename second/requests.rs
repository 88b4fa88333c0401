//! Requests and their lines, as docs/TRIALS.md describes them.

use crate::paper::*;
use crate::slips::{slip, Slip};
use crate::words::*;
use std::convert::TryInto;
use std::io::{Read, Write};

/// The longest payload there is.
pub const MOST_PAYLOAD: u32 = 262_144;

/// The kinds of request.
pub const KINDS: &[u8] = b"CRHXWSBNPQJKILD";

// ------------------------------------------------------------------------------------------
// The parts of a payload
// ------------------------------------------------------------------------------------------

/// The payload's parts do not fill it exactly, or a table gives more than 64 jobs.
struct Malformed;

type Part<T> = Result<T, Malformed>;

struct Parts<'a> {
    rest: &'a [u8],
}

impl<'a> Parts<'a> {
    fn take(&mut self, length: usize) -> Part<&'a [u8]> {
        if length > self.rest.len() {
            return Err(Malformed);
        }
        let (part, rest) = self.rest.split_at(length);
        self.rest = rest;
        Ok(part)
    }

    fn u8(&mut self) -> Part<i64> {
        Ok(self.take(1)?[0] as i64)
    }

    fn u16(&mut self) -> Part<i64> {
        Ok(number_at(self.take(2)?, 0))
    }

    fn u32(&mut self) -> Part<u32> {
        Ok(u32::from_le_bytes(self.take(4)?.try_into().unwrap()))
    }

    fn u64(&mut self) -> Part<u64> {
        Ok(u64::from_le_bytes(self.take(8)?.try_into().unwrap()))
    }

    fn bytes(&mut self) -> Part<&'a [u8]> {
        let length = self.u32()?;
        self.take(length as usize)
    }

    fn table(&mut self) -> Part<Table> {
        let mut table = NO_TABLE;
        table.count = cut_count(self.u64()?);
        table.slots = self.u16()?;
        table.capacity = self.u16()?;
        let given = self.u8()?;
        if given > MOST_JOBS {
            return Err(Malformed);
        }
        for place in 0..given {
            table.places[place as usize] = Job {
                release: self.u16()?,
                deadline: self.u16()?,
                wanted: self.u16()?,
                energy: self.u8()?,
            };
        }
        Ok(table)
    }

    fn state(&mut self) -> Part<State> {
        let mut state = ZERO_STATE;
        state.slot = self.u16()?;
        state.level = self.u16()?;
        for place in 0..state.left.len() {
            state.left[place] = self.u16()?;
        }
        Ok(state)
    }

    fn claim(&mut self) -> Part<Claim> {
        Ok(Claim { kind: self.u64()?, start: self.u64()?, end: self.u64()? })
    }

    fn end(&self) -> Part<()> {
        if self.rest.is_empty() { Ok(()) } else { Err(Malformed) }
    }
}

/// The count as it stands, unless a slip cuts it.
fn cut_count(count: u64) -> u64 {
    if slip(Slip::CountIn32Bits) {
        count % (1 << 32)
    } else if slip(Slip::CountIn16Bits) {
        count % (1 << 16)
    } else if slip(Slip::CountIn8Bits) {
        count % (1 << 8)
    } else {
        count
    }
}

// ------------------------------------------------------------------------------------------
// A line for each kind
// ------------------------------------------------------------------------------------------

fn check_request(parts: &mut Parts) -> Part<String> {
    let (table, harvest) = (parts.table()?, parts.bytes()?);
    parts.end()?;
    let words = match check_table(&table, harvest) {
        Ok(()) => "accepted".to_string(),
        Err(refusal) => refusal_words(refusal),
    };
    Ok(format!("check {words}"))
}

fn read_request(parts: &mut Parts) -> Part<String> {
    let sheet = parts.bytes()?;
    parts.end()?;
    let (answer, table, _) = read(sheet);
    let words = match answer {
        Ok(()) => "accepted".to_string(),
        Err(refusal) => refusal_words(refusal),
    };
    Ok(format!("read {words} {}", table_words(&table)))
}

fn harvest_request(parts: &mut Parts) -> Part<String> {
    let sheet = parts.bytes()?;
    parts.end()?;
    Ok(format!("harvest {}", hex(read(sheet).2)))
}

fn stretch_request(parts: &mut Parts) -> Part<String> {
    let (sheet, count, slots) = (parts.bytes()?, parts.u64()?, parts.u16()?);
    parts.end()?;
    Ok(format!("stretch {}", hex(stretch(sheet, count, slots))))
}

fn write_request(parts: &mut Parts) -> Part<String> {
    let (table, harvest) = (parts.table()?, parts.bytes()?);
    let mut buffer = parts.bytes()?.to_vec();
    parts.end()?;
    let words = match write_sheet(&table, harvest, &mut buffer) {
        Ok(length) => format!("length {length}"),
        Err(refusal) => refusal_words(refusal),
    };
    Ok(format!("write {words} buffer {}", hex(&buffer)))
}

fn search_request(parts: &mut Parts) -> Part<String> {
    let (table, harvest) = (parts.table()?, parts.bytes()?);
    parts.end()?;
    let words = match search_table(&table, harvest) {
        Ok(None) => "clear".to_string(),
        Ok(Some(overload)) => overload_words(overload),
        Err(refusal) => refusal_words(refusal),
    };
    Ok(format!("search {words}"))
}

fn begin_request(parts: &mut Parts) -> Part<String> {
    let (table, harvest) = (parts.table()?, parts.bytes()?);
    parts.end()?;
    let (words, state) = match begin(&table, harvest) {
        Ok(state) => ("accepted".to_string(), state),
        Err(refusal) => (refusal_words(refusal), ZERO_STATE),
    };
    Ok(format!("begin {words} {}", state_words(&state)))
}

fn step_request(parts: &mut Parts) -> Part<String> {
    let (table, harvest) = (parts.table()?, parts.bytes()?);
    let before = parts.state()?;
    parts.end()?;
    let (answer, after) = step(&table, harvest, &before);
    let words = match answer {
        Err(refusal) => refusal_words(refusal),
        Ok(Step::Over) => "over".to_string(),
        Ok(Step::Taken(decision)) => match decision {
            Decision::Idle(_) => format!("idle {}", ground_word(decision)),
            Decision::Busy(number, _) => format!("busy {number} {}", ground_word(decision)),
        },
    };
    Ok(format!("step {words} {}", state_words(&after)))
}

fn plan_line(answer: Result<Answer, Refusal>, plan: &[u8]) -> String {
    let words = match answer {
        Ok(answer) => answer_words(answer),
        Err(refusal) => refusal_words(refusal),
    };
    format!("plan {words} buffer {}", hex(plan))
}

fn plan_sheet_request(parts: &mut Parts) -> Part<String> {
    let sheet = parts.bytes()?;
    let mut plan = parts.bytes()?.to_vec();
    parts.end()?;
    let answer = plan_sheet(sheet, &mut plan);
    Ok(plan_line(answer, &plan))
}

fn plan_table_request(parts: &mut Parts) -> Part<String> {
    let (table, harvest) = (parts.table()?, parts.bytes()?);
    let mut plan = parts.bytes()?.to_vec();
    parts.end()?;
    let answer = plan_table(&table, harvest, &mut plan);
    Ok(plan_line(answer, &plan))
}

fn judge_sheet_request(parts: &mut Parts) -> Part<String> {
    let (sheet, plan) = (parts.bytes()?, parts.bytes()?);
    parts.end()?;
    Ok(judge_line(judge_plan_sheet(sheet, plan)))
}

fn judge_table_request(parts: &mut Parts) -> Part<String> {
    let (table, harvest, plan) = (parts.table()?, parts.bytes()?, parts.bytes()?);
    parts.end()?;
    Ok(judge_line(judge_plan_table(&table, harvest, plan)))
}

fn claim_sheet_request(parts: &mut Parts) -> Part<String> {
    let (sheet, claim) = (parts.bytes()?, parts.claim()?);
    parts.end()?;
    Ok(claim_line(judge_claim_sheet(sheet, claim)))
}

fn claim_table_request(parts: &mut Parts) -> Part<String> {
    let (table, harvest, claim) = (parts.table()?, parts.bytes()?, parts.claim()?);
    parts.end()?;
    Ok(claim_line(judge_claim_table(&table, harvest, claim)))
}

fn listing_request(parts: &mut Parts) -> Part<String> {
    let sheet = parts.bytes()?;
    parts.end()?;
    Ok(sheet_listing(sheet).trim_end().to_string())
}

/// The line of a request whose payload is there, without its newline; for `D` the lines of a
/// listing.
pub fn request_line(kind: u8, payload: &[u8]) -> String {
    let parts = &mut Parts { rest: payload };
    let line = match kind {
        b'C' => check_request(parts),
        b'R' => read_request(parts),
        b'H' => harvest_request(parts),
        b'X' => stretch_request(parts),
        b'W' => write_request(parts),
        b'S' => search_request(parts),
        b'B' => begin_request(parts),
        b'N' => step_request(parts),
        b'P' => plan_sheet_request(parts),
        b'Q' => plan_table_request(parts),
        b'J' => judge_sheet_request(parts),
        b'K' => judge_table_request(parts),
        b'I' => claim_sheet_request(parts),
        b'L' => claim_table_request(parts),
        b'D' => listing_request(parts),
        _ => Ok("unknown".to_string()),
    };
    line.unwrap_or_else(|Malformed| "malformed".to_string())
}

// ------------------------------------------------------------------------------------------
// The stream
// ------------------------------------------------------------------------------------------

/// What stands next in a stream.
pub enum Next {
    End,
    CutOff,
    TooLong(u8),
    /// The payload is in the buffer.
    Request(u8),
}

/// Reads until the buffer is full or the input ends; how many bytes came.
fn read_fully(input: &mut impl Read, buffer: &mut [u8]) -> std::io::Result<usize> {
    let mut there = 0;
    while there < buffer.len() {
        match input.read(&mut buffer[there..])? {
            0 => break,
            more => there += more,
        }
    }
    Ok(there)
}

/// The next request of a stream. A payload that is too long is read past.
pub fn next_request(input: &mut impl Read, payload: &mut Vec<u8>) -> std::io::Result<Next> {
    let mut front = [0; 5];
    match read_fully(input, &mut front[..1])? + read_fully(input, &mut front[1..])? {
        0 => return Ok(Next::End),
        5 => {}
        _ => return Ok(Next::CutOff),
    }
    let kind = front[0];
    let length = u32::from_le_bytes(front[1..].try_into().unwrap());
    if length > MOST_PAYLOAD {
        let past = std::io::copy(&mut input.take(length as u64), &mut std::io::sink())?;
        return Ok(if past == length as u64 { Next::TooLong(kind) } else { Next::CutOff });
    }
    payload.resize(length as usize, 0);
    let there = read_fully(input, payload)?;
    Ok(if there == payload.len() { Next::Request(kind) } else { Next::CutOff })
}

/// The kind of what stands next, and its line; None at the end.
pub fn next_line(input: &mut impl Read, payload: &mut Vec<u8>) -> Option<(u8, String)> {
    match next_request(input, payload).expect("standard input can be read") {
        Next::End => None,
        Next::CutOff => Some((b'-', "cut off".to_string())),
        Next::TooLong(kind) => Some((kind, "too long".to_string())),
        Next::Request(kind) => Some((kind, request_line(kind, payload))),
    }
}

/// Prints the line of every request of the stream.
pub fn answer(input: &mut impl Read, output: &mut impl Write) {
    let mut payload = Vec::new();
    while let Some((_, mut line)) = next_line(input, &mut payload) {
        line.push('\n');
        output.write_all(line.as_bytes()).expect("standard output can be written");
    }
    output.flush().expect("standard output can be written");
}
