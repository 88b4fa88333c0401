//! Another program held against this one, and this one against its own slips.

use crate::make::{request_bytes, write_requests};
use crate::requests::{next_line, KINDS};
use crate::slips::{make_slip, ALL_SLIPS};
use crate::words::hex;
use std::io::{BufRead, BufReader, BufWriter, Write};
use std::process::{Command, Stdio};

// ------------------------------------------------------------------------------------------
// Comparing
// ------------------------------------------------------------------------------------------

/// The most characters of a request that are shown.
const MOST_SHOWN: usize = 4000;

/// What came of the requests of one kind.
#[derive(Default)]
struct Tally {
    agreed: u64,
    differed: u64,
    /// The first that differed: its number, the request in hex, and both lines.
    first: Option<String>,
}

/// Where a kind's tally stands: those that no table names come last.
fn place_of(kind: u8) -> usize {
    KINDS.iter().position(|other| *other == kind).unwrap_or(KINDS.len())
}

/// The kind's letter, or `no` where it is none.
fn letter_of(place: usize) -> String {
    KINDS.get(place).map_or("no".to_string(), |kind| (*kind as char).to_string())
}

/// The other program's next line, without its newline; None where there is no more.
fn line_of(other: &mut impl BufRead) -> Option<String> {
    let mut line = Vec::new();
    match other.read_until(b'\n', &mut line) {
        Ok(0) | Err(_) => return None,
        Ok(_) => {}
    }
    let line = String::from_utf8_lossy(&line).into_owned();
    // a last line without its newline is another line
    Some(line.strip_suffix('\n').map_or(format!("{line} (no newline)"), str::to_string))
}

/// The other program's answer: a line, or the lines of a listing up to its verdict.
fn answer_of(other: &mut impl BufRead) -> Option<String> {
    let mut answer = line_of(other)?;
    if !answer.starts_with("day ") {
        return Some(answer);
    }
    while let Some(line) = line_of(other) {
        answer += "\n";
        answer += &line;
        if !line.starts_with("slot ") {
            break;
        }
    }
    Some(answer)
}

/// The first differing lines of two answers, which are one line each but for a listing.
fn differing_lines(own: &str, other: &str) -> (String, String) {
    let (mut own_lines, mut other_lines) = (own.lines(), other.lines());
    loop {
        match (own_lines.next(), other_lines.next()) {
            (Some(one), Some(two)) if one == two => {}
            (one, two) => {
                let shown = |line: Option<&str>| line.unwrap_or("(no line)").to_string();
                return (shown(one), shown(two));
            }
        }
    }
}

/// Pipes the requests of that seed into the program, started with these words, and holds every line
/// against the own one as it comes. Prints what came of it; false where anything differs.
pub fn compare(seed: u64, count: u64, program: &str, words: &[&str]) -> bool {
    let started =
        Command::new(program).args(words).stdin(Stdio::piped()).stdout(Stdio::piped()).spawn();
    let mut child = match started {
        Ok(child) => child,
        Err(problem) => {
            eprintln!("{program} cannot be started: {problem}");
            return false;
        }
    };
    let input = child.stdin.take().expect("the program's input");
    // the writer makes the requests by itself, so that neither side ever waits for the other
    let writer = std::thread::spawn(move || {
        let mut input = BufWriter::with_capacity(1 << 18, input);
        // a program that stops reading is seen by its missing lines
        let _ = write_requests(seed, count, &mut input);
        let _ = input.flush();
    });
    let mut output = BufReader::with_capacity(1 << 18, child.stdout.take().expect("its output"));
    let mut tallies: Vec<Tally> = Vec::new();
    tallies.resize_with(KINDS.len() + 1, Tally::default);
    let mut missing = 0;
    let mut payload = Vec::new();
    for number in 0..count {
        let request = request_bytes(seed, number, count);
        let own = next_line(&mut &request[..], &mut payload).expect("a request has a line").1;
        let tally = &mut tallies[place_of(request[0])];
        let other = match answer_of(&mut output) {
            Some(other) => other,
            None => {
                missing += 1;
                continue;
            }
        };
        if own == other {
            tally.agreed += 1;
            continue;
        }
        tally.differed += 1;
        if tally.first.is_none() {
            let (own, other) = differing_lines(&own, &other);
            let mut shown = hex(&request);
            if shown.len() > MOST_SHOWN {
                shown.truncate(MOST_SHOWN);
                shown += "..";
            }
            tally.first = Some(format!(
                "request {number}\n  request: {shown}\n  second:  {own}\n  other:   {other}\n"
            ));
        }
    }
    let mut more = 0;
    while line_of(&mut output).is_some() {
        more += 1;
    }
    writer.join().expect("the writer ends");
    let status = child.wait().expect("the program ends");

    println!("kind  agreed  differed");
    for (place, tally) in tallies.iter().enumerate() {
        println!("{:4} {:>7} {:>9}", letter_of(place), tally.agreed, tally.differed);
    }
    for (place, tally) in tallies.iter().enumerate() {
        if let Some(first) = &tally.first {
            print!("first of kind {} that differs: {first}", letter_of(place));
        }
    }
    if missing > 0 {
        println!("{missing} requests without a line");
    }
    if more > 0 {
        println!("{more} lines too many");
    }
    if !status.success() {
        println!("the program ended with {status}");
    }
    let differed = tallies.iter().any(|tally| tally.differed > 0);
    !differed && missing == 0 && more == 0 && status.success()
}

// ------------------------------------------------------------------------------------------
// Teeth
// ------------------------------------------------------------------------------------------

/// The requests of a stream one after the other: number, kind and line.
fn each_line(stream: &[u8], mut look: impl FnMut(usize, u8, String)) {
    let mut input = stream;
    let mut payload = Vec::new();
    let mut number = 0;
    while let Some((kind, line)) = next_line(&mut input, &mut payload) {
        look(number, kind, line);
        number += 1;
    }
}

/// The most characters of a line that are shown.
const MOST_OF_LINE: usize = 60;

/// The line from a little before that character on.
fn shortened(line: &str, at: usize) -> String {
    let from = if at > MOST_OF_LINE - 12 { at - 24 } else { 0 };
    let to = line.len().min(from + MOST_OF_LINE);
    let before = if from > 0 { ".." } else { "" };
    let behind = if to < line.len() { ".." } else { "" };
    format!("{before}{}{behind}", &line[from.min(to)..to])
}

/// For each slip how many requests tell it apart, and the first of them. False where one is untold.
pub fn teeth(stream: &[u8]) -> bool {
    let mut right = Vec::new();
    each_line(stream, |_, _, line| right.push(line));
    let mut untold = 0;
    for (which, name, _) in ALL_SLIPS {
        make_slip(Some(*which));
        let mut told = 0;
        let mut first = String::new();
        each_line(stream, |number, kind, line| {
            if line == right[number] {
                return;
            }
            told += 1;
            if told == 1 {
                let (one, two) = differing_lines(&right[number], &line);
                let at = one.bytes().zip(two.bytes()).take_while(|(a, b)| a == b).count();
                let (one, two) = (shortened(&one, at), shortened(&two, at));
                first = format!("request {number} {}: {one} | {two}", kind as char);
            }
        });
        make_slip(None);
        if told == 0 {
            untold += 1;
            println!("{name}: untold");
        } else {
            println!("{name}: told by {told}, first {first}");
        }
    }
    println!("{} slips, {untold} untold, {} requests", ALL_SLIPS.len(), right.len());
    untold == 0
}
