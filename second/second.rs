//! An independent second program for document 01 (the day sheet, the overload search,
//! the ED-H slot run, the planner, the judge of evidence and the program `day`), and for the
//! bench's program `evidence`.
//!
//! It is written from the paper alone and shares no code with the proved crates: its answers
//! are what theirs are compared with. Obvious code is preferred to fast code throughout.
//!
//! Build: rustc -O second/second.rs -o SOMEWHERE/second (in a folder outside the repository)
//! Use:   second/README.md

mod compare;
mod days;
mod evidence;
mod fixed;
mod hand;
mod make;
mod paper;
mod requests;
mod slips;
mod tests;
mod words;

use std::io::{BufReader, BufWriter, Read, Write};

/// The bytes that are read or written at once.
const BUFFER: usize = 1 << 18;

fn standard_input() -> Vec<u8> {
    let mut input = Vec::new();
    std::io::stdin().read_to_end(&mut input).expect("standard input can be read");
    input
}

fn print(bytes: &[u8]) {
    std::io::stdout().write_all(bytes).expect("standard output can be written");
}

fn answer() {
    let mut input = BufReader::with_capacity(BUFFER, std::io::stdin().lock());
    let mut output = BufWriter::with_capacity(BUFFER, std::io::stdout().lock());
    requests::answer(&mut input, &mut output);
}

const USE: &str = "use: second answer [--slip NAME] | make SEED COUNT | fixed | \
                   compare SEED COUNT PROGRAM [WORDS..] | slips | teeth | day | example NAME | \
                   examples | evidence ARGUMENTS | evidence-table | self-test";

fn stop_with_use() -> ! {
    eprintln!("{USE}");
    std::process::exit(2);
}

/// A number among the arguments.
fn number(word: &str) -> u64 {
    word.parse().unwrap_or_else(|_| stop_with_use())
}

fn main() {
    let words: Vec<String> = std::env::args().skip(1).collect();
    match words.iter().map(String::as_str).collect::<Vec<_>>()[..] {
        ["answer"] => answer(),
        ["answer", "--slip", name] => {
            let slip = slips::slip_named(name).unwrap_or_else(|| stop_with_use());
            slips::make_slip(Some(slip));
            answer()
        }
        ["make", seed, count] => {
            let mut output = BufWriter::with_capacity(BUFFER, std::io::stdout().lock());
            // whoever reads may stop before the end
            let _ = make::write_requests(number(seed), number(count), &mut output);
            let _ = output.flush();
        }
        ["fixed"] => print(&fixed::fixed_requests()),
        ["compare", seed, count, program, ref words @ ..] => {
            if !compare::compare(number(seed), number(count), program, words) {
                std::process::exit(1);
            }
        }
        ["slips"] => print(slips::list_of_slips().as_bytes()),
        ["teeth"] => {
            if !compare::teeth(&standard_input()) {
                std::process::exit(1);
            }
        }
        ["day"] => print(words::day_listing(&standard_input()).as_bytes()),
        ["example", name] => print(&days::example(name)),
        ["examples"] => print(days::example_names().as_bytes()),
        ["evidence", ref words @ ..] => {
            print(format!("{}\n", evidence::evidence_line(words)).as_bytes())
        }
        ["evidence-table"] => print(evidence::evidence_table().as_bytes()),
        ["self-test"] => {
            tests::self_test();
            print(b"ok\n");
        }
        _ => stop_with_use(),
    }
}
