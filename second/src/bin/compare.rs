//! Runs the second planner and the proved one on the same bytes and stops at the first difference.
//! compare [SERIES [FILE]]: the series of inputs (0), and the file that keeps the input at a difference.

use std::collections::BTreeMap;
use std::process::ExitCode;
use std::time::{Duration, Instant};
use std::{env, fs};

use second::generate::kinds;
use second::plan::{read, schedule};
use second::proved;
use second::random::Random;

/// Bytes beside the output that no call may touch.
const GUARD: usize = 64;

/// More than any text of the kind compared takes.
const AMPLE: usize = 32_768;

type Planner = fn(&[u8], &mut [u8]) -> i64;

/// One call with an output of some length: the answer and the text must be right, and every other byte untouched.
fn call(planner: Planner, input: &[u8], expected: &[u8], room: usize, mark: u8) -> Result<(), String> {
    let given = input.to_vec();
    let mut memory = vec![mark; GUARD + room + GUARD];
    let answer = planner(&given, &mut memory[GUARD..GUARD + room]);
    let fits = expected.len() <= room;
    let due = if fits { expected.len() as i64 } else { -(expected.len() as i64) };
    let output = &memory[GUARD..GUARD + room];
    if answer != due {
        let text = String::from_utf8_lossy(&output[..(answer.max(0) as usize).min(room)]);
        return Err(format!("an output of {room} bytes: answer {answer}, due {due}; written:\n{text}"));
    }
    let mut after = vec![mark; memory.len()];
    if fits {
        after[GUARD..GUARD + expected.len()].copy_from_slice(expected);
    }
    if memory != after {
        let text = String::from_utf8_lossy(&output[..expected.len().min(room)]);
        return Err(format!("an output of {room} bytes: the bytes after differ; written:\n{text}"));
    }
    if given != input {
        return Err("the input was written to".to_string());
    }
    Ok(())
}

/// An ample output, an exact one, and two that are too short.
fn compare(planner: Planner, input: &[u8], expected: &str, random: &mut Random) -> Result<(), String> {
    let expected = expected.as_bytes();
    let larger = expected.len().max(AMPLE) + 1 + random.index(100);
    let rooms = [larger, expected.len(), expected.len() - 1, random.index(expected.len())];
    // of large jobs the second short output is left out
    let tried = if input.len() > 2000 { 3 } else { 4 };
    rooms[..tried].iter().try_for_each(|&room| call(planner, input, expected, room, random.next() as u8))
}

#[derive(Default)]
struct Tally {
    planned: u64,
    refused: BTreeMap<u64, u64>,
    joined: u64,
    second: Duration,
}

impl Tally {
    fn compare(&mut self, input: &[u8], random: &mut Random) -> Result<(), String> {
        let begin = Instant::now();
        let answer = read(input).map(|request| (schedule(&request), request));
        self.second += begin.elapsed();
        let text = match &answer {
            Ok((done, _)) => done.listing(),
            Err(refusal) => refusal.line(),
        };
        compare(proved::plan, input, &text, random).map_err(|why| format!("{why}\ndue:\n{text}"))?;
        match answer {
            Ok((done, _request)) => {
                self.planned += 1;
                self.joined += u64::from(done.rows.len() < done.partition.len() && done.rows.len() > 1);
                #[cfg(feature = "met")]
                {
                    let text = second::plan::met_text(&_request);
                    let why = |why| format!("partitions met: {why}\ndue:\n{text}");
                    compare(proved::met, input, &text, random).map_err(why)?;
                }
            }
            Err(refusal) => *self.refused.entry(refusal.number()).or_default() += 1,
        }
        Ok(())
    }
}

fn run(series: u64, keep: &str) -> Result<(), String> {
    let begin = Instant::now();
    let mut tally = Tally::default();
    let mut random = Random::new(series);
    let mut total = 0;
    for kind in kinds(series) {
        let since = Instant::now();
        let (planned, count) = (tally.planned, kind.count);
        for k in 0..count {
            let input = kind.input(k);
            if let Err(why) = tally.compare(&input, &mut random) {
                fs::write(keep, &input).map_err(|e| format!("{keep}: {e}"))?;
                return Err(format!("difference at '{}', input {k} of series {series}, kept in {keep}\n{why}", kind.name));
            }
        }
        total += count;
        let planned = tally.planned - planned;
        println!("{:26} {count:5} compared, {planned:5} planned, {:5.1} s", kind.name, since.elapsed().as_secs_f64());
    }
    let refused: Vec<String> = tally.refused.iter().map(|(number, count)| format!("{number}: {count}")).collect();
    println!("refused by number: {}", refused.join(", "));
    println!("planned into some, but not all, joined blocks: {}", tally.joined);
    let met = if cfg!(feature = "met") { ", partitions met compared too" } else { "" };
    let seconds = begin.elapsed().as_secs_f64();
    println!(
        "{total} inputs, {} planned, no difference{met}; {seconds:.1} s, of which the second planner {:.1} s",
        tally.planned,
        tally.second.as_secs_f64()
    );
    Ok(())
}

fn main() -> ExitCode {
    let words: Vec<String> = env::args().skip(1).collect();
    let series = words.first().map_or(0, |w| w.parse().expect("the number of a series"));
    let keep = words.get(1).cloned().unwrap_or_else(|| "difference.bin".to_string());
    match proved::with_stack(move || run(series, &keep)) {
        Ok(()) => ExitCode::SUCCESS,
        Err(why) => {
            println!("{why}");
            ExitCode::FAILURE
        }
    }
}
