//! Bytes in, listing or refusal line out.

use crate::blocks::{singles, Blocks, Partition};
use crate::divide::{earliest_cheapest, partitions_met, Met};
use crate::job::Job;
use crate::machine::{Kind, Machine};
use crate::place::{length, place, Priority, Row};
use crate::refusal::{Refusal, PROGRAM};

pub const LEAST_BYTES: usize = 40;
pub const MOST_BYTES: usize = 14_388;

/// What the bytes ask for.
#[derive(Debug)]
pub struct Request {
    pub machine: Machine,
    pub priority: Priority,
    pub job: Job,
}

/// A planned job.
pub struct Schedule {
    pub partition: Partition,
    pub cost: u64,
    pub rows: Vec<Row>,
    pub chain: u64,
}

fn words_of(bytes: &[u8]) -> Vec<u32> {
    bytes.chunks_exact(4).map(|four| u32::from_le_bytes(four.try_into().unwrap())).collect()
}

pub fn read(bytes: &[u8]) -> Result<Request, Refusal> {
    let refused = |place| Err(Refusal::new(PROGRAM, 31, place));
    let count = bytes.len();
    if count < LEAST_BYTES || count > MOST_BYTES || count % 4 != 0 {
        return refused(count as u64);
    }
    let words = words_of(bytes);
    let kind = match words[0] {
        1 => Kind::Bus,
        2 => Kind::Cube,
        _ => return refused(0),
    };
    let priority = match words[9] {
        1 => Priority::LevelByTime,
        2 => Priority::Number,
        3 => Priority::TimeByLevel,
        _ => return refused(36),
    };
    let figures: Vec<u64> = words[2..9].iter().map(|&w| u64::from(w)).collect();
    let machine = Machine::new(kind, u64::from(words[1]), figures.try_into().unwrap()).map_err(|below| {
        let byte = if below.number() == 27 { 4 } else { 4 + 4 * below.place() };
        below.under(PROGRAM, byte)
    })?;
    let job = Job::read(&words[10..]).map_err(|below| {
        let byte = if [19, 22].contains(&below.number()) { 0 } else { 40 + 4 * word_at_fault(&below) };
        below.under(PROGRAM, byte)
    })?;
    job.close().map_err(|below| below.under(PROGRAM, 0))?;
    Ok(Request { machine, priority, job })
}

/// The place of every refusal of the reader but 19 and 22 is the position of the word at fault.
fn word_at_fault(below: &Refusal) -> u64 {
    below.place()
}

pub fn met(request: &Request) -> Vec<Met> {
    partitions_met(&request.job, &request.machine, singles(&request.job))
}

pub fn schedule(request: &Request) -> Schedule {
    let Request { machine, priority, job } = request;
    let Met { partition, cost } = earliest_cheapest(met(request));
    let rows = place(job, machine, *priority, &partition);
    let chain = Blocks::new(job, machine, &partition).delay_chain(machine);
    Schedule { partition, cost, rows, chain }
}

impl Schedule {
    pub fn listing(&self) -> String {
        let mut text = String::new();
        for row in &self.rows {
            text.push_str(&format!("{} {} {} {}\n", row.block, row.processor, row.start, row.finish));
        }
        text.push_str(&format!("length {} cost {} chain {}\n", length(&self.rows), self.cost, self.chain));
        text
    }
}

/// The listing, or the refusal line.
pub fn plan(bytes: &[u8]) -> String {
    match read(bytes) {
        Ok(request) => schedule(&request).listing(),
        Err(refusal) => refusal.line(),
    }
}

/// One line for each partition met: its cost, then the block of each task.
pub fn met_text(request: &Request) -> String {
    let mut text = String::new();
    for m in met(request) {
        text.push_str(&m.cost.to_string());
        for block in &m.partition {
            text.push_str(&format!(" {block}"));
        }
        text.push('\n');
    }
    text
}

pub fn bytes_of(words: &[u32]) -> Vec<u8> {
    words.iter().flat_map(|w| w.to_le_bytes()).collect()
}

#[cfg(test)]
mod tests {
    use super::*;
    use crate::job::shipped;

    const FRONT: [u32; 10] = [1, 2, 1, 1, 0, 0, 0, 0, 0, 1];

    fn with_front(front: [u32; 10], job: &[u32]) -> Vec<u32> {
        front.iter().chain(job).copied().collect()
    }

    fn planned(words: &[u32]) -> String {
        plan(&bytes_of(words))
    }

    /// The shipped job with one word of the whole input changed.
    fn damaged(at: usize, to: u32) -> String {
        let mut words = with_front(FRONT, &shipped().words());
        words[at] = to;
        planned(&words)
    }

    #[test]
    fn shipped_job() {
        let text = planned(&with_front(FRONT, &shipped().words()));
        assert_eq!(text, "1 0 0 4\n3 0 4 9\n2 1 6 9\n4 0 11 13\nlength 13 cost 22 chain 5\n");
        assert_eq!(damaged(9, 2), "1 0 0 4\n2 0 4 7\n3 0 7 12\n4 0 12 14\nlength 14 cost 22 chain 5\n");
        let handled = with_front([1, 2, 1, 1, 3, 1, 0, 1, 0, 1], &shipped().words());
        assert_eq!(planned(&handled), "1 0 0 17\nlength 17 cost 34 chain 0\n");
    }

    #[test]
    fn refused_by_the_program() {
        assert_eq!(plan(&[]), "refused 5 31 0\n");
        let mut bytes = bytes_of(&with_front(FRONT, &shipped().words()));
        assert_eq!(plan(&bytes[..39]), "refused 5 31 39\n");
        assert_eq!(plan(&bytes[..36]), "refused 5 31 36\n");
        bytes.push(0);
        assert_eq!(plan(&bytes), "refused 5 31 133\n");
        assert_eq!(plan(&vec![0; 14_392]), "refused 5 31 14392\n");
        assert_eq!(plan(&vec![0; 14_388]), "refused 5 31 0\n");
        assert_eq!(damaged(0, 3), "refused 5 31 0\n");
        assert_eq!(damaged(9, 0), "refused 5 31 36\n");
        assert_eq!(damaged(9, 4), "refused 5 31 36\n");
    }

    #[test]
    fn refused_by_the_machine() {
        assert_eq!(damaged(1, 33), "refused 5 27 4 3 27 33\n");
        assert_eq!(damaged(1, 0), "refused 5 27 4 3 27 0\n");
        let cube = with_front([2, 3, 1, 1, 0, 0, 0, 0, 0, 1], &shipped().words());
        assert_eq!(planned(&cube), "refused 5 27 4 3 27 3\n");
        assert_eq!(damaged(2, 10_001), "refused 5 28 8 3 28 1\n");
        assert_eq!(damaged(8, 100), "refused 5 28 32 3 28 7\n");
    }

    #[test]
    fn refused_by_the_reader_or_closing() {
        let words = with_front(FRONT, &shipped().words());
        assert_eq!(planned(&words[..10]), "refused 5 19 0 2 19 0\n");
        assert_eq!(planned(&words[..12]), "refused 5 19 0 2 19 2\n");
        let longer: Vec<u32> = words.iter().copied().chain([7]).collect();
        assert_eq!(planned(&longer), "refused 5 22 0 2 22 24\n");
        assert_eq!(damaged(10, 2), "refused 5 20 40 2 20 0\n");
        assert_eq!(damaged(11, 257), "refused 5 21 44 2 21 1\n");
        assert_eq!(damaged(12, 1025), "refused 5 21 48 2 21 2\n");
        assert_eq!(damaged(14, 5), "refused 5 23 56 2 23 4\n");
        assert_eq!(damaged(14, 0), "refused 5 24 96 2 24 14\n");
        assert_eq!(damaged(13, 0), "refused 5 2 52 2 2 3 1 2 0\n");
        assert_eq!(damaged(21, 9), "refused 5 4 84 2 4 11 1 4 9\n");
        assert_eq!(damaged(21, 1), "refused 5 5 84 2 5 11 1 5 1\n");
        assert_eq!(damaged(22, 1_000_001), "refused 5 6 88 2 6 12 1 6 0\n");
        assert_eq!(damaged(24, 2), "refused 5 7 96 2 7 14 1 7 1\n");
        assert_eq!(planned(&with_front(FRONT, &[1, 0, 0])), "refused 5 9 0 1 9 0\n");
        assert_eq!(damaged(30, 1), "refused 5 10 0 1 10 1\n");
    }

    #[test]
    fn partitions_met_as_text() {
        let request = read(&bytes_of(&with_front(FRONT, &shipped().words()))).unwrap();
        assert_eq!(met_text(&request), "22 1 2 3 4\n28 1 1 3 4\n28 1 1 1 4\n28 1 1 1 1\n");
    }
}
