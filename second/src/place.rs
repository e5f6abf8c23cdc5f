//! Priorities and placing.

use std::cmp::Ordering;

use crate::blocks::{Blocks, Partition};
use crate::job::Job;
use crate::machine::Machine;

/// What a priority sees of a block.
#[derive(Clone, Copy, Debug)]
pub struct Standing {
    pub level: u64,
    pub time: u64,
}

#[derive(Clone, Copy, PartialEq, Eq, Debug)]
pub enum Priority {
    LevelByTime,
    Number,
    TimeByLevel,
}

impl Priority {
    /// Less: ahead; Equal: even; Greater: behind.
    pub fn rank(self, a: Standing, b: Standing) -> Ordering {
        let level = b.level.cmp(&a.level);
        let time = b.time.cmp(&a.time);
        match self {
            Priority::LevelByTime => level.then(time),
            Priority::Number => Ordering::Equal,
            Priority::TimeByLevel => time.then(level),
        }
    }
}

#[derive(Clone, Copy, PartialEq, Eq, Debug)]
pub struct Row {
    pub block: u64,
    pub processor: u64,
    pub start: u64,
    pub finish: u64,
}

/// A block all of whose senders have rows: the latest arrival on each processor.
struct Candidate {
    place: usize,
    arrivals: Vec<u64>,
}

impl Candidate {
    /// The earliest start, and the lowest processor that has it.
    fn earliest(&self, last: &[u64]) -> (u64, usize) {
        let starts = self.arrivals.iter().zip(last).map(|(a, f)| *a.max(f));
        starts.enumerate().map(|(p, start)| (start, p)).min().expect("there is a processor")
    }
}

pub fn place(job: &Job, machine: &Machine, priority: Priority, partition: &Partition) -> Vec<Row> {
    let blocks = Blocks::new(job, machine, partition);
    let (times, levels) = (blocks.times(), blocks.levels());
    let standing = |i: usize| Standing { level: levels[i], time: times[i] };
    let processors = machine.processors() as usize;
    let mut last = vec![0; processors];
    let mut missing = vec![0; blocks.count()];
    for m in blocks.all_messages() {
        missing[m.to] += 1;
    }
    let mut arrivals = vec![vec![0; processors]; blocks.count()];
    let ready = (0..blocks.count()).filter(|&i| missing[i] == 0);
    let mut candidates: Vec<Candidate> =
        ready.map(|i| Candidate { place: i, arrivals: arrivals[i].clone() }).collect();
    let mut rows = Vec::new();
    while !candidates.is_empty() {
        let (mut chosen, (mut start, mut processor)) = (0, candidates[0].earliest(&last));
        for k in 1..candidates.len() {
            let (its_start, its_processor) = candidates[k].earliest(&last);
            let (a, b) = (candidates[k].place, candidates[chosen].place);
            let rank = || priority.rank(standing(a), standing(b));
            let order = its_start.cmp(&start).then_with(rank).then(a.cmp(&b));
            if order == Ordering::Less {
                (chosen, start, processor) = (k, its_start, its_processor);
            }
        }
        let i = candidates.swap_remove(chosen).place;
        let finish = start + times[i];
        rows.push(Row { block: blocks.numbers[i] as u64, processor: processor as u64, start, finish });
        last[processor] = finish;
        for m in blocks.messages(i) {
            for (p, latest) in arrivals[m.to].iter_mut().enumerate() {
                *latest = (*latest).max(finish + machine.delay(processor as u64, p as u64, m.size));
            }
            missing[m.to] -= 1;
            if missing[m.to] == 0 {
                candidates.push(Candidate { place: m.to, arrivals: std::mem::take(&mut arrivals[m.to]) });
            }
        }
    }
    rows
}

pub fn length(rows: &[Row]) -> u64 {
    rows.iter().map(|r| r.finish).max().unwrap_or(0)
}

#[cfg(test)]
mod tests {
    use super::*;
    use crate::blocks::singles;
    use crate::job::shipped;
    use crate::machine::Kind;

    fn row(block: u64, processor: u64, start: u64, finish: u64) -> Row {
        Row { block, processor, start, finish }
    }

    #[test]
    fn by_level_and_by_number() {
        let machine = Machine::new(Kind::Bus, 2, [1, 1, 0, 0, 0, 0, 0]).unwrap();
        let rows = place(&shipped(), &machine, Priority::LevelByTime, &singles(&shipped()));
        assert_eq!(rows, [row(1, 0, 0, 4), row(3, 0, 4, 9), row(2, 1, 6, 9), row(4, 0, 11, 13)]);
        assert_eq!(length(&rows), 13);
        let rows = place(&shipped(), &machine, Priority::Number, &singles(&shipped()));
        assert_eq!(rows, [row(1, 0, 0, 4), row(2, 0, 4, 7), row(3, 0, 7, 12), row(4, 0, 12, 14)]);
    }

    #[test]
    fn time_before_level() {
        // tasks 1 and 2 are free; 1 has the greater level by its receiver 3, 2 the greater time
        let link = crate::job::Link { sender: 1, receiver: 3, size: 0 };
        let job = Job { times: vec![2, 3, 5], links: vec![link] };
        let machine = Machine::new(Kind::Bus, 1, [0; 7]).unwrap();
        let first = |priority| place(&job, &machine, priority, &singles(&job))[0].block;
        assert_eq!(first(Priority::LevelByTime), 1);
        assert_eq!(first(Priority::Number), 1);
        assert_eq!(first(Priority::TimeByLevel), 2);
    }

    #[test]
    fn one_block() {
        let machine = Machine::new(Kind::Bus, 2, [1, 1, 3, 1, 0, 1, 0]).unwrap();
        let rows = place(&shipped(), &machine, Priority::LevelByTime, &vec![1; 4]);
        assert_eq!(rows, [row(1, 0, 0, 17)]);
    }
}
