//! Blocks on a machine: messages, overheads, block times, levels, cost, delay chain, reach and joining.
//!
//! A partition is a list of block numbers by task: the block of task t stands at place t - 1. Inside, the blocks
//! of one partition have places 0, 1, .. in ascending order of their numbers.

use crate::job::Job;
use crate::machine::Machine;

pub type Partition = Vec<usize>;

/// Every task a block of its own.
pub fn singles(job: &Job) -> Partition {
    (1..=job.tasks()).collect()
}

#[derive(Clone, Copy, Debug)]
pub struct Message {
    pub from: usize,
    pub to: usize,
    pub size: u64,
    pub reading: u64,
    pub writing: u64,
}

/// The blocks of one partition on one machine. Messages stand sorted by sender.
pub struct Blocks {
    pub numbers: Vec<usize>,
    task_times: Vec<u64>,
    messages: Vec<Message>,
    first: Vec<usize>,
    starting: u64,
    processors: u64,
}

/// A set of places.
#[derive(Clone, Copy, PartialEq, Eq, Debug, Default)]
pub struct Set([u64; 4]);

impl Set {
    pub fn has(&self, place: usize) -> bool {
        self.0[place / 64] >> (place % 64) & 1 == 1
    }

    fn add(&mut self, place: usize) {
        self.0[place / 64] |= 1 << (place % 64);
    }

    fn unite(&mut self, other: &Set) {
        for (a, b) in self.0.iter_mut().zip(other.0) {
            *a |= b;
        }
    }

    fn common(&self, other: &Set) -> Set {
        let mut both = *self;
        for (a, b) in both.0.iter_mut().zip(other.0) {
            *a &= b;
        }
        both
    }
}

/// For each place the places that it reaches by steps, and those that reach it; itself among both.
pub struct Reach {
    down: Vec<Set>,
    up: Vec<Set>,
}

impl Reach {
    /// Two places and all places between them, in either direction.
    pub fn united(&self, a: usize, b: usize) -> Set {
        let mut all = self.down[a].common(&self.up[b]);
        all.unite(&self.down[b].common(&self.up[a]));
        all.add(a);
        all.add(b);
        all
    }
}

/// What one evaluation of a cost writes to, kept from one to the next.
#[derive(Default)]
pub struct Scratch {
    group: Vec<usize>,
    others: Vec<usize>,
    times: Vec<u64>,
    before: Vec<u64>,
    entering: Vec<u32>,
    ready: Vec<usize>,
}

impl Blocks {
    pub fn new(job: &Job, machine: &Machine, partition: &Partition) -> Blocks {
        let mut place = vec![usize::MAX; job.tasks() + 1];
        let mut numbers = Vec::new();
        let mut task_times = Vec::new();
        for (t, &block) in partition.iter().enumerate() {
            // a block's number is its least task number, so it is met first
            if block == t + 1 {
                place[block] = numbers.len();
                numbers.push(block);
                task_times.push(0);
            }
            task_times[place[block]] += job.times[t];
        }
        let mut messages = Vec::new();
        for link in &job.links {
            let (from, to) = (place[partition[link.sender - 1]], place[partition[link.receiver - 1]]);
            if from != to {
                let (reading, writing) = (machine.reading(link.size), machine.writing(link.size));
                messages.push(Message { from, to, size: link.size, reading, writing });
            }
        }
        messages.sort_by_key(|m| m.from);
        let mut first = vec![0; numbers.len() + 1];
        for m in &messages {
            first[m.from + 1] += 1;
        }
        for i in 0..numbers.len() {
            first[i + 1] += first[i];
        }
        Blocks { numbers, task_times, messages, first, starting: machine.starting(), processors: machine.processors() }
    }

    pub fn count(&self) -> usize {
        self.numbers.len()
    }

    pub fn all_messages(&self) -> &[Message] {
        &self.messages
    }

    /// The messages that a block sends.
    pub fn messages(&self, place: usize) -> &[Message] {
        &self.messages[self.first[place]..self.first[place + 1]]
    }

    pub fn overheads(&self) -> Vec<u64> {
        let mut all = vec![self.starting; self.count()];
        for m in &self.messages {
            all[m.from] += m.writing;
            all[m.to] += m.reading;
        }
        all
    }

    pub fn times(&self) -> Vec<u64> {
        self.overheads().iter().zip(&self.task_times).map(|(overhead, tasks)| overhead + tasks).collect()
    }

    /// The places in an order in which every message goes forward.
    pub fn processing_order(&self) -> Vec<usize> {
        let mut entering = vec![0; self.count()];
        for m in &self.messages {
            entering[m.to] += 1;
        }
        let mut order: Vec<usize> = (0..self.count()).filter(|&i| entering[i] == 0).collect();
        let mut done = 0;
        while done < order.len() {
            for m in self.messages(order[done]) {
                entering[m.to] -= 1;
                if entering[m.to] == 0 {
                    order.push(m.to);
                }
            }
            done += 1;
        }
        assert_eq!(order.len(), self.count(), "the blocks run in a circle");
        order
    }

    /// The greatest sum of block times over chains that begin with each block.
    pub fn levels(&self) -> Vec<u64> {
        let times = self.times();
        let mut levels = vec![0; self.count()];
        for &i in self.processing_order().iter().rev() {
            let further = self.messages(i).iter().map(|m| levels[m.to]).max().unwrap_or(0);
            levels[i] = times[i] + further;
        }
        levels
    }

    /// The greatest sum of step costs over chains. A step costs what its dearest message does, so the messages can be
    /// taken one by one.
    pub fn delay_chain(&self, machine: &Machine) -> u64 {
        let hops = machine.greatest_hops();
        let mut chains = vec![0; self.count()];
        for &i in self.processing_order().iter().rev() {
            let sums = self.messages(i).iter().map(|m| machine.greatest_delay(hops, m.size) + chains[m.to]);
            chains[i] = sums.max().unwrap_or(0);
        }
        chains.into_iter().max().unwrap_or(0)
    }

    pub fn reach(&self) -> Reach {
        let order = self.processing_order();
        let mut down = vec![Set::default(); self.count()];
        for &i in order.iter().rev() {
            let mut set = Set::default();
            set.add(i);
            for m in self.messages(i) {
                set.unite(&down[m.to]);
            }
            down[i] = set;
        }
        let mut up = vec![Set::default(); self.count()];
        for (i, set) in down.iter().enumerate() {
            (0..self.count()).filter(|&j| set.has(j)).for_each(|j| up[j].add(i));
        }
        Reach { down, up }
    }

    /// The cost of these blocks.
    pub fn cost(&self, scratch: &mut Scratch) -> u64 {
        self.cost_joined(&Set::default(), scratch)
    }

    /// The cost of these blocks once a set of them is one block: the larger of P times the critical path and the work.
    pub fn cost_joined(&self, united: &Set, scratch: &mut Scratch) -> u64 {
        let Scratch { group, others, times, before, entering, ready } = scratch;
        let count = self.count();
        // each block's group is named by one place; the united ones by the first of them
        group.clear();
        others.clear();
        let mut head = None;
        for i in 0..count {
            let of = if united.has(i) { *head.get_or_insert(i) } else { i };
            if of != i {
                others.push(i);
            }
            group.push(of);
        }
        times.clear();
        times.resize(count, 0);
        before.clear();
        before.resize(count, 0);
        entering.clear();
        entering.resize(count, 0);
        for i in 0..count {
            times[group[i]] += self.task_times[i] + if group[i] == i { self.starting } else { 0 };
        }
        for m in &self.messages {
            let (from, to) = (group[m.from], group[m.to]);
            if from != to {
                times[from] += m.writing;
                times[to] += m.reading;
                entering[to] += 1;
            }
        }
        ready.clear();
        ready.extend((0..count).filter(|&i| group[i] == i && entering[i] == 0));
        let (mut work, mut critical, mut done) = (0, 0, 0);
        while let Some(g) = ready.pop() {
            // the greatest sum over chains that end here
            let sum = before[g] + times[g];
            critical = critical.max(sum);
            work += times[g];
            done += 1;
            let more = if head == Some(g) { others.as_slice() } else { &[] };
            for &i in [g].iter().chain(more) {
                for m in self.messages(i) {
                    let to = group[m.to];
                    if to != g {
                        before[to] = before[to].max(sum);
                        entering[to] -= 1;
                        if entering[to] == 0 {
                            ready.push(to);
                        }
                    }
                }
            }
        }
        assert_eq!(done + others.len(), count, "the blocks run in a circle");
        work.max(self.processors * critical)
    }

    /// The partition once a set of these blocks is one block.
    pub fn joined(&self, partition: &Partition, united: &Set) -> Partition {
        let number = (0..self.count()).filter(|&i| united.has(i)).map(|i| self.numbers[i]).min();
        let is_united = |block: usize| united.has(self.numbers.binary_search(&block).unwrap());
        partition.iter().map(|&block| if is_united(block) { number.unwrap() } else { block }).collect()
    }
}

/// The partition once the blocks of two tasks are joined, with all blocks between them.
pub fn join(job: &Job, machine: &Machine, partition: &Partition, a: usize, b: usize) -> Partition {
    let blocks = Blocks::new(job, machine, partition);
    let place = |task: usize| blocks.numbers.binary_search(&partition[task - 1]).unwrap();
    blocks.joined(partition, &blocks.reach().united(place(a), place(b)))
}

#[cfg(test)]
mod tests {
    use std::collections::HashSet;

    use super::*;
    use crate::job::{shipped, Link};
    use crate::machine::Kind;

    fn bus(figures: [u64; 7]) -> Machine {
        Machine::new(Kind::Bus, 2, figures).unwrap()
    }

    fn cost(machine: &Machine, partition: &Partition) -> u64 {
        Blocks::new(&shipped(), machine, partition).cost(&mut Scratch::default())
    }

    #[test]
    fn free_handling() {
        let machine = bus([1, 1, 0, 0, 0, 0, 0]);
        let blocks = Blocks::new(&shipped(), &machine, &singles(&shipped()));
        assert_eq!(blocks.overheads(), [0, 0, 0, 0]);
        assert_eq!(blocks.times(), [4, 3, 5, 2]);
        assert_eq!(blocks.levels(), [11, 5, 7, 2]);
        assert_eq!(blocks.delay_chain(&machine), 5);
        assert_eq!(cost(&machine, &vec![1, 2, 3, 4]), 22);
        assert_eq!(cost(&machine, &vec![1, 1, 3, 4]), 28);
    }

    #[test]
    fn paid_handling() {
        let machine = bus([1, 1, 3, 1, 0, 1, 0]);
        let blocks = Blocks::new(&shipped(), &machine, &singles(&shipped()));
        assert_eq!(blocks.overheads(), [5, 5, 5, 5]);
        assert_eq!(cost(&machine, &vec![1, 2, 3, 4]), 52);
        for partition in [vec![1, 1, 3, 4], vec![1, 2, 1, 4], vec![1, 2, 3, 2], vec![1, 2, 3, 3]] {
            assert_eq!(cost(&machine, &partition), 58);
        }
        assert_eq!(cost(&machine, &vec![1, 1, 1, 1]), 34);
    }

    #[test]
    fn joining_takes_in_what_lies_between() {
        let (job, machine) = (shipped(), bus([0; 7]));
        assert_eq!(join(&job, &machine, &singles(&job), 1, 4), [1, 1, 1, 1]);
        assert_eq!(join(&job, &machine, &singles(&job), 4, 1), [1, 1, 1, 1]);
        assert_eq!(join(&job, &machine, &singles(&job), 3, 2), [1, 2, 2, 4]);
        assert_eq!(join(&job, &machine, &singles(&job), 4, 2), [1, 2, 3, 2]);
    }

    #[test]
    fn paths_go_over_blocks() {
        // 3 → 1 and 2 → 4; with 1 and 2 in one block, it lies between 3 and 4 though no task walk goes through
        let link = |sender, receiver| Link { sender, receiver, size: 0 };
        let job = Job { times: vec![1; 4], links: vec![link(3, 1), link(2, 4)] };
        let machine = bus([0; 7]);
        let pair = join(&job, &machine, &singles(&job), 1, 2);
        assert_eq!(pair, [1, 1, 3, 4]);
        assert_eq!(join(&job, &machine, &pair, 3, 4), [1, 1, 1, 1]);
        assert_eq!(join(&job, &machine, &singles(&job), 3, 4), [1, 2, 3, 3]);
    }

    #[test]
    fn one_evaluation_equals_the_other() {
        // the cost of a joined set is the cost of the joined partition
        let machine = Machine::new(Kind::Cube, 8, [3, 2, 7, 5, 1, 4, 2]).unwrap();
        let mut random = crate::random::Random::new(1);
        for _ in 0..50 {
            let job = crate::generate::random_job(&mut random, 12, 20);
            let partition = join(&job, &machine, &singles(&job), 1, 2);
            let blocks = Blocks::new(&job, &machine, &partition);
            let reach = blocks.reach();
            for a in 0..blocks.count() {
                for b in 0..a {
                    let set = reach.united(a, b);
                    let then = Blocks::new(&job, &machine, &blocks.joined(&partition, &set));
                    let direct = {
                        let critical = then.levels().into_iter().max().unwrap();
                        (8 * critical).max(then.times().iter().sum())
                    };
                    assert_eq!(blocks.cost_joined(&set, &mut Scratch::default()), direct);
                    assert_eq!(then.cost(&mut Scratch::default()), direct);
                }
            }
        }
    }

    /// Whether the blocks run in no circle once a set of them, as bits by place, is one block.
    fn acyclic(blocks: &Blocks, set: u32) -> bool {
        let group = |i: usize| if set >> i & 1 == 1 { usize::MAX } else { i };
        let mut steps: HashSet<(usize, usize)> =
            blocks.all_messages().iter().map(|m| (group(m.from), group(m.to))).filter(|(a, b)| a != b).collect();
        while !steps.is_empty() {
            let receivers: HashSet<usize> = steps.iter().map(|s| s.1).collect();
            let before = steps.len();
            steps.retain(|s| receivers.contains(&s.0));
            if steps.len() == before {
                return false;
            }
        }
        true
    }

    #[test]
    fn joining_is_the_least_acyclic_union() {
        let machine = bus([0; 7]);
        let mut random = crate::random::Random::new(2);
        for _ in 0..100 {
            let job = crate::generate::random_job(&mut random, 7, 9);
            let partition = join(&job, &machine, &singles(&job), 1, 2);
            let blocks = Blocks::new(&job, &machine, &partition);
            let reach = blocks.reach();
            for a in 0..blocks.count() {
                for b in 0..a {
                    let united = reach.united(a, b);
                    let bits = (0..blocks.count()).filter(|&i| united.has(i)).fold(0, |s, i| s | 1 << i);
                    assert!(acyclic(&blocks, bits));
                    let both = 1 << a | 1 << b;
                    for set in (0..1u32 << blocks.count()).filter(|set| set & both == both) {
                        assert!(!acyclic(&blocks, set) || set & bits == bits);
                    }
                }
            }
        }
    }
}
