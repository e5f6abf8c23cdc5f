//! Dividing: the partitions met, and the earliest cheapest of them.

use crate::blocks::{Blocks, Partition, Scratch};
use crate::job::Job;
use crate::machine::Machine;

#[derive(Clone, PartialEq, Eq, Debug)]
pub struct Met {
    pub partition: Partition,
    pub cost: u64,
}

/// All partitions met, from the one that stands to one block.
pub fn partitions_met(job: &Job, machine: &Machine, start: Partition) -> Vec<Met> {
    let mut scratch = Scratch::default();
    let mut blocks = Blocks::new(job, machine, &start);
    let mut all = vec![Met { cost: blocks.cost(&mut scratch), partition: start }];
    while blocks.count() > 1 {
        let present = &all[all.len() - 1].partition;
        let next = next_partition(&blocks, present, &mut scratch);
        blocks = Blocks::new(job, machine, &next.partition);
        all.push(next);
    }
    all
}

fn next_partition(blocks: &Blocks, present: &Partition, scratch: &mut Scratch) -> Met {
    let overheads = blocks.overheads();
    let mut taken = 0;
    for i in 1..blocks.count() {
        if overheads[i] > overheads[taken] {
            taken = i;
        }
    }
    let reach = blocks.reach();
    let mut best = None;
    for partner in (0..blocks.count()).filter(|&i| i != taken) {
        let united = reach.united(taken, partner);
        let cost = blocks.cost_joined(&united, scratch);
        if best.as_ref().map_or(true, |&(least, _)| cost < least) {
            best = Some((cost, united));
        }
    }
    let (cost, united) = best.expect("there is another block");
    Met { partition: blocks.joined(present, &united), cost }
}

/// The earliest partition met with the least cost.
pub fn divide(job: &Job, machine: &Machine, start: Partition) -> Met {
    earliest_cheapest(partitions_met(job, machine, start))
}

pub fn earliest_cheapest(met: Vec<Met>) -> Met {
    let least = met.iter().map(|m| m.cost).min();
    met.into_iter().find(|m| Some(m.cost) == least).expect("the start is met")
}

#[cfg(test)]
mod tests {
    use super::*;
    use crate::blocks::{join, singles};
    use crate::job::{shipped, Link};
    use crate::machine::Kind;

    fn bus(figures: [u64; 7]) -> Machine {
        Machine::new(Kind::Bus, 2, figures).unwrap()
    }

    fn met(job: &Job, machine: &Machine) -> Vec<(u64, Partition)> {
        partitions_met(job, machine, singles(job)).into_iter().map(|m| (m.cost, m.partition)).collect()
    }

    #[test]
    fn free_handling_stays_at_four_blocks() {
        let machine = bus([1, 1, 0, 0, 0, 0, 0]);
        let expected = [(22, vec![1, 2, 3, 4]), (28, vec![1, 1, 3, 4]), (28, vec![1, 1, 1, 4]), (28, vec![1, 1, 1, 1])];
        assert_eq!(met(&shipped(), &machine), expected);
        assert_eq!(divide(&shipped(), &machine, singles(&shipped())).cost, 22);
    }

    #[test]
    fn paid_handling_makes_one_block() {
        let machine = bus([1, 1, 3, 1, 0, 1, 0]);
        assert_eq!(met(&shipped(), &machine), [(52, vec![1, 2, 3, 4]), (34, vec![1, 1, 1, 1])]);
        let result = divide(&shipped(), &machine, singles(&shipped()));
        assert_eq!(result, Met { partition: vec![1, 1, 1, 1], cost: 34 });
    }

    #[test]
    fn equal_costs_keep_the_earliest() {
        // on one processor without handling every partition costs the sum of all times
        let machine = Machine::new(Kind::Bus, 1, [0; 7]).unwrap();
        let result = divide(&shipped(), &machine, singles(&shipped()));
        assert_eq!(result, Met { partition: vec![1, 2, 3, 4], cost: 14 });
    }

    #[test]
    fn starts_from_the_blocks_that_stand() {
        let machine = bus([1, 1, 0, 0, 0, 0, 0]);
        let start = join(&shipped(), &machine, &singles(&shipped()), 2, 3);
        let all = partitions_met(&shipped(), &machine, start.clone());
        assert_eq!(all[0], Met { partition: start, cost: 28 });
        assert_eq!(all.last().unwrap().partition, [1, 1, 1, 1]);
    }

    #[test]
    fn greatest_overhead_is_taken_by_messages_and_not_by_times() {
        // task 3 has the most messages, task 1 the greatest time; 3 goes with 1 or 2 at the same cost, so with 1
        let link = |sender, receiver| Link { sender, receiver, size: 0 };
        let job = Job { times: vec![50, 50, 1], links: vec![link(1, 3), link(2, 3)] };
        let machine = bus([0, 0, 0, 10, 0, 10, 0]);
        let all = met(&job, &machine);
        // 1: 60, 2: 60, 3: 21, chain 81, work 141; joined {1,3} = 61, 2 = 60: chain 121, work 121
        assert_eq!(all[0], (162, vec![1, 2, 3]));
        assert_eq!(all[1], (242, vec![1, 2, 1]));
    }
}
