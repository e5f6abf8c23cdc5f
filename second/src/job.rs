//! Jobs: tasks and links, job words read and written, and closing.

use crate::refusal::{Refusal, GRAPH, READER};

pub const MOST_TASKS: u64 = 256;
pub const MOST_LINKS: u64 = 1024;
pub const GREATEST_TIME: u64 = 1_000_000;
pub const GREATEST_SIZE: u64 = 1_000_000;

/// A link; tasks are numbered from 1.
#[derive(Clone, Copy, PartialEq, Eq, Debug)]
pub struct Link {
    pub sender: usize,
    pub receiver: usize,
    pub size: u64,
}

/// The time of task t stands at place t - 1, link l at place l - 1.
#[derive(Clone, PartialEq, Eq, Debug, Default)]
pub struct Job {
    pub times: Vec<u64>,
    pub links: Vec<Link>,
}

impl Job {
    pub fn tasks(&self) -> usize {
        self.times.len()
    }

    pub fn words(&self) -> Vec<u32> {
        let mut newest = vec![0; self.tasks() + 1];
        let mut next = Vec::new();
        for (l, link) in self.links.iter().enumerate() {
            next.push(newest[link.sender]);
            newest[link.sender] = l as u32 + 1;
        }
        let mut words = vec![1, self.tasks() as u32, self.links.len() as u32];
        for (t, time) in self.times.iter().enumerate() {
            words.extend([*time as u32, newest[t + 1]]);
        }
        for (link, next) in self.links.iter().zip(next) {
            words.extend([link.receiver as u32, link.size as u32, next]);
        }
        words
    }

    pub fn read(words: &[u32]) -> Result<Job, Refusal> {
        let (n, e) = counts(words)?;
        let layout = Layout { words, n };
        wrong_pointer(&layout, e)?;
        not_named_once(&layout, e)?;
        let senders = layout.senders(e);
        let times: Vec<u64> = (1..=n).map(|t| layout.word(layout.time(t))).collect();
        for t in 1..=n {
            if !(1..=GREATEST_TIME).contains(&times[t - 1]) {
                return Err(Refusal::new(GRAPH, 2, 0).under(READER, layout.time(t) as u64));
            }
        }
        let mut job = Job { times, links: Vec::new() };
        for l in 1..=e {
            let receiver = layout.word(layout.receiver(l));
            let size = layout.word(layout.size(l));
            job.link(senders[l], receiver, size).map_err(|below| {
                let word = if below.number() == 6 { layout.size(l) } else { layout.receiver(l) };
                below.under(READER, word as u64)
            })?;
        }
        Ok(job)
    }

    /// Linking, the sender being a task and there being room.
    fn link(&mut self, sender: usize, receiver: u64, size: u64) -> Result<(), Refusal> {
        if receiver < 1 || receiver > self.tasks() as u64 {
            return Err(Refusal::new(GRAPH, 4, receiver));
        }
        let receiver = receiver as usize;
        if sender == receiver {
            return Err(Refusal::new(GRAPH, 5, sender as u64));
        }
        if size > GREATEST_SIZE {
            return Err(Refusal::new(GRAPH, 6, 0));
        }
        if let Some(older) = self.links.iter().position(|k| k.sender == sender && k.receiver == receiver) {
            return Err(Refusal::new(GRAPH, 7, older as u64 + 1));
        }
        self.links.push(Link { sender, receiver, size });
        Ok(())
    }

    /// The receivers of each task, by task number.
    pub fn receivers(&self) -> Vec<Vec<usize>> {
        let mut all = vec![Vec::new(); self.tasks() + 1];
        for link in &self.links {
            all[link.sender].push(link.receiver);
        }
        all
    }

    /// Closing: refused without a task, or with the least task that reaches itself.
    pub fn close(&self) -> Result<(), Refusal> {
        if self.tasks() == 0 {
            return Err(Refusal::new(GRAPH, 9, 0));
        }
        let receivers = self.receivers();
        for t in 1..=self.tasks() {
            if returns(&receivers, t) {
                return Err(Refusal::new(GRAPH, 10, t as u64));
            }
        }
        Ok(())
    }
}

/// Whether a walk over one or more links leads from a task back to it.
fn returns(receivers: &[Vec<usize>], task: usize) -> bool {
    let mut seen = vec![false; receivers.len()];
    let mut open = vec![task];
    while let Some(at) = open.pop() {
        for &to in &receivers[at] {
            if !seen[to] {
                seen[to] = true;
                open.push(to);
            }
        }
    }
    seen[task]
}

/// Where the words of tasks and links stand, by task and link number.
struct Layout<'a> {
    words: &'a [u32],
    n: usize,
}

impl Layout<'_> {
    fn word(&self, at: usize) -> u64 {
        u64::from(self.words[at])
    }

    fn time(&self, t: usize) -> usize {
        2 * t + 1
    }

    fn newest(&self, t: usize) -> usize {
        2 * t + 2
    }

    fn receiver(&self, l: usize) -> usize {
        2 * self.n + 3 * l
    }

    fn size(&self, l: usize) -> usize {
        2 * self.n + 3 * l + 1
    }

    fn next(&self, l: usize) -> usize {
        2 * self.n + 3 * l + 2
    }

    /// The sender of each link, by link number: each task's list is walked.
    fn senders(&self, e: usize) -> Vec<usize> {
        let mut senders = vec![0; e + 1];
        for t in 1..=self.n {
            let mut l = self.word(self.newest(t)) as usize;
            while l != 0 {
                senders[l] = t;
                l = self.word(self.next(l)) as usize;
            }
        }
        senders
    }
}

fn counts(words: &[u32]) -> Result<(usize, usize), Refusal> {
    let refused = |number, place| Err(Refusal::new(READER, number, place));
    let count = words.len() as u64;
    if count < 3 {
        return refused(19, count);
    }
    if words[0] != 1 {
        return refused(20, 0);
    }
    let (n, e) = (u64::from(words[1]), u64::from(words[2]));
    if n > MOST_TASKS {
        return refused(21, 1);
    }
    if e > MOST_LINKS {
        return refused(21, 2);
    }
    if count != 3 + 2 * n + 3 * e {
        return refused(22, count);
    }
    Ok((n as usize, e as usize))
}

fn wrong_pointer(layout: &Layout, e: usize) -> Result<(), Refusal> {
    let refused = |at: usize| Err(Refusal::new(READER, 23, at as u64));
    for t in 1..=layout.n {
        if layout.word(layout.newest(t)) > e as u64 {
            return refused(layout.newest(t));
        }
    }
    for l in 1..=e {
        if layout.word(layout.next(l)) >= l as u64 {
            return refused(layout.next(l));
        }
    }
    Ok(())
}

fn not_named_once(layout: &Layout, e: usize) -> Result<(), Refusal> {
    let mut named = vec![0; e + 1];
    for t in 1..=layout.n {
        named[layout.word(layout.newest(t)) as usize] += 1;
    }
    for l in 1..=e {
        named[layout.word(layout.next(l)) as usize] += 1;
    }
    for l in 1..=e {
        if named[l] != 1 {
            return Err(Refusal::new(READER, 24, layout.receiver(l) as u64));
        }
    }
    Ok(())
}

/// The job that the documents work through.
pub fn shipped() -> Job {
    let link = |sender, receiver, size| Link { sender, receiver, size };
    Job { times: vec![4, 3, 5, 2], links: vec![link(1, 2, 1), link(1, 3, 2), link(2, 4, 1), link(3, 4, 1)] }
}

#[cfg(test)]
mod tests {
    use super::*;

    const WORDS: [u32; 23] = [1, 4, 4, 4, 2, 3, 3, 5, 4, 2, 0, 2, 1, 0, 3, 2, 1, 4, 1, 0, 4, 1, 0];

    fn damaged(at: usize, to: u32) -> Vec<(u64, u64, u64)> {
        let mut words = WORDS;
        words[at] = to;
        let job = Job::read(&words);
        let refusal = job.and_then(|job| job.close()).unwrap_err();
        refusal.0.iter().map(|t| (t.layer, t.number, t.place)).collect()
    }

    #[test]
    fn shipped_words() {
        assert_eq!(shipped().words(), WORDS);
        assert_eq!(Job::read(&WORDS).unwrap(), shipped());
        assert!(shipped().close().is_ok());
    }

    #[test]
    fn lengths() {
        assert_eq!(Job::read(&[]).unwrap_err(), Refusal::new(2, 19, 0));
        assert_eq!(Job::read(&WORDS[..2]).unwrap_err(), Refusal::new(2, 19, 2));
        assert_eq!(Job::read(&WORDS[..22]).unwrap_err(), Refusal::new(2, 22, 22));
        let longer: Vec<u32> = WORDS.into_iter().chain([0]).collect();
        assert_eq!(Job::read(&longer).unwrap_err(), Refusal::new(2, 22, 24));
    }

    #[test]
    fn damages() {
        assert_eq!(damaged(0, 2), [(2, 20, 0)]);
        assert_eq!(damaged(1, 257), [(2, 21, 1)]);
        assert_eq!(damaged(2, 1025), [(2, 21, 2)]);
        assert_eq!(damaged(4, 5), [(2, 23, 4)]);
        assert_eq!(damaged(13, 1), [(2, 23, 13)]);
        assert_eq!(damaged(4, 0), [(2, 24, 14)]);
        assert_eq!(damaged(10, 1), [(2, 24, 11)]);
        assert_eq!(damaged(3, 0), [(2, 2, 3), (1, 2, 0)]);
        assert_eq!(damaged(3, 1_000_001), [(2, 2, 3), (1, 2, 0)]);
        assert_eq!(damaged(11, 9), [(2, 4, 11), (1, 4, 9)]);
        assert_eq!(damaged(11, 1), [(2, 5, 11), (1, 5, 1)]);
        assert_eq!(damaged(12, 1_000_001), [(2, 6, 12), (1, 6, 0)]);
        assert_eq!(damaged(14, 2), [(2, 7, 14), (1, 7, 1)]);
        assert_eq!(damaged(20, 1), [(1, 10, 1)]);
    }

    #[test]
    fn times_come_before_receivers() {
        let mut words = WORDS;
        words[11] = 9;
        words[9] = 0;
        assert_eq!(Job::read(&words).unwrap_err(), Refusal::new(1, 2, 0).under(2, 9));
    }

    #[test]
    fn no_task() {
        assert_eq!(Job::read(&[1, 0, 0]).unwrap().close().unwrap_err(), Refusal::new(1, 9, 0));
        assert_eq!(Job::read(&[1, 0, 1, 1, 0, 0]).unwrap_err(), Refusal::new(2, 24, 3));
    }

    #[test]
    fn leading_into_a_circle_is_not_lying_on_it() {
        let link = |sender, receiver| Link { sender, receiver, size: 0 };
        let job = Job { times: vec![1; 3], links: vec![link(1, 2), link(2, 3), link(3, 2)] };
        assert_eq!(job.close().unwrap_err(), Refusal::new(1, 10, 2));
        let pair = Job { times: vec![1; 2], links: vec![link(1, 2), link(2, 1)] };
        assert_eq!(pair.close().unwrap_err(), Refusal::new(1, 10, 1));
    }
}
