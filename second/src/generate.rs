//! Inputs for the comparison and the benchmark: shapes of jobs, machines, and damages of every kind.
//! Everything follows from fixed seeds.

use std::collections::HashSet;

use crate::job::{Job, Link};
use crate::machine::LIMITS;
use crate::plan::bytes_of;
use crate::random::Random;

// ---------------------------------------------------------------- shapes of jobs

/// How times and sizes are drawn.
#[derive(Clone, Copy)]
pub enum Weights {
    /// all times equal, all sizes equal
    Equal,
    /// 1 to 5, so that many are equal
    Small,
    /// the usual range of an office
    Middle,
    /// anything within the limits
    Wide,
    /// the limits themselves
    Limits,
}

const WEIGHTS: [Weights; 5] = [Weights::Equal, Weights::Small, Weights::Middle, Weights::Wide, Weights::Limits];

/// A job under construction: times and sizes are drawn at the end.
struct Shape {
    tasks: usize,
    links: Vec<(usize, usize)>,
    known: HashSet<(usize, usize)>,
}

impl Shape {
    fn new(tasks: usize) -> Shape {
        Shape { tasks, links: Vec::new(), known: HashSet::new() }
    }

    /// Adds a link unless the pair is linked or there is no room.
    fn link(&mut self, from: usize, to: usize) {
        if self.links.len() < 1024 && self.known.insert((from, to)) {
            self.links.push((from, to));
        }
    }

    fn job(self, random: &mut Random, weights: Weights) -> Job {
        let equal = (random.range(1, 9), random.range(0, 9));
        let mut draw = |least: u64| match weights {
            Weights::Equal => [equal.1, equal.0][least as usize],
            Weights::Small => random.range(least, 5),
            Weights::Middle => random.range(least, 1000),
            Weights::Wide => random.range(least, 1_000_000),
            Weights::Limits => random.pick(&[least, least + 1, 999_999, 1_000_000]),
        };
        let times = (0..self.tasks).map(|_| draw(1)).collect();
        let links = self.links.iter().map(|&(sender, receiver)| Link { sender, receiver, size: draw(0) });
        Job { times, links: links.collect() }
    }
}

/// The same job with its tasks numbered otherwise and its links in another order.
pub fn shuffled(random: &mut Random, job: &Job) -> Job {
    let mut name: Vec<usize> = (1..=job.tasks()).collect();
    random.shuffle(&mut name);
    let mut times = vec![0; job.tasks()];
    for (t, time) in job.times.iter().enumerate() {
        times[name[t] - 1] = *time;
    }
    let rename = |l: &Link| Link { sender: name[l.sender - 1], receiver: name[l.receiver - 1], size: l.size };
    let mut links: Vec<Link> = job.links.iter().map(rename).collect();
    random.shuffle(&mut links);
    Job { times, links }
}

fn random_shape(random: &mut Random, tasks: usize, links: usize) -> Shape {
    let mut shape = Shape::new(tasks);
    let room = tasks * (tasks - 1) / 2;
    while shape.links.len() < links.min(room) {
        let (a, b) = (1 + random.index(tasks), 1 + random.index(tasks));
        if a < b {
            shape.link(a, b);
        }
    }
    shape
}

fn layered_shape(random: &mut Random, tasks: usize, width: usize, links: usize) -> Shape {
    let mut shape = Shape::new(tasks);
    let layer = |t: usize| (t - 1) / width;
    for _ in 0..4 * links {
        if shape.links.len() >= links {
            break;
        }
        let from = 1 + random.index(tasks);
        let gap = if random.once_in(5) { 2 } else { 1 };
        let first = (layer(from) + gap) * width + 1;
        let to = first + random.index(width);
        if to <= tasks {
            shape.link(from, to);
        }
    }
    shape
}

/// One task to many, many to one, or both.
fn fan_shape(random: &mut Random, tasks: usize) -> Shape {
    let mut shape = Shape::new(tasks);
    let kind = random.below(3);
    for t in 2..tasks {
        if kind != 1 {
            shape.link(1, t);
        }
        if kind != 0 {
            shape.link(t, tasks);
        }
    }
    shape
}

/// Two rails with rungs between them; with `across`, crossed rungs too, about four links for two tasks.
fn ladder_shape(tasks: usize, across: bool) -> Shape {
    let mut shape = Shape::new(tasks);
    for t in 1..=tasks {
        if t + 2 <= tasks {
            shape.link(t, t + 2);
        }
        if t + 1 <= tasks && t % 2 == 1 {
            shape.link(t, t + 1);
        }
        if across && t % 2 == 1 && t + 3 <= tasks {
            shape.link(t, t + 3);
        }
    }
    shape
}

fn chain_shape(tasks: usize, skips: bool) -> Shape {
    let mut shape = Shape::new(tasks);
    for t in 1..tasks {
        shape.link(t, t + 1);
        if skips && t + 3 <= tasks {
            shape.link(t, t + 3);
        }
    }
    shape
}

/// A survey's traverse: at each of 13 stations angles and a distance are reduced and give coordinates, which the next
/// station needs; at the end all are adjusted. 40 tasks; several copies, one after the other or side by side.
fn traverse_shape(copies: usize, in_turn: bool) -> Shape {
    let mut shape = Shape::new(40 * copies);
    for copy in 0..copies {
        let base = 40 * copy;
        let adjust = base + 40;
        for station in 0..13 {
            let angles = base + 3 * station + 1;
            let (distance, coordinates) = (angles + 1, angles + 2);
            shape.link(angles, coordinates);
            shape.link(distance, coordinates);
            shape.link(angles, adjust);
            let next = if station < 12 { coordinates + 3 } else { adjust };
            shape.link(coordinates, next);
        }
        if in_turn && copy + 1 < copies {
            shape.link(adjust, adjust + 3);
        }
    }
    shape
}

pub fn random_job(random: &mut Random, tasks: usize, links: usize) -> Job {
    let job = random_shape(random, tasks, links).job(random, Weights::Small);
    shuffled(random, &job)
}

/// The shapes of the benchmark, for a number of tasks.
pub fn bench_jobs(tasks: usize) -> Vec<(&'static str, Job)> {
    let random = &mut Random::new(tasks as u64);
    let finish = |shape: Shape, random: &mut Random| {
        let job = shape.job(random, Weights::Middle);
        shuffled(random, &job)
    };
    let layered = layered_shape(random, tasks, 16, 4 * tasks);
    let layered = finish(layered, random);
    let any = random_shape(random, tasks, 4 * tasks);
    let any = finish(any, random);
    let ladder = finish(ladder_shape(tasks, true), random);
    let chain = finish(chain_shape(tasks, true), random);
    let fan = fan_shape(&mut Random::new(2), tasks);
    let fan = finish(fan, random);
    vec![("layered", layered), ("random", any), ("ladder", ladder), ("chain", chain), ("fan", fan)]
}

// ---------------------------------------------------------------- machines and whole inputs

/// The ten words in front: kind, P, seven figures, order.
type Front = [u32; 10];

fn processors(random: &mut Random, kind: u32) -> u32 {
    match kind {
        2 => random.pick(&[1, 2, 4, 8, 16, 32]),
        _ => random.pick(&[1, 2, 2, 3, 4, 5, 7, 8, 17, 31, 32]),
    }
}

fn front(random: &mut Random, figures: [u64; 7]) -> Front {
    let kind = random.pick(&[1, 2]);
    let mut words = [kind, processors(random, kind), 0, 0, 0, 0, 0, 0, 0, random.pick(&[1, 2, 3])];
    for (word, figure) in words[2..9].iter_mut().zip(figures) {
        *word = figure as u32;
    }
    words
}

fn any_front(random: &mut Random) -> Front {
    let small = [3, 2, 4, 3, 2, 3, 2];
    let middle = [100, 9, 500, 50, 5, 50, 5];
    let mut figures = [0; 7];
    let style = random.below(5);
    for i in 0..7 {
        figures[i] = match style {
            0 => 0,
            1 => random.range(0, small[i]),
            2 => random.range(0, middle[i]),
            3 => random.range(0, LIMITS[i]),
            // delays without handling, as in the worked job
            _ => if i < 2 { random.range(0, small[i]) } else { 0 },
        };
    }
    front(random, figures)
}

fn limit_front(random: &mut Random) -> Front {
    let mut figures = LIMITS;
    for figure in &mut figures {
        if random.once_in(4) {
            *figure = random.pick(&[0, 1, *figure - 1]);
        }
    }
    let mut words = front(random, figures);
    if random.once_in(2) {
        words[1] = random.pick(&[1, 32]);
    }
    words
}

fn input(front: Front, job: &Job) -> Vec<u8> {
    bytes_of(&words(front, job))
}

fn words(front: Front, job: &Job) -> Vec<u32> {
    front.iter().copied().chain(job.words()).collect()
}

fn finished(random: &mut Random, shape: Shape) -> Vec<u8> {
    let weights = random.pick(&WEIGHTS);
    weighed(random, shape, weights)
}

fn weighed(random: &mut Random, shape: Shape, weights: Weights) -> Vec<u8> {
    let job = shape.job(random, weights);
    let job = if random.once_in(4) { job } else { shuffled(random, &job) };
    input(any_front(random), &job)
}

fn small_shape(random: &mut Random, least: u64, most: u64) -> Shape {
    let tasks = random.range(least, most) as usize;
    let links = random.range(0, 3 * tasks as u64) as usize;
    random_shape(random, tasks, links)
}

// ---------------------------------------------------------------- kinds of inputs that are planned

fn tiny(random: &mut Random) -> Vec<u8> {
    let shape = small_shape(random, 1, 5);
    let weights = random.pick(&[Weights::Equal, Weights::Small, Weights::Small, Weights::Limits]);
    weighed(random, shape, weights)
}

fn small(random: &mut Random) -> Vec<u8> {
    let shape = small_shape(random, 6, 16);
    finished(random, shape)
}

fn ties(random: &mut Random) -> Vec<u8> {
    let shape = match random.below(4) {
        0 => small_shape(random, 4, 12),
        1 => fan_shape(random, 9),
        2 => ladder_shape(10, random.once_in(2)),
        _ => layered_shape(random, 12, 3, 20),
    };
    weighed(random, shape, Weights::Equal)
}

fn layered(random: &mut Random) -> Vec<u8> {
    let tasks = random.range(6, 40) as usize;
    let width = random.range(1, 8) as usize;
    let shape = layered_shape(random, tasks, width, 3 * tasks);
    finished(random, shape)
}

fn fan(random: &mut Random) -> Vec<u8> {
    let tasks = random.range(3, 30) as usize;
    let shape = fan_shape(random, tasks);
    finished(random, shape)
}

fn ladder(random: &mut Random) -> Vec<u8> {
    let shape = ladder_shape(random.range(2, 30) as usize, random.once_in(2));
    finished(random, shape)
}

fn chain(random: &mut Random) -> Vec<u8> {
    let shape = chain_shape(random.range(1, 30) as usize, random.once_in(2));
    finished(random, shape)
}

fn lone(random: &mut Random) -> Vec<u8> {
    let shape = Shape::new(random.range(1, 20) as usize);
    finished(random, shape)
}

fn limits(random: &mut Random) -> Vec<u8> {
    let shape = small_shape(random, 1, 20);
    let job = shape.job(random, Weights::Limits);
    let job = shuffled(random, &job);
    input(limit_front(random), &job)
}

fn middling(random: &mut Random) -> Vec<u8> {
    let tasks = random.range(48, 96) as usize;
    let shape = match random.below(2) {
        0 => random_shape(random, tasks, 4 * tasks),
        _ => layered_shape(random, tasks, 8, 3 * tasks),
    };
    finished(random, shape)
}

fn traverse(random: &mut Random) -> Vec<u8> {
    let weights = random.pick(&[Weights::Equal, Weights::Small, Weights::Middle]);
    let job = traverse_shape(1, false).job(random, weights);
    let four = traverse_shape(4, random.once_in(2));
    // the four are alike: the same times and sizes in each
    let size = |k: usize| job.links.get(k % job.links.len()).map_or(0, |l| l.size);
    let link = |(k, &(sender, receiver)): (usize, &(usize, usize))| Link { sender, receiver, size: size(k) };
    let links = four.links.iter().enumerate().map(link).collect();
    let times = (0..four.tasks).map(|t| job.times[t % 40]).collect();
    let all = Job { times, links };
    let all = if random.once_in(2) { all } else { shuffled(random, &all) };
    input(any_front(random), &all)
}

fn full_job(random: &mut Random) -> Job {
    let shape = match random.below(3) {
        0 => random_shape(random, 256, 1024),
        1 => layered_shape(random, 256, 16, 1024),
        _ => layered_shape(random, 256, 32, 1024),
    };
    let weights = random.pick(&WEIGHTS);
    let job = shape.job(random, weights);
    shuffled(random, &job)
}

fn full(random: &mut Random) -> Vec<u8> {
    let front = if random.once_in(3) { limit_front(random) } else { any_front(random) };
    input(front, &full_job(random))
}

fn full_lone(random: &mut Random) -> Vec<u8> {
    weighed(random, Shape::new(256), Weights::Small)
}

// ---------------------------------------------------------------- kinds of damaged inputs

/// Word of the whole input at which the job words begin.
const JOB: usize = 10;

/// A sound input as words, with at least three tasks and with two links from task 1.
struct Sound {
    words: Vec<u32>,
    tasks: usize,
    links: usize,
}

impl Sound {
    fn new(random: &mut Random) -> Sound {
        let mut shape = small_shape(random, 3, 12);
        shape.link(1, 2);
        shape.link(1, 3);
        let weights = random.pick(&WEIGHTS);
        let mut job = shape.job(random, weights);
        random.shuffle(&mut job.links);
        let front = any_front(random);
        Sound { words: words(front, &job), tasks: job.tasks(), links: job.links.len() }
    }

    fn time(&self, random: &mut Random) -> usize {
        JOB + 2 * random.range(1, self.tasks as u64) as usize + 1
    }

    fn newest(&self, random: &mut Random) -> usize {
        self.time(random) + 1
    }

    fn link(&self, random: &mut Random) -> usize {
        random.range(1, self.links as u64) as usize
    }

    fn receiver(&self, link: usize) -> usize {
        JOB + 2 * self.tasks + 3 * link
    }

    fn size(&self, link: usize) -> usize {
        self.receiver(link) + 1
    }

    fn next(&self, link: usize) -> usize {
        self.receiver(link) + 2
    }

    /// The sender of each link, by link number: the task in whose list it stands.
    fn senders(&self) -> Vec<u32> {
        let mut senders = vec![0; self.links + 1];
        for t in 1..=self.tasks {
            let mut l = self.words[JOB + 2 * t + 2] as usize;
            while l != 0 {
                senders[l] = t as u32;
                l = self.words[self.next(l)] as usize;
            }
        }
        senders
    }
}

/// A number above a limit: just above, far above, or with a high bit.
fn above(random: &mut Random, limit: u32) -> u32 {
    match random.below(4) {
        0 | 1 => limit + 1,
        2 => limit + 1 + random.below(1000) as u32,
        _ => u32::MAX - random.below(3) as u32,
    }
}

type Damage = fn(&mut Random, &mut Sound);

fn bad_kind(random: &mut Random, s: &mut Sound) {
    s.words[0] = if random.once_in(2) { 0 } else { above(random, 2) };
}

fn bad_order(random: &mut Random, s: &mut Sound) {
    s.words[9] = if random.once_in(2) { 0 } else { above(random, 3) };
}

fn bad_processors(random: &mut Random, s: &mut Sound) {
    s.words[1] = match random.below(4) {
        0 => 0,
        1 => above(random, 32),
        _ => {
            s.words[0] = 2;
            random.pick(&[3, 5, 6, 7, 9, 12, 15, 17, 24, 31])
        }
    };
}

fn bad_figure(random: &mut Random, s: &mut Sound) {
    let i = random.index(7);
    s.words[2 + i] = above(random, LIMITS[i] as u32);
}

fn few_words(random: &mut Random, s: &mut Sound) {
    s.words.truncate(JOB + random.index(3));
}

fn bad_edition(random: &mut Random, s: &mut Sound) {
    s.words[JOB] = if random.once_in(2) { 0 } else { above(random, 1) };
}

fn bad_task_count(random: &mut Random, s: &mut Sound) {
    s.words[JOB + 1] = above(random, 256);
}

fn bad_link_count(random: &mut Random, s: &mut Sound) {
    s.words[JOB + 2] = above(random, 1024);
}

fn other_count(random: &mut Random, s: &mut Sound) {
    let at = JOB + 1 + random.index(2);
    let limit = if at == JOB + 1 { 256 } else { 1024 };
    s.words[at] = random.below(limit + 1) as u32;
}

fn longer(random: &mut Random, s: &mut Sound) {
    for _ in 0..random.range(1, 4) {
        let word = random.below(3) as u32;
        s.words.push(word);
    }
}

fn shorter(random: &mut Random, s: &mut Sound) {
    let most = s.words.len() - JOB - 3;
    let keep = s.words.len() - 1 - random.index(most);
    s.words.truncate(keep);
}

fn bad_newest(random: &mut Random, s: &mut Sound) {
    let at = s.newest(random);
    s.words[at] = above(random, s.links as u32);
}

fn bad_next(random: &mut Random, s: &mut Sound) {
    let link = s.link(random);
    let at = s.next(link);
    s.words[at] = if random.once_in(2) { link as u32 } else { above(random, link as u32) };
}

fn unnamed(random: &mut Random, s: &mut Sound) {
    let named = |i: usize| s.words[i] != 0;
    let newest = (1..=s.tasks).map(|t| JOB + 2 * t + 2).filter(|&i| named(i));
    let next = (1..=s.links).map(|l| s.next(l)).filter(|&i| named(i));
    let all: Vec<usize> = newest.chain(next).collect();
    let at = random.pick(&all);
    s.words[at] = 0;
}

fn named_twice(random: &mut Random, s: &mut Sound) {
    let at = s.newest(random);
    s.words[at] = s.link(random) as u32;
}

fn named_otherwise(random: &mut Random, s: &mut Sound) {
    let link = s.link(random);
    let at = s.next(link);
    s.words[at] = random.below(link as u64) as u32;
}

fn bad_time(random: &mut Random, s: &mut Sound) {
    let at = s.time(random);
    s.words[at] = if random.once_in(2) { 0 } else { above(random, 1_000_000) };
}

fn bad_receiver(random: &mut Random, s: &mut Sound) {
    let at = s.receiver(s.link(random));
    s.words[at] = if random.once_in(3) { 0 } else { above(random, s.tasks as u32) };
}

fn to_itself(random: &mut Random, s: &mut Sound) {
    let link = s.link(random);
    let at = s.receiver(link);
    s.words[at] = s.senders()[link];
}

fn bad_size(random: &mut Random, s: &mut Sound) {
    let at = s.size(s.link(random));
    s.words[at] = above(random, 1_000_000);
}

fn same_pair(random: &mut Random, s: &mut Sound) {
    let senders = s.senders();
    let pairs = (1..=s.links).flat_map(|a| (1..a).map(move |b| (a, b)));
    let all: Vec<(usize, usize)> = pairs.filter(|&(a, b)| senders[a] == senders[b]).collect();
    let (mut a, mut b) = random.pick(&all);
    if random.once_in(2) {
        (a, b) = (b, a);
    }
    let (at, from) = (s.receiver(a), s.receiver(b));
    s.words[at] = s.words[from];
}

fn no_task(random: &mut Random, s: &mut Sound) {
    s.words.truncate(JOB);
    s.words.extend([1, 0, 0]);
    if random.once_in(4) {
        // no task, but links
        s.words[JOB + 2] = 1;
        s.words.extend([random.below(3) as u32, 0, random.below(2) as u32]);
    }
}

/// Any links at all, in both directions: mostly circles.
fn circle(random: &mut Random, s: &mut Sound) {
    let tasks = random.range(2, 12) as usize;
    let mut shape = Shape::new(tasks);
    for _ in 0..random.range(tasks as u64, 3 * tasks as u64) {
        let (a, b) = (1 + random.index(tasks), 1 + random.index(tasks));
        if a != b {
            shape.link(a, b);
        }
    }
    let job = shape.job(random, Weights::Small);
    s.words.truncate(JOB);
    s.words.extend(job.words());
}

/// One link turned round or led elsewhere.
fn led_elsewhere(random: &mut Random, s: &mut Sound) {
    let at = s.receiver(s.link(random));
    s.words[at] = random.range(1, s.tasks as u64) as u32;
}

/// A word made any other: mostly a small one.
fn any_word(random: &mut Random, s: &mut Sound) {
    let at = random.index(s.words.len());
    s.words[at] = match random.below(4) {
        0 => random.next() as u32,
        1 => s.words[at].wrapping_add(1),
        2 => s.words[at].wrapping_sub(1),
        _ => random.below(40) as u32,
    };
}

const DAMAGES: [(&str, Damage); 24] = [
    ("kind", bad_kind),
    ("order", bad_order),
    ("processors", bad_processors),
    ("figure", bad_figure),
    ("few words", few_words),
    ("edition", bad_edition),
    ("task count", bad_task_count),
    ("link count", bad_link_count),
    ("other count", other_count),
    ("longer", longer),
    ("shorter", shorter),
    ("newest", bad_newest),
    ("next", bad_next),
    ("unnamed", unnamed),
    ("named twice", named_twice),
    ("named otherwise", named_otherwise),
    ("time", bad_time),
    ("receiver", bad_receiver),
    ("to itself", to_itself),
    ("size", bad_size),
    ("same pair", same_pair),
    ("no task", no_task),
    ("circle", circle),
    ("led elsewhere", led_elsewhere),
];

/// Damages that leave the layout of the words alone, so that several can be done one after the other.
const STEADY: [Damage; 15] = [
    bad_kind, bad_order, bad_processors, bad_figure, bad_edition, bad_newest, bad_next, bad_time, bad_receiver,
    bad_size, led_elsewhere, bad_time, bad_receiver, bad_size, led_elsewhere,
];

fn several(random: &mut Random) -> Vec<u8> {
    let mut sound = Sound::new(random);
    for _ in 0..random.range(2, 4) {
        // mostly among those of the reader, which hide behind the others
        let from = if random.once_in(3) { 0 } else { 7 };
        let damage = STEADY[from + random.index(STEADY.len() - from)];
        damage(random, &mut sound);
    }
    bytes_of(&sound.words)
}

fn other_word(random: &mut Random) -> Vec<u8> {
    let mut sound = Sound::new(random);
    any_word(random, &mut sound);
    bytes_of(&sound.words)
}

fn other_byte(random: &mut Random) -> Vec<u8> {
    let mut bytes = bytes_of(&Sound::new(random).words);
    let at = random.index(bytes.len());
    bytes[at] ^= 1 << random.below(8);
    bytes
}

fn other_bytes(random: &mut Random) -> Vec<u8> {
    let mut bytes = bytes_of(&Sound::new(random).words);
    for _ in 0..random.range(2, 6) {
        let at = random.index(bytes.len());
        bytes[at] = random.next() as u8;
    }
    bytes
}

fn truncated(random: &mut Random) -> Vec<u8> {
    let mut bytes = bytes_of(&Sound::new(random).words);
    let keep = random.index(bytes.len());
    bytes.truncate(keep);
    bytes
}

fn under_forty(random: &mut Random) -> Vec<u8> {
    let mut bytes = bytes_of(&Sound::new(random).words);
    bytes.truncate(random.index(40));
    bytes
}

fn not_whole(random: &mut Random) -> Vec<u8> {
    let mut bytes = bytes_of(&Sound::new(random).words);
    for _ in 0..random.range(1, 3) {
        bytes.push(random.next() as u8);
    }
    bytes
}

/// Around the greatest length: one word or a few bytes too long, or of exactly that length and wrong inside.
fn too_long(random: &mut Random) -> Vec<u8> {
    let mut bytes = bytes_of(&Sound::new(random).words);
    let length = random.pick(&[14_384, 14_388, 14_389, 14_390, 14_392, 14_396, 15_000, 30_000]);
    bytes.resize(length, random.below(2) as u8);
    bytes
}

fn any_bytes(random: &mut Random) -> Vec<u8> {
    let length = random.below(200);
    (0..length).map(|_| random.next() as u8).collect()
}

/// Small words at random, a sound front before most of them.
fn any_words(random: &mut Random) -> Vec<u8> {
    let mut words: Vec<u32> = any_front(random).to_vec();
    let (n, e) = (random.below(4) as u32, random.below(4) as u32);
    words.extend([1, n, e]);
    for _ in 0..2 * n + 3 * e {
        words.push(random.below(4) as u32);
    }
    if random.once_in(8) {
        let at = random.index(words.len());
        words[at] = random.below(4) as u32;
    }
    bytes_of(&words)
}

/// The largest job with a fault, some of them at the very end, or with one link replaced by the reverse of another, which
/// mostly makes a circle.
fn full_damaged(random: &mut Random) -> Vec<u8> {
    let mut job = full_job(random);
    let links = job.links.len();
    let fault = random.below(9);
    if fault > 5 {
        let link = job.links[random.index(links)];
        let at = random.index(links);
        job.links[at] = Link { sender: link.receiver, receiver: link.sender, size: link.size };
        return input(any_front(random), &job);
    }
    let mut s = Sound { words: words(any_front(random), &job), tasks: 256, links };
    match fault {
        0 => bad_size(random, &mut s),
        1 => {
            let at = s.receiver(links);
            s.words[at] = 257;
        }
        2 => same_pair(random, &mut s),
        3 => unnamed(random, &mut s),
        4 => {
            let at = JOB + 2 * 256 + 1;
            s.words[at] = 1_000_001;
        }
        _ => to_itself(random, &mut s),
    }
    bytes_of(&s.words)
}

// ---------------------------------------------------------------- the whole series

#[derive(Clone, Copy)]
enum Maker {
    Whole(fn(&mut Random) -> Vec<u8>),
    Damaged(Damage),
}

/// A kind of inputs: its name and how many there are.
pub struct Kind {
    pub name: String,
    pub count: u64,
    seed: u64,
    maker: Maker,
}

impl Kind {
    /// Input number k of this kind, always the same.
    pub fn input(&self, k: u64) -> Vec<u8> {
        let mut random = Random::new(self.seed << 32 | k);
        match self.maker {
            Maker::Whole(make) => make(&mut random),
            Maker::Damaged(damage) => {
                let mut sound = Sound::new(&mut random);
                damage(&mut random, &mut sound);
                bytes_of(&sound.words)
            }
        }
    }
}

/// All kinds; the series with another number has other inputs.
pub fn kinds(series: u64) -> Vec<Kind> {
    let planned: [(&str, u64, fn(&mut Random) -> Vec<u8>); 13] = [
        ("tiny", 3000, tiny),
        ("small", 2000, small),
        ("ties", 1000, ties),
        ("layered", 600, layered),
        ("fans", 300, fan),
        ("ladders", 300, ladder),
        ("chains", 300, chain),
        ("without links", 200, lone),
        ("limits", 600, limits),
        ("middling", 60, middling),
        ("traverse, four times", 12, traverse),
        ("full size", 8, full),
        ("full size without links", 2, full_lone),
    ];
    let broken: [(&str, u64, fn(&mut Random) -> Vec<u8>); 10] = [
        ("several damages", 600, several),
        ("one other word", 600, other_word),
        ("one other bit", 600, other_byte),
        ("several other bytes", 300, other_bytes),
        ("truncated", 300, truncated),
        ("under forty bytes", 60, under_forty),
        ("not whole words", 60, not_whole),
        ("too long", 60, too_long),
        ("bytes at random", 200, any_bytes),
        ("words at random", 1000, any_words),
    ];
    let whole = |(name, count, make): (&str, u64, fn(&mut Random) -> Vec<u8>)| (name.to_string(), count, Maker::Whole(make));
    let damaged = |(name, damage): (&str, Damage)| (format!("damaged: {name}"), 120, Maker::Damaged(damage));
    let all = planned.map(whole).into_iter().chain(broken.map(whole)).chain(DAMAGES.map(damaged));
    let all = all.chain([("full size, damaged".to_string(), 60, Maker::Whole(full_damaged))]);
    let seeded = all.enumerate().map(|(k, (name, count, maker))| Kind {
        name,
        count,
        seed: series * 1000 + k as u64,
        maker,
    });
    seeded.collect()
}

#[cfg(test)]
mod tests {
    use super::*;
    use crate::check::check;
    use crate::plan::{plan, read, schedule};

    #[test]
    fn the_same_each_time() {
        for (a, b) in kinds(0).iter().zip(kinds(0)) {
            assert_eq!(a.input(1), b.input(1));
        }
    }

    #[test]
    fn planned_kinds_are_planned_and_their_rows_are_valid() {
        for kind in &kinds(0)[..9] {
            for k in 0..kind.count.min(100) {
                let request = read(&kind.input(k)).expect(&kind.name);
                let done = schedule(&request);
                let length = check(&request.job, &request.machine, &done.partition, &done.rows);
                assert_eq!(length, Ok(crate::place::length(&done.rows)), "{} {k}", kind.name);
            }
        }
    }

    #[test]
    fn every_number_is_reached() {
        let mut lines = HashSet::new();
        for kind in &kinds(0)[13..] {
            for k in 0..kind.count {
                let text = plan(&kind.input(k));
                let words: Vec<&str> = text.split_whitespace().collect();
                if words[0] == "refused" {
                    lines.insert((words[2].parse::<u64>().unwrap(), words.len()));
                }
            }
        }
        let alone = [31].map(|number| (number, 4));
        let over_one = [27, 28, 19, 20, 21, 22, 23, 24, 9, 10].map(|number| (number, 7));
        let over_two = [2, 4, 5, 6, 7].map(|number| (number, 10));
        for expected in alone.into_iter().chain(over_one).chain(over_two) {
            assert!(lines.contains(&expected), "{expected:?}");
        }
        assert_eq!(lines.len(), 16);
    }

    #[test]
    fn full_size_is_full() {
        let job = random_shape(&mut Random::new(3), 256, 1024).job(&mut Random::new(4), Weights::Wide);
        assert_eq!((job.tasks(), job.links.len()), (256, 1024));
        assert_eq!(input([0; 10], &job).len(), 14_388);
    }
}
