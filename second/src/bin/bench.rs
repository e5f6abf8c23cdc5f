//! Planning times on the same jobs, in one run: medians in milliseconds, and the ratio where the proved planner is
//! linked (feature `proved`). bench [SECONDS FOR EACH JOB]

use std::env;
use std::time::{Duration, Instant};

use second::generate::bench_jobs;
use second::plan::{bytes_of, plan};

/// A cube of 32 processors with handling times, by level refined by time.
const FRONT: [u32; 10] = [2, 32, 100, 2, 50, 20, 1, 20, 1, 1];

fn timed(work: impl FnOnce()) -> Duration {
    let begin = Instant::now();
    work();
    begin.elapsed()
}

fn median(times: &mut [Duration]) -> f64 {
    times.sort();
    times[times.len() / 2].as_secs_f64() * 1000.0
}

#[cfg(feature = "proved")]
fn other(input: &[u8], expected: &str) -> Option<Duration> {
    let mut output = vec![0; 32_768];
    let mut answer = 0;
    let time = timed(|| answer = second::proved::plan(input, &mut output));
    assert_eq!(answer, expected.len() as i64);
    assert_eq!(&output[..expected.len()], expected.as_bytes());
    Some(time)
}

#[cfg(not(feature = "proved"))]
fn other(_input: &[u8], _expected: &str) -> Option<Duration> {
    None
}

/// Medians of both, alternating.
fn measure(input: &[u8], budget: Duration) -> (f64, Option<f64>) {
    let (mut own, mut proved) = (Vec::new(), Vec::new());
    let expected = plan(input);
    let begin = Instant::now();
    while own.len() < 5 || (begin.elapsed() < budget && own.len() < 201) {
        own.push(timed(|| {
            std::hint::black_box(plan(std::hint::black_box(input)));
        }));
        proved.extend(other(input, &expected));
    }
    let proved = if proved.is_empty() { None } else { Some(median(&mut proved)) };
    (median(&mut own), proved)
}

fn run(budget: Duration) {
    println!("{:8} {:>5} {:>5} {:>10} {:>10} {:>13}", "shape", "tasks", "links", "second ms", "proved ms", "proved/second");
    for tasks in [32, 64, 128, 256] {
        for (shape, job) in bench_jobs(tasks) {
            let words: Vec<u32> = FRONT.into_iter().chain(job.words()).collect();
            let (own, proved) = measure(&bytes_of(&words), budget);
            let text = |x: Option<f64>| x.map_or("-".to_string(), |x| format!("{x:.2}"));
            let (other, ratio) = (text(proved), text(proved.map(|p| p / own)));
            println!("{shape:8} {tasks:5} {:5} {own:10.2} {other:>10} {ratio:>13}", job.links.len());
        }
    }
}

fn main() {
    let seconds = env::args().nth(1).map_or(0.5, |w| w.parse().expect("seconds"));
    let budget = Duration::from_secs_f64(seconds);
    // the proved planner's scratch tables stand on the stack
    let thread = std::thread::Builder::new().stack_size(64 << 20).spawn(move || run(budget)).expect("a thread");
    thread.join().expect("the measurements");
}
