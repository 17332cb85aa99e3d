//! Counts by callgrind, times by the clock.

use crate::job::{Job, Subject};
use std::env;
use std::process::Command;
use std::sync::atomic::{AtomicUsize, Ordering};
use std::sync::Mutex;
use std::thread;
use std::time::Duration;

/// A run of this program under callgrind: its words, and the functions whose instructions count, with all that they call.
pub struct Run {
    pub words: Vec<String>,
    pub functions: &'static [&'static str],
}

/// What one counted run gave.
#[derive(Clone, Copy, Debug)]
pub struct Counted {
    pub digest: u64,
    pub instructions: u64,
}

/// All runs, each in a process of its own, as many at a time as there are processors.
pub fn count_all(runs: &[Run]) -> Vec<Counted> {
    let next = AtomicUsize::new(0);
    let counts = Mutex::new(vec![None; runs.len()]);
    let workers = thread::available_parallelism().map_or(1, usize::from);
    thread::scope(|scope| {
        for _ in 0..workers {
            scope.spawn(|| loop {
                let index = next.fetch_add(1, Ordering::Relaxed);
                let Some(run) = runs.get(index) else {
                    return;
                };
                let counted = count(run);
                counts.lock().expect("no worker panics")[index] = Some(counted);
            });
        }
    });
    let counts = counts.into_inner().expect("no worker panics");
    counts.into_iter().flatten().collect()
}

fn count(run: &Run) -> Counted {
    let toggles = run
        .functions
        .iter()
        .map(|function| format!("--toggle-collect={function}"));
    let done = Command::new("valgrind")
        .args(["--tool=callgrind", "--callgrind-out-file=/dev/null"])
        .args(toggles)
        .arg(env::current_exe().expect("this program's path"))
        .args(&run.words)
        .output()
        .expect("valgrind runs");
    let told = String::from_utf8_lossy(&done.stdout);
    let report = String::from_utf8_lossy(&done.stderr);
    let collected = report
        .lines()
        .find_map(|line| line.split("Collected : ").nth(1));
    match (told.trim().parse(), collected.map(|count| count.parse())) {
        (Ok(digest), Some(Ok(instructions))) => Counted {
            digest,
            instructions,
        },
        _ => panic!("no count for {:?}:\n{told}{report}", run.words),
    }
}

#[repr(C)]
struct Time {
    seconds: i64,
    nanoseconds: i64,
}

extern "C" {
    fn clock_gettime(clock: i32, time: *mut Time) -> i32;
}

/// The processor's time of this thread: what other programs take meanwhile is not in it.
fn own_time() -> Duration {
    const CLOCK_THREAD_CPUTIME_ID: i32 = 3;
    let mut time = Time {
        seconds: 0,
        nanoseconds: 0,
    };
    assert_eq!(
        unsafe { clock_gettime(CLOCK_THREAD_CPUTIME_ID, &mut time) },
        0
    );
    Duration::new(time.seconds as u64, time.nanoseconds as u32)
}

/// The time of each subject that is timed, over many short rounds in which each has its turn: that than which a quarter of the
/// rounds was faster, since on a busy machine the clock errs both ways. The inputs are made anew several times, each time
/// elsewhere, and the best place counts.
pub fn time_all(make: &dyn Fn() -> Job) -> Vec<(Subject, Duration)> {
    const PLACES: usize = 6;
    const ROUNDS: usize = 8;
    const ENOUGH: Duration = Duration::from_millis(70);
    let mut best = Subject::TIMED.map(|subject| (subject, Duration::MAX));
    let mut between = Vec::new();
    for place in 0..PLACES {
        between.push(vec![0_u8; 1_000 * place + 16]);
        let mut job = make();
        let mut times = Subject::TIMED.map(|_| Vec::new());
        let begin = own_time();
        while times[0].len() < ROUNDS || own_time() - begin < ENOUGH {
            for (times, subject) in times.iter_mut().zip(Subject::TIMED) {
                let work = job.work(subject);
                let start = own_time();
                std::hint::black_box(work(false));
                times.push(own_time() - start);
            }
        }
        for ((_, best), times) in best.iter_mut().zip(&mut times) {
            times.sort_unstable();
            *best = times[times.len() / 4].min(*best);
        }
    }
    best.to_vec()
}

/// Runs every subject with every byte in its digest.
pub fn verify(job: &mut Job) -> Result<(), String> {
    let digests: Vec<_> = job
        .subjects()
        .into_iter()
        .map(|subject| (subject, job.work(subject)(true)))
        .collect();
    match digests.iter().all(|(_, digest)| *digest == digests[0].1) {
        true => Ok(()),
        false => Err(format!("the answers differ: {digests:x?}")),
    }
}
