//! Times several programs on one job, in turns, so that a busy machine slows them alike (Linux on x86-64, as the archive).

use std::hint::black_box;
use std::time::Duration;

/// What Rattle may take, as a multiple of the second program's time.
pub const BAR: f64 = 1.5;

/// How often the whole comparison is made; the median is printed.
const RUNS: usize = 5;

/// A program's name, and one turn of its job, which says how long it took.
pub type Contender<'a> = (&'a str, &'a mut dyn FnMut() -> Duration);

/// The time that a job takes, its result thrown away.
pub fn timed<T>(job: impl FnOnce() -> T) -> Duration {
    let start = spent();
    black_box(job());
    spent() - start
}

/// The time that this thread has been running, so that time given to others doesn't count.
fn spent() -> Duration {
    #[repr(C)]
    struct Time {
        seconds: i64,
        nanoseconds: i64,
    }
    extern "C" {
        fn clock_gettime(clock: i32, time: *mut Time) -> i32;
    }
    const THREAD: i32 = 3;
    let mut time = Time { seconds: 0, nanoseconds: 0 };
    let failed = unsafe { clock_gettime(THREAD, &mut time) };
    assert_eq!(failed, 0, "no clock for the thread's own time");
    Duration::new(time.seconds as u64, time.nanoseconds as u32)
}

/// Gives each contender so many turns a run; prints the first one's ratio to each of the others, and hands back what a
/// turn takes each of them, in seconds.
pub fn compare(job: &str, turns: usize, contenders: &mut [Contender]) -> Vec<f64> {
    let runs: Vec<Vec<f64>> = (0..RUNS).map(|_| run(turns, contenders)).collect();
    print!("{job}:");
    for other in 1..contenders.len() {
        let ratio = median(runs.iter().map(|run| run[0] / run[other]));
        print!("  {} / {} = {ratio:.2}", contenders[0].0, contenders[other].0);
        if other == 1 {
            print!(" ({} the bar of {BAR})", if ratio <= BAR { "within" } else { "OVER" });
        }
    }
    let seconds: Vec<f64> = (0..contenders.len()).map(|place| median(runs.iter().map(|run| run[place]))).collect();
    let each = contenders.iter().zip(&seconds).map(|((name, _), seconds)| format!("{name} {}", human(*seconds)));
    println!("  [{}]", each.collect::<Vec<String>>().join(", "));
    seconds
}

/// Prints what more work costs the first two contenders: where cost is linear, as many times the time as the work, and
/// a little more once it no longer fits in the machine's caches.
pub fn growth(work: &str, less: &[f64], more: &[f64]) {
    println!("{work}: Rattle {:.2}, second {:.2} times the time", more[0] / less[0], more[1] / less[1]);
}

/// One run: each contender's quickest turn, in seconds, since what else the machine does only ever adds to it.
fn run(turns: usize, contenders: &mut [Contender]) -> Vec<f64> {
    let mut quickest = vec![Duration::MAX; contenders.len()];
    for turn in 0..turns {
        for step in 0..contenders.len() {
            let place = (turn + step) % contenders.len();
            quickest[place] = quickest[place].min(contenders[place].1());
        }
    }
    quickest.iter().map(Duration::as_secs_f64).collect()
}

fn median(values: impl Iterator<Item = f64>) -> f64 {
    let mut values: Vec<f64> = values.collect();
    values.sort_by(f64::total_cmp);
    values[values.len() / 2]
}

fn human(seconds: f64) -> String {
    match seconds {
        s if s < 1e-6 => format!("{:.0} ns", s * 1e9),
        s if s < 1e-3 => format!("{:.1} us", s * 1e6),
        s => format!("{:.2} ms", s * 1e3),
    }
}
