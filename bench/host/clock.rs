//! How long a round takes.

/// So many times each is timed.
const SAMPLES: usize = 25;

#[repr(C)]
struct Timespec {
    seconds: i64,
    nanoseconds: i64,
}

unsafe extern "C" {
    fn clock_gettime(clock: i32, time: *mut Timespec) -> i32;
}

/// The processor time of this thread, in nanoseconds: the machine may do other work meanwhile.
fn processor_time() -> f64 {
    const THREAD: i32 = 3;
    let mut time = Timespec {
        seconds: 0,
        nanoseconds: 0,
    };
    unsafe { clock_gettime(THREAD, &mut time) };
    time.seconds as f64 * 1e9 + time.nanoseconds as f64
}

fn timed(rounds: usize, run: &mut dyn FnMut(usize)) -> f64 {
    let began = processor_time();
    run(rounds);
    processor_time() - began
}

/// The middle one of the samples, or between the two in the middle.
pub fn median(mut samples: Vec<f64>) -> f64 {
    samples.sort_by(f64::total_cmp);
    let (low, high) = ((samples.len() - 1) / 2, samples.len() / 2);
    (samples[low] + samples[high]) / 2.0
}

/// So many rounds that they take some milliseconds.
fn enough(run: &mut dyn FnMut(usize)) -> usize {
    let mut rounds = 1;
    while timed(rounds, run) < 2e6 {
        rounds *= 2;
    }
    rounds
}

/// The time of a round of each, in nanoseconds: what twice as many rounds take more, so that what goes before them counts nothing. All are
/// timed by turns, and the median of each is taken.
pub fn each_round(runs: &mut [&mut dyn FnMut(usize)]) -> Vec<f64> {
    let rounds: Vec<usize> = runs.iter_mut().map(|run| enough(*run)).collect();
    let mut samples = vec![Vec::new(); runs.len()];
    for _ in 0..SAMPLES {
        for ((run, &rounds), samples) in runs.iter_mut().zip(&rounds).zip(&mut samples) {
            let once = timed(rounds, *run);
            let twice = timed(2 * rounds, *run);
            samples.push((twice - once) / rounds as f64);
        }
    }
    samples.into_iter().map(median).collect()
}
