//! Times by turns: every round asks each contestant once, and the median over the rounds counts.

/// Rounds of a figure.
pub const ROUNDS: usize = 31;
/// A round gives each contestant about so many nanoseconds.
const TURN: f64 = 3e6;
/// The clock that stands still while another process has the processor (Linux, any machine).
const THREAD_TIME: i32 = 3;

#[repr(C)]
struct Timespec {
    seconds: i64,
    nanoseconds: i64,
}

extern "C" {
    fn clock_gettime(clock: i32, time: *mut Timespec) -> i32;
}

/// Nanoseconds that this thread has had the processor.
fn now() -> f64 {
    let mut time = Timespec { seconds: 0, nanoseconds: 0 };
    // Sound: the time outlives the call, and has the layout of 64-bit Linux.
    let status = unsafe { clock_gettime(THREAD_TIME, &mut time) };
    assert_eq!(status, 0, "the thread's clock can be read");
    time.seconds as f64 * 1e9 + time.nanoseconds as f64
}

/// One of those measured.
pub struct Contestant<'a> {
    pub name: &'static str,
    /// Goes through the whole of what is asked once, and gives how many boxes that were.
    pub run: Box<dyn FnMut() -> u64 + 'a>,
}

/// Nanoseconds for going through once, and the boxes of it.
#[derive(Clone, Copy, Debug)]
pub struct Measured {
    pub nanoseconds: f64,
    pub boxes: u64,
}

/// The medians, in the contestants' order.
pub fn by_turns<const N: usize>(contestants: &mut [Contestant; N], rounds: usize) -> [Measured; N] {
    let boxes: Vec<u64> = contestants.iter_mut().map(|one| (one.run)()).collect();
    let turns: Vec<u32> = contestants.iter_mut().map(turns).collect();
    let mut times = vec![Vec::new(); contestants.len()];
    for _ in 0..rounds {
        for (n, one) in contestants.iter_mut().enumerate() {
            times[n].push(time(one, turns[n]));
        }
    }
    let medians = times.into_iter().map(median);
    let measured = medians.zip(boxes).map(|(nanoseconds, boxes)| Measured { nanoseconds, boxes });
    measured.collect::<Vec<_>>().try_into().expect("one of each contestant")
}

/// How often one goes through in a turn.
fn turns(one: &mut Contestant) -> u32 {
    (TURN / time(one, 1).max(1.0)).ceil() as u32
}

fn time(one: &mut Contestant, turns: u32) -> f64 {
    let begun = now();
    for _ in 0..turns {
        std::hint::black_box((one.run)());
    }
    (now() - begun) / f64::from(turns)
}

pub fn median(mut times: Vec<f64>) -> f64 {
    times.sort_by(f64::total_cmp);
    times[times.len() / 2]
}
