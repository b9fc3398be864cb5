// Timing two pieces of work in turn.
use crate::cases::Case;
use std::fmt;
use std::time::{Duration, Instant};

// How often each side is timed; less often where one call takes a second and more.
const ROUNDS: usize = 15;
const LONG_ROUNDS: usize = 5;

// Work that is shorter than this is repeated until it is as long.
const SAMPLE: Duration = Duration::from_millis(40);

// The times of one call, for each round, from the shortest to the longest.
struct Times(Vec<Duration>);

impl Times {
    fn best(&self) -> Duration {
        self.0[0]
    }

    fn median(&self) -> Duration {
        self.0[self.0.len() / 2]
    }
}

pub struct Comparison {
    library: Times,
    plain: Times,
}

fn ratio(a: Duration, b: Duration) -> f64 {
    a.as_secs_f64() / b.as_secs_f64()
}

fn millis(time: Duration) -> f64 {
    time.as_secs_f64() * 1e3
}

impl fmt::Display for Comparison {
    fn fmt(&self, f: &mut fmt::Formatter) -> fmt::Result {
        let (library, plain) = (self.library.best(), self.plain.best());
        write!(
            f,
            "{:>9.3} ms {:>9.3} ms {:>7.2} {:>9.2}",
            millis(library),
            millis(plain),
            ratio(library, plain),
            ratio(self.library.median(), self.plain.median()),
        )
    }
}

// The time of one call, as a mean over some calls.
fn time(work: &dyn Fn() -> u64, calls: u32) -> Duration {
    let start = Instant::now();
    for _ in 0..calls {
        std::hint::black_box(work());
    }
    start.elapsed() / calls
}

// Times both sides in turn; nothing where their checksums differ or are 0.
pub fn compare(case: &Case) -> Option<Comparison> {
    let (library, plain) = (&*case.library, &*case.plain);
    let sum = library();
    if sum == 0 || sum != plain() {
        return None;
    }
    let once = time(plain, 1).max(Duration::from_nanos(1));
    let calls = SAMPLE.div_duration_f64(once).ceil() as u32;
    let rounds = if once < Duration::from_secs(1) {
        ROUNDS
    } else {
        LONG_ROUNDS
    };
    let (mut of_library, mut of_plain) = (Vec::new(), Vec::new());
    for _ in 0..rounds {
        of_library.push(time(library, calls));
        of_plain.push(time(plain, calls));
    }
    of_library.sort();
    of_plain.sort();
    Some(Comparison {
        library: Times(of_library),
        plain: Times(of_plain),
    })
}
