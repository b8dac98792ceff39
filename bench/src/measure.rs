//! CPU time, and medians of it.
#[repr(C)]
struct Timespec {
    seconds: i64,
    nanoseconds: i64,
}

unsafe extern "C" {
    fn clock_gettime(clock: i32, time: *mut Timespec) -> i32;
}

/// The clock of the CPU time of this process, in Linux.
const PROCESS_CPU_TIME: i32 = 2;

/// How often each variant is measured.
const ROUNDS: usize = 9;

/// The least CPU time of one measurement, in seconds: shorter work is repeated.
const LEAST: f64 = 2e-3;

fn cpu_seconds() -> f64 {
    let mut now = Timespec {
        seconds: 0,
        nanoseconds: 0,
    };
    assert_eq!(unsafe { clock_gettime(PROCESS_CPU_TIME, &mut now) }, 0);
    now.seconds as f64 + now.nanoseconds as f64 / 1e9
}

/// A piece of work with its name. What it answers is handed to the compiler as used.
pub struct Variant<'a> {
    pub name: &'static str,
    work: Box<dyn FnMut() -> u64 + 'a>,
}

impl<'a> Variant<'a> {
    pub fn new(name: &'static str, work: impl FnMut() -> u64 + 'a) -> Variant<'a> {
        Variant {
            name,
            work: Box::new(work),
        }
    }

    pub fn answer(&mut self) -> u64 {
        (self.work)()
    }

    /// CPU seconds of doing the work so many times.
    fn time(&mut self, times: usize) -> f64 {
        let start = cpu_seconds();
        for _ in 0..times {
            std::hint::black_box((self.work)());
        }
        cpu_seconds() - start
    }

    /// How many times the work is done in one measurement.
    fn times(&mut self) -> usize {
        let mut times = 1;
        while self.time(times) < LEAST {
            times *= 2;
        }
        times
    }
}

/// The median CPU seconds of each variant; the variants take turns, so that a slow spell of the machine meets all of them.
pub fn medians(variants: &mut [Variant]) -> Vec<f64> {
    let times: Vec<usize> = variants.iter_mut().map(Variant::times).collect();
    let mut taken = vec![Vec::new(); variants.len()];
    for _ in 0..ROUNDS {
        for (k, variant) in variants.iter_mut().enumerate() {
            taken[k].push(variant.time(times[k]) / times[k] as f64);
        }
    }
    taken
        .iter_mut()
        .map(|rounds| {
            rounds.sort_by(f64::total_cmp);
            rounds[ROUNDS / 2]
        })
        .collect()
}
