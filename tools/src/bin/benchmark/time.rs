//! Times in seconds, and how they are written.

use std::fmt;

/// How long something took, or that it was stopped then, in seconds.
#[derive(Clone, Copy)]
pub enum Time {
    Took(f64),
    Stopped(f64),
}

impl Time {
    pub fn seconds(self) -> f64 {
        match self {
            Time::Took(seconds) | Time::Stopped(seconds) => seconds,
        }
    }

    pub fn ended(self) -> bool {
        matches!(self, Time::Took(_))
    }
}

impl fmt::Display for Time {
    fn fmt(&self, out: &mut fmt::Formatter) -> fmt::Result {
        let (sign, seconds) = match self {
            Time::Took(seconds) => ("", *seconds),
            Time::Stopped(seconds) => ("> ", *seconds),
        };
        let (scale, unit) = match seconds {
            0.0..1e-6 => (1e9, "ns"),
            1e-6..1e-3 => (1e6, "us"),
            1e-3..1.0 => (1e3, "ms"),
            _ => (1.0, "s"),
        };
        out.pad(&format!("{sign}{:.1} {unit}", seconds * scale))
    }
}

pub fn ratio(tool: Time, other: Time) -> String {
    match (tool, other) {
        (Time::Took(tool), Time::Took(other)) => format!("{:.3}", tool / other),
        (Time::Took(tool), Time::Stopped(other)) => format!("< {:.3}", tool / other),
        (Time::Stopped(tool), Time::Took(other)) => format!("> {:.3}", tool / other),
        (Time::Stopped(_), Time::Stopped(_)) => "-".to_string(),
    }
}

/// The middle one of at least one time; of two, the longer.
pub fn median(times: &[Time]) -> Time {
    sorted(times)[times.len() / 2]
}

/// The longest of at least one time.
pub fn worst(times: &[Time]) -> Time {
    sorted(times)[times.len() - 1]
}

/// All together; with one that was stopped, no more than a time after which it was not at its end.
pub fn total(times: &[Time]) -> Time {
    let seconds = times.iter().map(|time| time.seconds()).sum();
    if times.iter().all(|time| time.ended()) { Time::Took(seconds) } else { Time::Stopped(seconds) }
}

fn sorted(times: &[Time]) -> Vec<Time> {
    let mut sorted = times.to_vec();
    sorted.sort_by(|one, other| one.seconds().total_cmp(&other.seconds()));
    sorted
}

/// The processor time that this process has used: other work on the machine does not count.
pub fn processor_seconds() -> f64 {
    let mut time = [0; 2];
    // SAFETY: on 64-bit Linux a time is two 64-bit numbers, seconds and nanoseconds, and only it is written.
    let failed = unsafe { c::clock_gettime(c::PROCESS_CLOCK, &mut time) };
    assert_eq!(failed, 0, "the clock of the process");
    time[0] as f64 + time[1] as f64 / 1e9
}

mod c {
    pub const PROCESS_CLOCK: i32 = 2;

    unsafe extern "C" {
        pub fn clock_gettime(clock: i32, time: *mut [i64; 2]) -> i32;
    }
}
