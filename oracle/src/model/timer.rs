//! Document 01, "Sender", with document 02's request [3]: the timer of RFC 6298 in whole milliseconds, and the window.

use super::{refuse, Refusal, TOP};

/// RTT and deviation; none before a sample.
pub type Timing = Option<(u32, u32)>;

pub fn sampled(before: Timing, sample: u32) -> Timing {
    let r = u64::from(sample);
    let (rtt, deviation) = match before {
        None => (r, r / 2),
        Some((rtt, deviation)) => {
            let rtt = u64::from(rtt);
            ((7 * rtt + r) / 8, (3 * u64::from(deviation) + rtt.abs_diff(r)) / 4)
        }
    };
    Some((rtt as u32, deviation as u32))
}

/// What 31 is about.
pub const TIMES: [&str; 2] = ["the old time", "the sample"];

/// Which of the two times is too large.
pub fn large(old: u64, sample: u64) -> Vec<&'static str> {
    TIMES.into_iter().zip([old, sample]).filter(|(_, time)| *time > TOP.into()).map(|(name, _)| name).collect()
}

/// Document 02, [8]: the Rust's own smoothing, in f64, cut to whole milliseconds.
pub fn smooth(old: u64, sample: u64) -> Result<u64, Refusal> {
    refuse("smooth", &[(31, !large(old, sample).is_empty())])?;
    Ok((0.875 * old as f64 + 0.125 * sample as f64).floor() as u64)
}

pub fn rto(timing: Timing) -> u64 {
    match timing {
        None => 9_000,
        Some((rtt, deviation)) => (u64::from(rtt) + 4 * u64::from(deviation)).clamp(1_000, 60_000),
    }
}

/// After each packet that an ack takes out of flight.
pub fn grown(window: u32) -> u32 {
    match window {
        0..=63 => 2 * window,
        64..=127 => window + 1,
        _ => window,
    }
}

/// After a resend.
pub fn fallen(window: u32) -> u32 {
    if window > 1 {
        window - 1
    } else {
        window
    }
}
