//! Document 02, request [6]: why is this piece not delivered?
use super::{receiver::Receiver, refuse, Refusal, TOP};

/// The case by its number, and the smallest missing number where it is held behind a gap.
pub fn why(receiver: &Receiver, number: u32) -> Result<(u8, u32), Refusal> {
    refuse("why", &[(11, !receiver.broken().is_empty()), (10, !receiver.wrong(None).is_empty())])?;
    // The last number is tested first.
    if number == TOP {
        return Ok((1, 0));
    }
    let missing = receiver.missing();
    let gap = missing.iter().find(|missing| **missing < number);
    let ahead = i64::from(number) - i64::from(receiver.next);
    let held = receiver.held(number).is_some();
    let cases = [
        // At or below the start.
        (2, number <= receiver.start),
        // Taken.
        (3, receiver.start < number && ahead < 0),
        // Ready: held with nothing missing below it.
        (4, held && gap.is_none()),
        // Held behind a gap.
        (5, held && gap.is_some()),
        // Missing.
        (6, missing.contains(&number)),
        // Not yet seen: above highest but less than 512 from the next to take.
        (7, receiver.highest < number && ahead < 512),
        // Beyond the span.
        (8, ahead >= 512),
    ];
    let holding: Vec<u8> = cases.into_iter().filter(|(_, holds)| *holds).map(|(case, _)| case).collect();
    assert_eq!(holding.len(), 1, "of the others exactly one holds");
    Ok((holding[0], gap.copied().filter(|_| holding[0] == 5).unwrap_or(0)))
}
