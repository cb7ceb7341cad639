//! Document 01, "Numbers to check by hand", asked of the model.
use super::{
    ack::{acknowledge, fields},
    receiver::{accept, start, take, Receiver},
    sender::{Place, Sender, IN_FLIGHT, UNUSABLE},
    sending::resend,
    timer::{fallen, grown, rto, sampled},
    Refusal,
};

/// Stops where a number is another one.
pub fn check() {
    acknowledgements();
    order_and_span();
    timer();
    ages();
}

/// A receiver after s, its slots of one byte, and its store.
fn fresh(s: u32) -> (Receiver, Vec<u8>) {
    let store = vec![0; 512];
    (start(s, 1, &store).expect("a start"), store)
}

fn accepted(numbers: &[u32]) -> (Receiver, Vec<u8>) {
    let (mut receiver, mut store) = fresh(0);
    for number in numbers {
        accept(&mut receiver, *number, &[0], &mut store).expect("accepted");
    }
    (receiver, store)
}

fn acknowledgements() {
    let plain = |numbers: &[u32]| {
        let (receiver, _) = accepted(numbers);
        let (ack, mut output) = (fields(&receiver, [0x0102_0304, 0x0a0b_0c0d]), vec![0; 2_000]);
        let length = acknowledge(&receiver, [0x0102_0304, 0x0a0b_0c0d], &mut output).expect("room");
        (ack.ack, ack.nacks.len(), ack.delay, output[..length].to_vec())
    };
    let (through, nacks, ..) = plain(&[]);
    assert_eq!((through, nacks), (0, 0));
    let whole = [1, 2, 3, 4, 10, 11, 12, 13, 0, 0, 0, 0, 0, 0, 0, 5, 2, 0, 0, 0, 3, 0, 0, 0, 4, 0, 0, 0, 0, 0];
    assert_eq!(plain(&[1, 2, 5]).3, whole);
    let (through, nacks, delay, packet) = plain(&[512]);
    assert_eq!((through, nacks, delay, packet.len()), (255, 255, 60_001, 1_044));
    let (through, nacks, delay, _) = plain(&[256]);
    assert_eq!((through, nacks, delay), (256, 255, 60_001));
    let (_, nacks, delay, packet) = plain(&[255]);
    assert_eq!((nacks, delay, packet.len()), (254, 0, 1_038));
}

fn order_and_span() {
    let (mut receiver, mut store) = fresh(0);
    assert_eq!(number(take(&mut receiver, &store, &mut [])), 17);
    for (number, payload) in [(2, &[][..]), (3, &[3]), (1, &[1]), (4, &[4])] {
        accept(&mut receiver, number, payload, &mut store).expect("accepted");
    }
    for payload in [&[1][..], &[], &[3], &[4]] {
        let mut output = [9];
        let length = take(&mut receiver, &store, &mut output).expect("held");
        assert_eq!(&output[..length], payload);
    }
    let (mut receiver, mut store) = accepted(&[512]);
    assert_eq!(number(accept(&mut receiver, 513, &[], &mut store)), 14);
    let (mut receiver, mut store) = fresh(4_294_967_294);
    assert_eq!(number(accept(&mut receiver, 4_294_967_294, &[], &mut store)), 13);
    assert_eq!(number(accept(&mut receiver, 4_294_967_295, &[], &mut store)), 12);
}

/// The number of a refusal, 0 where there is none.
fn number<T>(result: Result<T, Refusal>) -> u64 {
    result.err().map_or(0, |refusal| refusal.number)
}

fn timer() {
    assert_eq!([63, 126, 127, 128, 64].map(grown), [126, 127, 128, 128, 65]);
    assert_eq!(fallen(1), 1);
    let first = sampled(None, 800);
    assert_eq!(rto(first), 2_400);
    let second = sampled(first, 1_600);
    assert_eq!((second, rto(second)), (Some((900, 500)), 2_900));
}

fn ages() {
    let resent = |ages: &[u64]| {
        let clock = 20_000;
        let (timer, next) = (Some(clock), ages.len() as u32 + 1);
        let mut sender = Sender { chunk: 1, count: 3, next, window: 3, timer, clock, ..UNUSABLE };
        for (i, age) in ages.iter().enumerate() {
            sender.places[i] = Place { number: i as u32 + 1, length: 22, sent: clock - age, mark: IN_FLIGHT, resent: 0 };
        }
        resend(&mut sender, clock, true)
    };
    assert_eq!(resent(&[9_001, 50, 9_001]), Ok(1));
    assert_eq!(resent(&[9_000]), Ok(0));
}
