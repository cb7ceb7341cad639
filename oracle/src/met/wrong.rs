//! What a call finds wrong with the states that it meets, in document 01's order: their rules, then sizes, then the clock; a submit, which of
//! its states. Only what is wrong alone shows that it is tested.
use crate::{
    calls::Call,
    model::{answer::World, sending, timer},
};

/// The rule, size, clock or state that is wrong with no other of its kind, and whose it is.
pub fn of(world: &World, call: &Call) -> Option<(&'static str, &'static str)> {
    let (receiver_store, sender_store) = (Some(&world.receiver_store[..]), Some(&world.sender_store[..]));
    let receiver = |store| vec![world.receiver.broken(), world.receiver.wrong(store)];
    let sender = |store| vec![world.sender.broken(), world.sender.wrong(store)];
    let clocked = |store, clock| [sender(store), vec![world.sender.clock_wrong(clock)]].concat();
    let (state, found) = match call {
        Call::Accept { .. } | Call::Take(_) => ("receiver", receiver(receiver_store)),
        Call::Acknowledge { .. } | Call::Why(_) => ("receiver", receiver(None)),
        Call::Fetch { .. } => ("sender", sender(sender_store)),
        Call::Submit { .. } => {
            let (sender, receiver) = (sender(sender_store), receiver(None));
            let which = |names: [&'static str; 2], kind: usize| {
                let wrong = [&sender[kind], &receiver[kind]].map(|found| !found.is_empty());
                names.into_iter().zip(wrong).filter(|(_, wrong)| *wrong).map(|(name, _)| name).collect()
            };
            ("submit", vec![which(sending::STATES, 0), which(sending::SIZES, 1)])
        }
        Call::Smooth { old, sample } => ("smooth", vec![timer::large(*old, *sample)]),
        Call::Feed(portion) => {
            ("line", vec![world.line.broken(), world.line.wrong(&world.line_buffer), world.line.unfit(portion)])
        }
        Call::Send { clock, .. } => ("sender", clocked(sender_store, *clock)),
        Call::Acks { clock, .. } | Call::Resend { clock, .. } => ("sender", clocked(None, *clock)),
        _ => return None,
    };
    match found.iter().map(Vec::as_slice).find(|wrong| !wrong.is_empty()) {
        Some([rule]) => Some((state, *rule)),
        _ => None,
    }
}
