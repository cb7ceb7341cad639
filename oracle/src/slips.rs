//! Where the Rust's receiver goes wrong, or ours refuses what it takes: each with its smallest input and both sides' answers,
//! so that the test fails if either changes.
use crate::{
    active::Inbound,
    calls::{Buffer, Call},
    common::{checksum, Answer, Answers},
};

enum Step {
    Accept(u32, &'static str),
    Take,
}
use Step::{Accept, Take};

/// A start after `s`, then steps, each with the Rust's answer and ours.
struct Slip {
    name: &'static str,
    s: u32,
    steps: &'static [(Step, &'static str, &'static str)],
}

const SLIPS: [Slip; 8] = [
    Slip {
        name: "an empty packet in a gap is not kept: draining stops there, and a later packet overtakes",
        s: 0,
        steps: &[
            (Accept(2, ""), "highest 2, missing 1, kept 0", "next 1, highest 2, missing 1"),
            (Accept(3, "C"), "highest 3, missing 1, kept 1", "next 1, highest 3, missing 1"),
            (Accept(1, "A"), "highest 3, missing 0, kept 1", "next 1, highest 3, missing 0"),
            (Accept(4, "D"), "highest 4, missing 0, kept 1", "next 1, highest 4, missing 0"),
            (Take, "gives \"A\"", "gives \"A\""),
            (Take, "gives \"D\"", "gives \"\""),
            (Take, "nothing", "gives \"C\""),
            (Take, "nothing", "gives \"D\""),
        ],
    },
    Slip {
        name: "an empty packet in order is never handed out",
        s: 0,
        steps: &[
            (Accept(1, ""), "highest 1, missing 0, kept 0", "next 1, highest 1, missing 0"),
            (Take, "nothing", "gives \"\""),
        ],
    },
    Slip {
        name: "a repeat of a taken number is stored for ever",
        s: 0,
        steps: &[
            (Accept(1, "A"), "highest 1, missing 0, kept 0", "next 1, highest 1, missing 0"),
            (Take, "gives \"A\"", "gives \"A\""),
            (Accept(1, "B"), "highest 1, missing 0, kept 1", "refused 13"),
            (Take, "nothing", "refused 17"),
        ],
    },
    Slip {
        name: "a repeat of a held number replaces its bytes",
        s: 0,
        steps: &[
            (Accept(2, "A"), "highest 2, missing 1, kept 1", "next 1, highest 2, missing 1"),
            (Accept(2, "B"), "highest 2, missing 1, kept 1", "refused 15"),
            (Accept(1, "C"), "highest 2, missing 0, kept 0", "next 1, highest 2, missing 0"),
            (Take, "gives \"C\"", "gives \"C\""),
            (Take, "gives \"B\"", "gives \"A\""),
        ],
    },
    Slip {
        name: "a repeat of a number that is ready but not taken is stored for ever",
        s: 0,
        steps: &[
            (Accept(1, "A"), "highest 1, missing 0, kept 0", "next 1, highest 1, missing 0"),
            (Accept(1, "B"), "highest 1, missing 0, kept 1", "refused 15"),
            (Take, "gives \"A\"", "gives \"A\""),
            (Take, "nothing", "refused 17"),
        ],
    },
    Slip {
        name: "the span is counted from the highest number, so that the missing grow without bound",
        s: 0,
        steps: &[
            (Accept(514, "A"), "error", "refused 14"),
            (Accept(513, "A"), "highest 513, missing 512, kept 1", "refused 14"),
            (Accept(1026, "A"), "highest 1026, missing 1024, kept 2", "refused 14"),
        ],
    },
    Slip {
        name: "the last number is accepted, after which the next sum leaves 32 bits",
        s: 4_294_967_294,
        steps: &[(Accept(4_294_967_295, "A"), "highest 4294967295, missing 0, kept 0", "refused 12")],
    },
    Slip {
        name: "a payload of any length is held, as there are no slots",
        s: 0,
        steps: &[(Accept(1, "AB"), "highest 1, missing 0, kept 0", "refused 16")],
    },
];

const FILL: u8 = b'.';

impl Slip {
    fn calls(&self) -> Vec<Call> {
        let steps = self.steps.iter().map(|(step, ..)| match step {
            Accept(number, payload) => Call::Accept { number: *number, payload: payload.as_bytes().to_vec() },
            Take => Call::Take(Buffer::of(1, FILL)),
        });
        [Call::Start { s: self.s, slot: 1, store: Buffer::of(512, 0) }].into_iter().chain(steps).collect()
    }
}

pub fn script() -> Vec<u8> {
    SLIPS.iter().flat_map(Slip::calls).flat_map(|call| call.script()).collect()
}

/// Prints both sides of every slip; true if all are as listed.
pub fn check() -> bool {
    let mut answers = Answers::of_stdin();
    let mut changed = 0;
    for slip in &SLIPS {
        let mut rust = Inbound::start(slip.s);
        let start = Answer::new("start", &[0, 1, slip.s.into(), u64::from(slip.s) + 1, slip.s.into(), 0]);
        let started = answers.next() == Some(start);
        println!("slip: {} (start after {}{})", slip.name, slip.s, if started { "" } else { ": CHANGED" });
        changed += usize::from(!started);
        for (step, rust_listed, ours_listed) in slip.steps {
            let (rust, ours) = (rust_says(&mut rust, step), ours_says(answers.next()));
            let same = rust == *rust_listed && ours == *ours_listed;
            let step = match step {
                Accept(number, payload) => format!("accept {number} {payload:?}"),
                Take => "take".into(),
            };
            println!("  {step:<22} Rust: {rust:<38} ours: {ours}{}", if same { "" } else { "  CHANGED" });
            changed += usize::from(!same);
        }
    }
    let more = answers.next().is_some();
    println!(
        "slips: {} shown, {changed} answers changed{}",
        SLIPS.len(),
        if more { ", answers left over" } else { "" }
    );
    changed == 0 && !more
}

fn rust_says(rust: &mut Inbound, step: &Step) -> String {
    match step {
        Accept(number, payload) => match rust.accept(*number, payload.as_bytes()) {
            Ok(()) => format!("highest {}, missing {}, kept {}", rust.highest(), rust.missing(), rust.kept()),
            Err(_) => "error".into(),
        },
        Take => {
            rust.take().map_or("nothing".into(), |payload| format!("gives {:?}", String::from_utf8_lossy(&payload)))
        }
    }
}

/// Our answer in the same words. The payload is told by its checksum: it is empty or one of the letters.
fn ours_says(answer: Option<Answer>) -> String {
    let Some(answer) = answer else { return "no answer".into() };
    match (answer.word.as_str(), &answer.numbers[..]) {
        // The state shows how many numbers are held; the others up to the highest are missing.
        ("accept", [0, 1, _, next, highest, held, ..]) => {
            format!("next {next}, highest {highest}, missing {}", highest + 1 - next - held)
        }
        ("take", [0, 0, .., sum]) if *sum == checksum(&[FILL]) => "gives \"\"".into(),
        ("take", [0, 1, .., sum]) => match (b'A'..=b'D').find(|letter| *sum == checksum(&[*letter])) {
            Some(letter) => format!("gives {:?}", char::from(letter).to_string()),
            None => format!("`{answer}`"),
        },
        ("accept" | "take", [refusal, ..]) if *refusal != 0 => format!("refused {refusal}"),
        _ => format!("`{answer}`"),
    }
}
