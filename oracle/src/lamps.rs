//! `oracle lamps`: the packets of our program `lamps`, in the same order, given to the Rust's receiver, and told in the same words.
use crate::active::Inbound;

/// The numbers as they arrive; a number that came before comes again with other bytes.
const ARRIVING: [u32; 11] = [2, 3, 1, 4, 6, 3, 9, 6, 7, 5, 8];

/// The made-up image of `crates/lamps/src/image.rt`.
fn image() -> Vec<u8> {
    (0..1000).map(|i| (i * 31 % 251) as u8).collect()
}

/// 128 bytes of the image are in packet 1, none in packet 2, and 128 in each one after it; the last has what is left.
fn piece(image: &[u8], number: u32) -> &[u8] {
    let at = |piece: u32| &image[piece as usize * 128..image.len().min((piece as usize + 1) * 128)];
    match number {
        1 => at(0),
        2 => &[],
        _ => at(number - 2),
    }
}

fn other(number: u32) -> Vec<u8> {
    vec![number as u8; 128]
}

/// The packet that a payload came in, and whether with the other bytes.
fn origin(image: &[u8], payload: &[u8]) -> (u32, bool) {
    let number = |same: &dyn Fn(u32) -> bool| (1..=9).find(|number| same(*number));
    match number(&|number| piece(image, number) == payload) {
        Some(number) => (number, false),
        None => (number(&|number| other(number) == payload).expect("a payload that was sent"), true),
    }
}

pub fn show() {
    let image = image();
    let mut inbound = Inbound::start(0);
    let mut lamp = Lamp { image: &image, shown: vec![], passed: vec![] };
    let mut refused = 0;
    for (at, number) in ARRIVING.into_iter().enumerate() {
        let again = ARRIVING[..at].contains(&number);
        let payload = if again { other(number) } else { piece(&image, number).to_vec() };
        let empty = if payload.is_empty() { " (empty)" } else { "" };
        print!("packet {number}{empty} {}: ", if again { "again, with other bytes" } else { "arrives" });
        if inbound.accept(number, &payload).is_err() {
            println!("refused");
            refused += 1;
            continue;
        }
        let taken = lamp.take(&mut inbound);
        if taken.is_empty() {
            let held = if inbound.keeps(number) { "held" } else { "not held" };
            let waiting = inbound.first_missing().map_or("nothing".to_string(), |number| number.to_string());
            println!("{held}, waiting for {waiting}");
        } else {
            println!("taken {}", taken.join(", "));
        }
    }
    println!("Refused: {refused}. Missing: {}. Held, and never to be taken: {}.", inbound.missing(), inbound.kept());
    lamp.compare();
}

struct Lamp<'a> {
    image: &'a [u8],
    shown: Vec<u8>,
    /// Every number that was taken or overtaken.
    passed: Vec<u32>,
}

impl Lamp<'_> {
    /// Takes all that is ready, and says of each what it was.
    fn take(&mut self, inbound: &mut Inbound) -> Vec<String> {
        std::iter::from_fn(|| inbound.take()).map(|payload| self.taken(&payload)).collect()
    }

    fn taken(&mut self, payload: &[u8]) -> String {
        let (number, other) = origin(self.image, payload);
        let overtaken: Vec<u32> = (1..number).filter(|earlier| !self.passed.contains(earlier)).collect();
        self.passed.extend(overtaken.iter().copied().chain([number]));
        self.shown.extend(payload);
        let bytes = if other { " (the other bytes)" } else { "" };
        let names: Vec<String> = overtaken.iter().map(u32::to_string).collect();
        let before = if names.is_empty() { String::new() } else { format!(", overtaking {}", names.join(" and ")) };
        format!("{number}{bytes}{before}")
    }

    fn compare(&self) {
        let bytes = self.shown.len();
        match (0..self.image.len()).find(|at| self.shown.get(*at) != self.image.get(*at)) {
            None => println!("The lamp's image: {bytes} bytes, the same as the original, byte for byte."),
            Some(at) => println!(
                "The lamp's image: {bytes} bytes, and not {}; byte {at} is the first that differs.",
                self.image.len()
            ),
        }
    }
}
