//! Document 01, "Sender": the state and its rules, and the start.
use super::{refuse, timer::Timing, Refusal};

pub const FREE: u32 = 0;
pub const WAITING: u32 = 1;
pub const IN_FLIGHT: u32 = 2;

/// The latest clock.
pub const LATEST: u64 = 1_000_000_000_000_000;

/// A packet that is stored, or nothing: `mark` says which (D27).
#[derive(Clone, Copy, Default, PartialEq)]
pub struct Place {
    pub number: u32,
    pub length: u32,
    pub sent: u64,
    pub mark: u32,
    /// 1 where the packet was sent more than once (document 02, request [5]).
    pub resent: u32,
}

#[derive(Clone)]
pub struct Sender {
    /// C.
    pub chunk: u32,
    /// K.
    pub count: u32,
    pub next: u32,
    pub window: u32,
    pub timing: Timing,
    /// When the timer is due; none where it is unarmed.
    pub timer: Option<u64>,
    /// The last clock.
    pub clock: u64,
    pub places: [Place; 192],
}

const NOTHING: Place = Place { number: 0, length: 0, sent: 0, mark: FREE, resent: 0 };

/// What the registers hold at first.
pub const UNUSABLE: Sender =
    Sender { chunk: 0, count: 0, next: 0, window: 0, timing: None, timer: None, clock: 0, places: [NOTHING; 192] };

/// What a refused start leaves (D29): a fresh sender but for its sizes and its next number, which are 0.
pub const REFUSED: Sender = Sender { window: 1, ..UNUSABLE };

/// The state rules, in document 01's order, then D27's and document 02's (D71). RTT and deviation are below 2^32 by their width.
pub const RULES: [&str; 22] = [
    "numbers distinct",
    "numbers below next",
    "in flight below waiting",
    "numbers at least 1",
    "next at least 1",
    "places from K on free",
    "number of a free place 0",
    "length of a free place 0",
    "send time of a free place 0",
    "send time of a waiting packet 0",
    "at most 128 in flight",
    "send times at most the last clock",
    "timer at most 60,000 past it",
    "window at least 1",
    "window at most 128",
    "stored lengths at least 22",
    "stored lengths at most C + 1,044",
    "last clock at most 10^15",
    "marks 0, 1 or 2",
    "a free place not sent more than once",
    "a waiting packet not sent more than once",
    "sent more than once: 0 or 1",
];

/// What 10 is about.
pub const SIZES: [&str; 3] = ["chunk size 1 to 1,812", "slot count 1 to 192", "store exactly K x (C + 1,044) bytes"];

/// What 24 is about.
pub const CLOCKS: [&str; 2] = ["clock at least the last", "clock at most 10^15"];

impl Sender {
    /// The places with this mark, in the order of their numbers.
    pub fn marked(&self, mark: u32) -> Vec<usize> {
        let mut places: Vec<usize> = (0..192).filter(|i| self.places[*i].mark == mark).collect();
        places.sort_by_key(|i| self.places[*i].number);
        places
    }

    /// Which rules do not hold.
    pub fn broken(&self) -> Vec<&'static str> {
        let of = |mark: u32| self.places.iter().filter(move |place| place.mark == mark);
        let stored = || self.places.iter().filter(|place| place.mark != FREE);
        let mut numbers: Vec<u32> = stored().map(|place| place.number).collect();
        numbers.sort();
        let last_in_flight = of(IN_FLIGHT).map(|place| place.number).max();
        let first_waiting = of(WAITING).map(|place| place.number).min();
        let longest = u64::from(self.chunk) + 1_044;
        let holds = [
            numbers.windows(2).all(|pair| pair[0] != pair[1]),
            numbers.iter().all(|number| *number < self.next),
            last_in_flight.zip(first_waiting).map_or(true, |(in_flight, waiting)| in_flight < waiting),
            numbers.iter().all(|number| *number >= 1),
            self.next >= 1,
            self.places.iter().skip(self.count as usize).all(|place| place.mark == FREE),
            of(FREE).all(|place| place.number == 0),
            of(FREE).all(|place| place.length == 0),
            of(FREE).all(|place| place.sent == 0),
            of(WAITING).all(|place| place.sent == 0),
            of(IN_FLIGHT).count() <= 128,
            of(IN_FLIGHT).all(|place| place.sent <= self.clock),
            self.timer.map_or(true, |at| u128::from(at) <= u128::from(self.clock) + 60_000),
            self.window >= 1,
            self.window <= 128,
            stored().all(|place| place.length >= 22),
            stored().all(|place| u64::from(place.length) <= longest),
            self.clock <= LATEST,
            stored().all(|place| place.mark == WAITING || place.mark == IN_FLIGHT),
            of(FREE).all(|place| place.resent == 0),
            of(WAITING).all(|place| place.resent == 0),
            of(IN_FLIGHT).all(|place| place.resent <= 1),
        ];
        RULES.into_iter().zip(holds).filter(|(_, holds)| !holds).map(|(rule, _)| rule).collect()
    }

    /// Which sizes are wrong; a call that is lent no store looks at C and K alone.
    pub fn wrong(&self, store: Option<&[u8]>) -> Vec<&'static str> {
        let length = u64::from(self.count) * (u64::from(self.chunk) + 1_044);
        let right = [
            (1..=1_812).contains(&self.chunk),
            (1..=192).contains(&self.count),
            store.map_or(true, |store| store.len() as u64 == length),
        ];
        SIZES.into_iter().zip(right).filter(|(_, right)| !right).map(|(size, _)| size).collect()
    }

    /// What is wrong with a clock.
    pub fn clock_wrong(&self, clock: u64) -> Vec<&'static str> {
        let right = [clock >= self.clock, clock <= LATEST];
        CLOCKS.into_iter().zip(right).filter(|(_, right)| !right).map(|(rule, _)| rule).collect()
    }

    pub fn place_size(&self) -> usize {
        self.chunk as usize + 1_044
    }
    /// Where the packet of this place stands in the store.
    pub fn packet_at(&self, i: usize) -> std::ops::Range<usize> {
        let front = i * self.place_size();
        front..front + self.places[i].length as usize
    }
}

pub fn start(first: u32, chunk: u32, count: u32, store: &[u8]) -> Result<Sender, Refusal> {
    let fresh = Sender { chunk, count, next: first, window: 1, ..UNUSABLE };
    refuse("begin", &[(10, !fresh.wrong(Some(store)).is_empty()), (20, first == 0)])?;
    Ok(fresh)
}
