//! A yardstick for the speed of steps: what a plain program makes of the same steps that proves nothing.
//!
//! It makes the steps of `get` and of `show` over four mutators, an idle server and an idle collector, on words and in
//! orders as those of the replays that `examples/bench` times. It has nothing of cycles, one flat enum of stages, and one
//! `match` for the act of a stage and for what follows it, and it draws the next place while a step is made.
//! As there, the speed is that of the 10,500,000 steps that 1,000,000 `get` take more than as many `show`.

use std::time::Instant;

const MUTATORS: usize = 4;
const CALLS: usize = 250_000;
const SHUT: u64 = 1 << 63;
const STOP: u64 = 3 << 61;

// The words of the heap, area by area.
const PHASE: u32 = 0;
const DEMAND: u32 = 1;
const FINISHED: u32 = 2;
const GATES: u32 = 3;
const ROOTS: u32 = 7;
const TABLET_GATES: u32 = 40;
const HOMES: u32 = 41;
const ENTRIES: u32 = 42;
const REGIONS: u32 = 46;
const WORDS: usize = 80;
const ROOTS_OF_A_MUTATOR: u32 = 4;
const WORDS_OF_A_REGION: u32 = 16;

#[derive(Clone, Copy)]
enum Call {
    Get { to: u8, from: u8, field: u8 },
    Show { root: u8 },
}

#[derive(Clone, Copy)]
enum Stage {
    Arriving,
    LoadingRoot,
    ArrivingAtTablet,
    LoadingEntry,
    LoadingHome { address: u32 },
    LoadingHeader { address: u32 },
    LoadingField { address: u32 },
    StoringRoot,
    LeavingTablet,
    Leaving,
    TurnedAway,
    Finishing,
    Ended,
}

struct Mutator {
    number: u32,
    calls: Vec<Call>,
    replies: Vec<u64>,
    stage: Stage,
    object: u64,
    value: u64,
}

enum Seat {
    Mutator(Mutator),
    Server { ended: bool },
    Collector { asks: bool, ended: bool },
}

struct Point {
    _mutator: u32,
    _call: Call,
    _reply: u64,
}

/// The words of the heap, and how many entries a tablet has: there is one tablet here, and in a real geometry any number.
struct Heap {
    words: Vec<u64>,
    entries: u32,
}

impl Heap {
    fn load(&self, word: u32) -> u64 {
        self.words[word as usize]
    }

    fn store(&mut self, word: u32, new: u64) {
        self.words[word as usize] = new;
    }

    /// The word as it was before the number was added.
    fn add(&mut self, word: u32, number: u64) -> u64 {
        let word = &mut self.words[word as usize];
        let before = *word;
        *word += number;
        before
    }

    fn sub(&mut self, word: u32, number: u64) {
        self.words[word as usize] -= number;
    }

    fn tablet_of(&self, name: u64) -> u32 {
        entry_of(name) / self.entries
    }
}

fn entry_of(name: u64) -> u32 {
    (name as u32) & 0xf_ffff
}

impl Mutator {
    fn call(&self) -> Call {
        self.calls[self.replies.len()]
    }

    fn root(&self, root: u8) -> u32 {
        ROOTS + self.number * ROOTS_OF_A_MUTATOR + u32::from(root)
    }

    fn answer(&mut self, value: u64, journal: &mut Vec<Point>) {
        self.value = value;
        journal.push(Point {
            _mutator: self.number,
            _call: self.call(),
            _reply: value,
        });
    }

    fn load_root(&mut self, heap: &Heap, journal: &mut Vec<Point>) -> Stage {
        let call = self.call();
        let (Call::Get { from: root, .. } | Call::Show { root }) = call;
        let found = heap.load(self.root(root));
        if matches!(call, Call::Get { .. }) && found >> 62 == 2 {
            self.object = found;
            return Stage::ArrivingAtTablet;
        }
        self.answer(found, journal);
        Stage::Leaving
    }

    fn load_header(&mut self, address: u32, heap: &Heap, journal: &mut Vec<Point>) -> Stage {
        match self.call() {
            Call::Get { field, .. } if u64::from(field) < heap.load(address) => {
                Stage::LoadingField {
                    address: address + 1 + u32::from(field),
                }
            }
            _ => {
                self.answer(0, journal);
                Stage::LeavingTablet
            }
        }
    }

    fn step(&mut self, heap: &mut Heap, journal: &mut Vec<Point>) {
        self.stage = match self.stage {
            Stage::Arriving if heap.add(GATES + self.number, 1) >= SHUT => Stage::TurnedAway,
            Stage::Arriving => Stage::LoadingRoot,
            Stage::LoadingRoot => self.load_root(heap, journal),
            Stage::ArrivingAtTablet => {
                if heap.add(TABLET_GATES + heap.tablet_of(self.object), 1) >= SHUT {
                    Stage::LeavingTablet
                } else {
                    Stage::LoadingEntry
                }
            }
            Stage::LoadingEntry => Stage::LoadingHome {
                address: heap.load(ENTRIES + entry_of(self.object)) as u32,
            },
            Stage::LoadingHome { address } => {
                let home = heap.load(HOMES + heap.tablet_of(self.object)) as u32;
                let start = REGIONS + home * WORDS_OF_A_REGION;
                if (start..start + WORDS_OF_A_REGION).contains(&address) {
                    Stage::LoadingHeader { address }
                } else {
                    Stage::LeavingTablet
                }
            }
            Stage::LoadingHeader { address } => self.load_header(address, heap, journal),
            Stage::LoadingField { address } => {
                self.answer(heap.load(address), journal);
                Stage::StoringRoot
            }
            Stage::StoringRoot => {
                if let Call::Get { to, .. } = self.call() {
                    heap.store(self.root(to), self.value);
                }
                Stage::LeavingTablet
            }
            Stage::LeavingTablet => {
                heap.sub(TABLET_GATES + heap.tablet_of(self.object), 1);
                Stage::Leaving
            }
            Stage::TurnedAway => {
                heap.sub(GATES + self.number, 1);
                Stage::Arriving
            }
            Stage::Leaving => {
                heap.sub(GATES + self.number, 1);
                self.replies.push(self.value);
                if self.replies.len() < self.calls.len() {
                    Stage::Arriving
                } else {
                    Stage::Finishing
                }
            }
            Stage::Finishing => {
                heap.add(FINISHED, 1);
                Stage::Ended
            }
            Stage::Ended => Stage::Ended,
        };
    }
}

impl Seat {
    fn step(&mut self, heap: &mut Heap, journal: &mut Vec<Point>) {
        match self {
            Seat::Mutator(mutator) => mutator.step(heap, journal),
            Seat::Server { ended } => *ended = heap.load(PHASE) >> 61 == STOP >> 61,
            Seat::Collector { asks, ended } => {
                let found = heap.load(if *asks { DEMAND } else { FINISHED });
                *ended = !*asks && found == MUTATORS as u64;
                *asks = !*asks;
            }
        }
    }

    fn has_ended(&self) -> bool {
        match self {
            Seat::Mutator(mutator) => matches!(mutator.stage, Stage::Ended),
            Seat::Server { ended } | Seat::Collector { ended, .. } => *ended,
        }
    }
}

/// The words of a generator, as PCG32 gives them.
struct Draws(u64);

impl Draws {
    fn next(&mut self) -> u32 {
        let old = self.0;
        self.0 = old
            .wrapping_mul(6_364_136_223_846_793_005)
            .wrapping_add(1_442_695_040_888_963_407);
        ((((old >> 18) ^ old) >> 27) as u32).rotate_right((old >> 59) as u32)
    }
}

fn seats(call: Call) -> Vec<Seat> {
    let mutator = |number| {
        Seat::Mutator(Mutator {
            number,
            calls: vec![call; CALLS],
            replies: Vec::with_capacity(CALLS),
            stage: Stage::Arriving,
            object: 0,
            value: 0,
        })
    };
    let mut seats: Vec<Seat> = (0..MUTATORS as u32).map(mutator).collect();
    seats.push(Seat::Server { ended: false });
    seats.push(Seat::Collector {
        asks: false,
        ended: false,
    });
    seats
}

/// The places of the next seats among those that have not ended.
enum Places {
    Turns {
        next: usize,
    },
    Drawn {
        draws: Draws,
        word: u32,
        next: usize,
    },
}

impl Places {
    fn take(&mut self, count: usize) -> usize {
        match self {
            Places::Turns { next } => {
                let place = *next % count;
                *next = place + 1;
                place
            }
            Places::Drawn { draws, word, next } => {
                let place = *next;
                *word = draws.next();
                *next = *word as usize % count;
                place
            }
        }
    }

    /// The seat at this place has ended, and so many are left.
    fn leave(&mut self, place: usize, count: usize) {
        match self {
            Places::Turns { next } => *next = place,
            Places::Drawn { word, next, .. } => *next = *word as usize % count.max(1),
        }
    }
}

fn heap(entries: u32) -> Heap {
    let mut words = vec![0; WORDS];
    for mutator in 0..MUTATORS as u32 {
        words[(ROOTS + mutator * ROOTS_OF_A_MUTATOR) as usize] = 2 << 62;
    }
    words[ENTRIES as usize] = u64::from(REGIONS);
    words[REGIONS as usize] = 1;
    Heap { words, entries }
}

/// The steps made in an order, and the nanoseconds that they took.
fn run(call: Call, seed: Option<u64>, entries: u32) -> (u64, u128) {
    let mut heap = heap(entries);
    let mut journal = Vec::with_capacity(MUTATORS * CALLS);
    let mut seats = seats(call);
    let mut live: Vec<usize> = (0..seats.len()).collect();
    let mut places = match seed {
        None => Places::Turns { next: 0 },
        Some(seed) => Places::Drawn {
            draws: Draws(seed),
            word: 0,
            next: 0,
        },
    };
    let mut steps = 0;
    let start = Instant::now();
    while live.len() > 1 {
        let place = places.take(live.len());
        let seat = &mut seats[live[place]];
        seat.step(&mut heap, &mut journal);
        steps += 1;
        if seat.has_ended() {
            live.remove(place);
            places.leave(place, live.len());
        }
    }
    (steps, start.elapsed().as_nanos())
}

/// The steps made in a second, in millions, that `get` takes more than `show`.
fn speed(seed: Option<u64>, entries: u32) -> u128 {
    let get = Call::Get {
        to: 1,
        from: 0,
        field: 0,
    };
    let (more, longer) = run(get, seed, entries);
    let (fewer, shorter) = run(Call::Show { root: 0 }, seed, entries);
    u128::from(more - fewer) * 1000 / longer.saturating_sub(shorter).max(1)
}

fn main() {
    // no number that a compiler knows
    let entries = std::env::args().count() as u32 + 3;
    for _ in 0..3 {
        println!(
            "yardstick turns: {} million steps a second",
            speed(None, entries)
        );
        println!(
            "yardstick 7: {} million steps a second",
            speed(Some(7), entries)
        );
    }
}
