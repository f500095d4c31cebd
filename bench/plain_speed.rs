// The same work as the program `speed` (crates/speed), on a plain Rust provider (bench/plain_provider.rs): over a
// `VecDeque<Vec<u8>>` for both queues (deque), and over a ring of octets for both (ring). And the bare copy of as many
// octets of data (copy).
// Standard output: name, length, records in a PDU, records held, and the tally as `speed` writes it. Standard error:
// name, length, records in a PDU, records held, rounds in a batch, nanoseconds of the fastest batch.
use std::hint::black_box;
use std::time::Instant;

// The whole provider stands there, also calls that no load makes.
#[allow(dead_code)]
mod plain_provider;

use plain_provider::{ByteRing, Deque, HEADER, LONGEST_RECORD, Moved, Performed, Provider, Queue, Refused, Ticked};

const IDENTIFIER: [u8; 3] = [0x61, 0x62, 0x63];
const BIND: [u8; 10] = [0x49, 0x56, 100, 0, 1, 2, 3, 0x61, 0x62, 0x63];
const START: [u8; 24] = [0x49, 0x56, 0, 0, 2, 0, 1, 0, 1, 0, 0, 0, 0, 0, 0, 1, 0, 2, 0, 0, 0, 0, 0, 0];

#[derive(Default)]
struct Tally {
    frames: u32,
    refused: u32,
    pdus: u32,
    octets: u64,
    sum: u64,
}

impl Tally {
    fn mix(&mut self, number: u64) {
        self.sum = self.sum.wrapping_mul(31).wrapping_add(number);
    }

    fn acquired(&mut self, taken: bool) {
        if taken {
            self.frames += 1;
        } else {
            self.refused += 1;
        }
    }

    // Every octet enters the sum, or only the ends while time is taken.
    fn collected(&mut self, pdu: &[u8], whole: bool) {
        self.pdus += 1;
        self.octets += pdu.len() as u64;
        if whole {
            for octet in pdu {
                self.mix(*octet as u64);
            }
        } else {
            self.mix(pdu[13.min(pdu.len() - 1)] as u64);
            self.mix(pdu[pdu.len() - 1] as u64);
        }
    }

    fn show(&self, head: &str) {
        println!("{head} {} {} {} {} {}", self.frames, self.refused, self.pdus, self.octets, self.sum);
    }
}

fn receive<Q: Queue>(provider: &mut Provider<Q>, data: &mut [u8], number: u32, tally: &mut Tally) {
    let last = data.len() - 1;
    data[last] = (number / 256 % 256) as u8;
    data[0] = (number % 256) as u8;
    tally.acquired(provider.acquire(0, 1, number % 86_400_000, number % 1000, data).is_ok());
}

fn collect<Q: Queue>(provider: &mut Provider<Q>, out: &mut [u8], tally: &mut Tally, whole: bool) {
    if let Ok(length) = provider.collect(out) {
        tally.collected(&out[..length], whole);
    }
}

fn serve<Q: Queue>(provider: &mut Provider<Q>, data: &mut [u8], out: &mut [u8], rounds: u32, tally: &mut Tally, whole: bool) {
    for number in 0..rounds {
        receive(provider, data, number, tally);
        if provider.move_record() == Moved::Sent {
            collect(provider, out, tally, whole);
            provider.move_record();
        }
        if number % 32 == 0 && provider.tick() == Ticked::Sent {
            collect(provider, out, tally, whole);
        }
    }
}

// How often a load is timed. The fastest time counts, since other work on the machine only adds to it.
const BATCHES: u32 = 20;

struct Load {
    length: usize,
    buffer_size: u32,
    held: u32,
    rounds: u32,
}

fn measure<Q: Queue>(name: &str, frames: Q, transport: Q, load: &Load) {
    let &Load { length, buffer_size, held, rounds } = load;
    let mut provider = Provider::open(frames, transport, buffer_size, 10, 2, &IDENTIFIER);
    if provider.invoke(&BIND).is_err() || provider.invoke(&START).is_err() {
        println!("{name} {length} {buffer_size} {held} not opened");
        return;
    }
    let mut data = vec![7; length];
    let mut out = vec![0; LONGEST_RECORD * buffer_size as usize];
    let mut tally = Tally::default();
    for number in 0..held {
        receive(&mut provider, &mut data, number, &mut tally);
    }
    serve(&mut provider, &mut data, &mut out, rounds.min(1000), &mut tally, true);
    let mut best = u128::MAX;
    for _ in 0..BATCHES {
        let start = Instant::now();
        serve(&mut provider, &mut data, &mut out, rounds, &mut tally, false);
        best = best.min(start.elapsed().as_nanos());
    }
    tally.show(&format!("{name} {length} {buffer_size} {held}"));
    eprintln!("{name} {length} {buffer_size} {held} {rounds} {best}");
}

// As many octets as a frame's data, from one place to another.
fn copy(load: &Load) {
    let &Load { length, buffer_size, held, rounds } = load;
    let data = vec![7u8; length];
    let mut out = vec![0u8; length];
    let mut best = u128::MAX;
    for _ in 0..BATCHES {
        let start = Instant::now();
        for _ in 0..rounds {
            black_box(&mut out[..]).copy_from_slice(black_box(&data[..]));
        }
        best = best.min(start.elapsed().as_nanos());
    }
    eprintln!("copy {length} {buffer_size} {held} {rounds} {best}");
}

// The same octets as in `speed`: for so many records, but at least one of the longest, and a few more.
fn sizes(load: &Load) -> (usize, usize) {
    let frames = (load.length + HEADER + 2) * (load.held as usize + 2);
    let transport = (LONGEST_RECORD * load.buffer_size as usize + 2) * 4;
    (frames.max(LONGEST_RECORD) + 5, transport + 5)
}

fn play(name: &str, load: &Load) {
    let (frames, transport) = sizes(load);
    match name {
        "deque" => measure(name, Deque::new(frames), Deque::new(transport), load),
        "ring" => measure(name, ByteRing::new(frames), ByteRing::new(transport), load),
        _ => copy(load),
    }
}

const START_ALL: &[u8] = &[0x49, 0x56, 0, 0, 3, 2, 0, 0];
const START_SPAN: &[u8] = &[0x49, 0x56, 0, 0, 4, 1, 1, 0, 1, 0, 0x36, 0xee, 0x80, 0, 0, 1, 0, 1, 4, 0x4a, 0xa2, 0, 0, 0];

// Calls of all kinds in no order: see crates/speed/src/mixed.rt.
struct Dice(u64);

impl Dice {
    fn roll(&mut self) -> u32 {
        self.0 = self.0.wrapping_mul(6_364_136_223_846_793_005).wrapping_add(1_442_695_040_888_963_407);
        (self.0 >> 33) as u32
    }
}

fn invocation_code(answer: Result<Performed, Refused>) -> u64 {
    match answer {
        Ok(Performed::Started { id }) => 100 + id as u64,
        Ok(Performed::Stopped { id }) => 200 + id as u64,
        Ok(Performed::Bound { id, version }) => 300 + id as u64 + version as u64,
        Ok(Performed::Unbound { id }) => 400 + id as u64,
        Ok(Performed::Aborted { lost }) => 500 + lost as u64,
        Err(Refused::Undecodable { lost, .. }) => 600 + lost as u64,
        Err(Refused::Protocol { lost }) => 700 + lost as u64,
        Err(Refused::Number(number)) => number as u64,
    }
}

fn reception_code(answer: Result<(), u8>) -> u64 {
    answer.err().unwrap_or(0) as u64
}

fn invocation(dice: &mut Dice) -> &'static [u8] {
    match dice.roll() % 32 {
        0 => &[0x49, 0x56, 102, 0, 7, 1],
        1 => &[0x49, 0x56, 104, 127],
        2 => &[0x49, 0x56, 100, 0, 8, 2, 3, 0x61, 0x62, 0x64],
        3 => &[0x49, 0x56, 100, 0, 9, 1, 3, 0x61, 0x62, 0x63],
        4 => &[0x49, 0x56, 0, 0, 5, 1, 1, 0, 1, 4, 0x4a, 0xa2, 0, 0, 0, 1, 0, 1, 0, 0x36, 0xee, 0x80, 0, 0],
        5 => &[0x49, 0x56, 2],
        6..=9 => &[0x49, 0x56, 2, 0, 6],
        10..=15 => START_SPAN,
        16..=21 => START_ALL,
        _ => &BIND,
    }
}

fn step<Q: Queue>(provider: &mut Provider<Q>, dice: &mut Dice, data: &[u8], out: &mut [u8], tally: &mut Tally) {
    match dice.roll() % 64 {
        0..=19 => {
            let quality = (dice.roll() % 4) as u8;
            let millisecond = dice.roll() % 90_000_000;
            let microsecond = dice.roll() % 1_010;
            let length = (dice.roll() % 2_060) as usize;
            let answer = provider.acquire(quality, 1, millisecond, microsecond, &data[..length]);
            tally.acquired(answer.is_ok());
            tally.mix(reception_code(answer));
        }
        20 => {
            let kind = (dice.roll() % 3) as u8;
            let millisecond = dice.roll() % 90_000_000;
            let status = match dice.roll() % 16 {
                0 => 2,
                1 => 3,
                2 => 1,
                _ => 0,
            };
            tally.mix(reception_code(provider.note(kind, 1, millisecond, 5, status)));
        }
        21..=46 => tally.mix(40 + provider.move_record() as u64),
        47..=53 => tally.mix(50 + provider.tick() as u64),
        54..=61 => {
            let room = (dice.roll() as usize % 12_400).min(out.len());
            match provider.collect(&mut out[..room]) {
                Ok(length) => tally.collected(&out[..length], true),
                Err(number) => tally.mix(number as u64),
            }
        }
        62 => {
            tally.mix(invocation_code(provider.invoke(&BIND)));
            let octets = if dice.roll() % 2 == 0 { START_ALL } else { START_SPAN };
            tally.mix(invocation_code(provider.invoke(octets)));
        }
        _ => tally.mix(invocation_code(provider.invoke(invocation(dice)))),
    }
}

fn mixed<Q: Queue>(new: fn(usize) -> Q) {
    let mut data = vec![7; 2100];
    let mut out = vec![0; 6200];
    let mut tally = Tally::default();
    for seed in 0..60 {
        let mut provider = Provider::open(new(10_000), new(9_000), 3, 4, 2, &IDENTIFIER);
        let mut dice = Dice(seed);
        for number in 0..400u32 {
            data[0] = (number % 256) as u8;
            step(&mut provider, &mut dice, &data, &mut out, &mut tally);
        }
    }
    tally.show("mixed");
}

// The arguments: numbers are the rounds in a batch, the records held, and then lengths; names are deque, ring and
// copy.
fn main() {
    let mut numbers = Vec::new();
    let mut names = Vec::new();
    for text in std::env::args().skip(1) {
        match text.parse::<u32>() {
            Ok(number) => numbers.push(number),
            Err(_) => names.push(text),
        }
    }
    let rounds = numbers.first().copied().unwrap_or(100);
    let held = numbers.get(1).copied().unwrap_or(10);
    let mut lengths: Vec<usize> = numbers.iter().skip(2).map(|n| *n as usize).collect();
    if lengths.is_empty() {
        lengths = vec![64, 223, 1115, 2048];
    }
    if names.is_empty() {
        names = ["deque", "ring", "copy"].map(String::from).to_vec();
    }
    mixed(Deque::new);
    mixed(ByteRing::new);
    for name in &names {
        for length in &lengths {
            for buffer_size in [1, 8] {
                play(name, &Load { length: *length, buffer_size, held, rounds });
            }
        }
    }
}
