// Plain Rust beside the proved queues: the same loads as the program `queue_speed`, written as one would without
// proofs. It does the same work: a trait with the same calls and refusals, records in lent memory, capacity tests
// before each write, add, read into a buffer, drop.
// packed: a ring of octets, each record behind its length in two octets, at most two block copies for each run.
// The ring's calls are always inlined: a copy of the two octets of a length is then one move, not a call.
// slot: slots of one width, with a slice of notes (place and length) used as a ring.
// Standard output: name, length, records held, records, octets and a sum over octets read, as `queue_speed` writes
// them. Standard error: name, length, records held, rounds in a batch,
// nanoseconds of the fastest batch.
use std::hint::black_box;
use std::time::Instant;

pub enum Refusal {
    Empty,
    Place,
    Length,
    NoRoom,
}

pub trait Queue {
    fn add(&mut self, octets: &[u8]) -> Result<(), Refusal>;
    fn read_from(&mut self, place: usize, out: &mut [u8]) -> Result<usize, Refusal>;
    fn drop(&mut self) -> Result<(), Refusal>;
}

struct Ring<'a> {
    octets: &'a mut [u8],
    start: usize,
    used: usize,
}

impl<'a> Ring<'a> {
    #[inline(always)]
    fn place(&self, k: usize) -> usize {
        let at = self.start + k;
        if at < self.octets.len() { at } else { at - self.octets.len() }
    }

    #[inline(always)]
    fn add_run(&mut self, run: &[u8]) {
        let at = self.place(self.used);
        let tail = self.octets.len() - at;
        if run.len() <= tail {
            self.octets[at..at + run.len()].copy_from_slice(run);
        } else {
            self.octets[at..].copy_from_slice(&run[..tail]);
            self.octets[..run.len() - tail].copy_from_slice(&run[tail..]);
        }
        self.used += run.len();
    }

    #[inline(always)]
    fn read_run(&self, from: usize, out: &mut [u8]) {
        let at = self.place(from);
        let tail = self.octets.len() - at;
        if out.len() <= tail {
            out.copy_from_slice(&self.octets[at..at + out.len()]);
        } else {
            let back = out.len() - tail;
            out[..tail].copy_from_slice(&self.octets[at..]);
            out[tail..].copy_from_slice(&self.octets[..back]);
        }
    }

    #[inline(always)]
    fn drop_run(&mut self, n: usize) {
        self.start = self.place(n);
        self.used -= n;
    }
}

struct Packed<'a> {
    ring: Ring<'a>,
    count: usize,
}

impl<'a> Packed<'a> {
    fn new(octets: &'a mut [u8]) -> Self {
        Packed { ring: Ring { octets, start: 0, used: 0 }, count: 0 }
    }

    fn first_length(&self) -> Result<usize, Refusal> {
        if self.count == 0 {
            return Err(Refusal::Empty);
        }
        let high = self.ring.octets[self.ring.place(0)];
        let low = self.ring.octets[self.ring.place(1)];
        Ok(high as usize * 256 + low as usize)
    }
}

impl<'a> Queue for Packed<'a> {
    fn add(&mut self, octets: &[u8]) -> Result<(), Refusal> {
        let n = octets.len();
        let size = self.ring.octets.len();
        if n == 0 || n > 65535 || n + 2 > size {
            return Err(Refusal::Length);
        }
        if n + 2 > size - self.ring.used {
            return Err(Refusal::NoRoom);
        }
        self.ring.add_run(&(n as u16).to_be_bytes());
        self.ring.add_run(octets);
        self.count += 1;
        Ok(())
    }

    fn read_from(&mut self, place: usize, out: &mut [u8]) -> Result<usize, Refusal> {
        let n = self.first_length()?;
        if place > n {
            return Err(Refusal::Place);
        }
        let most = (n - place).min(out.len());
        self.ring.read_run(place + 2, &mut out[..most]);
        Ok(most)
    }

    fn drop(&mut self) -> Result<(), Refusal> {
        let n = self.first_length()?;
        self.ring.drop_run(n + 2);
        self.count -= 1;
        Ok(())
    }
}

#[derive(Clone, Copy)]
struct Note {
    place: usize,
    length: usize,
}

struct Slotted<'a> {
    octets: &'a mut [u8],
    notes: &'a mut [Note],
    width: usize,
    first: usize,
    count: usize,
}

impl<'a> Queue for Slotted<'a> {
    fn add(&mut self, octets: &[u8]) -> Result<(), Refusal> {
        if octets.is_empty() || octets.len() > self.width {
            return Err(Refusal::Length);
        }
        if self.count >= self.notes.len() {
            return Err(Refusal::NoRoom);
        }
        let mut slot = self.first + self.count;
        if slot >= self.notes.len() {
            slot -= self.notes.len();
        }
        let place = slot * self.width;
        self.octets[place..place + octets.len()].copy_from_slice(octets);
        self.notes[slot] = Note { place, length: octets.len() };
        self.count += 1;
        Ok(())
    }

    fn read_from(&mut self, place: usize, out: &mut [u8]) -> Result<usize, Refusal> {
        if self.count == 0 {
            return Err(Refusal::Empty);
        }
        let note = self.notes[self.first];
        if place > note.length {
            return Err(Refusal::Place);
        }
        let most = (note.length - place).min(out.len());
        let at = note.place + place;
        out[..most].copy_from_slice(&self.octets[at..at + most]);
        Ok(most)
    }

    fn drop(&mut self) -> Result<(), Refusal> {
        if self.count == 0 {
            return Err(Refusal::Empty);
        }
        self.first = if self.first + 1 < self.notes.len() { self.first + 1 } else { 0 };
        self.count -= 1;
        Ok(())
    }
}

fn mark(record: &mut [u8], number: u32) {
    if record.len() > 0 {
        record[0] = (number % 256) as u8;
    }
}

fn ends(out: &[u8]) -> u64 {
    match out {
        [first, .., last] => *first as u64 * 256 + *last as u64,
        _ => 0,
    }
}

struct Tally {
    records: u32,
    octets: u64,
    sum: u64,
}

// `black_box` keeps the compiler from leaving out what is only timed.
fn churn<Q: Queue>(queue: &mut Q, record: &mut [u8], out: &mut [u8], rounds: u32, tally: &mut Tally) {
    for number in 0..rounds {
        let _ = queue.add(black_box(&*record));
        mark(record, number);
        if let Ok(n) = queue.read_from(0, out) {
            tally.octets += n as u64;
            tally.sum += ends(black_box(&*out));
        }
        if let Ok(()) = queue.drop() {
            tally.records += 1;
        }
    }
}

// How often a load is timed. The fastest time counts, since other work on the machine only adds to it.
const BATCHES: u32 = 20;

fn measure<Q: Queue>(name: &str, mut queue: Q, length: usize, held: u32, rounds: u32) {
    let mut record = vec![7u8; length];
    let mut out = vec![0u8; length];
    for number in 0..held {
        mark(&mut record, number);
        let _ = queue.add(&record);
    }
    let mut tally = Tally { records: 0, octets: 0, sum: 0 };
    let mut best = u128::MAX;
    for _ in 0..BATCHES {
        let start = Instant::now();
        churn(&mut queue, &mut record, &mut out, rounds, &mut tally);
        best = best.min(start.elapsed().as_nanos());
    }
    println!("{name} {length} {held} {} {} {}", tally.records, tally.octets, tally.sum);
    eprintln!("{name} {length} {held} {rounds} {best}");
}

// The arguments are the rounds in a batch, and then lengths.
fn main() {
    let mut numbers = std::env::args().skip(1).filter_map(|text| text.parse::<u32>().ok());
    let rounds = numbers.next().unwrap_or(100);
    let mut lengths: Vec<usize> = numbers.map(|n| n as usize).collect();
    if lengths.is_empty() {
        lengths = vec![64, 512, 2061];
    }
    for length in lengths {
        for held in [10u32, 10000] {
            let records = held as usize + 2;
            let mut octets = vec![0; (length + 2) * records + 5];
            measure("packed", Packed::new(&mut octets), length, held, rounds);
            let mut octets = vec![0; length * records];
            let mut notes = vec![Note { place: 0, length: 0 }; records];
            let queue = Slotted { octets: &mut octets, notes: &mut notes, width: length, first: 0, count: 0 };
            measure("slot", queue, length, held, rounds);
        }
    }
}
