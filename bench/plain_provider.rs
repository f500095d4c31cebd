// A provider of the same rules and calls as the proved one (docs/PROVIDER.md, docs/FORMATS.md), as one would write it
// in plain Rust without proofs: for bench/plain_speed.rs.
use std::collections::VecDeque;

pub const DATA_LIMIT: usize = 2048;
pub const HEADER: usize = 13;
pub const NOTIFICATION: usize = 12;
pub const LONGEST_RECORD: usize = HEADER + DATA_LIMIT;

// A bounded queue of records. A record is given in two parts, and seen in two parts, since a ring wraps.
pub trait Queue {
    fn is_empty(&self) -> bool;
    fn largest(&self) -> usize;
    // Whether the record was taken.
    fn add(&mut self, head: &[u8], tail: &[u8]) -> bool;
    // Takes what the buffer has and empties it, if there is room.
    fn add_buffer(&mut self, buffer: &mut Vec<u8>) -> bool;
    fn first(&self) -> Option<(&[u8], &[u8])>;
    fn drop_first(&mut self);
}

// Room as in the ring below, so that the same records are taken.
fn fits(size: usize, used: usize, length: usize) -> bool {
    length > 0 && length <= (size - 2).min(65535) && length + 2 <= size - used
}

// Records of their own, within a bound on their octets.
pub struct Deque {
    records: VecDeque<Vec<u8>>,
    size: usize,
    used: usize,
}

impl Deque {
    pub fn new(size: usize) -> Self {
        Deque { records: VecDeque::new(), size, used: 0 }
    }
}

impl Queue for Deque {
    fn is_empty(&self) -> bool {
        self.records.is_empty()
    }

    fn largest(&self) -> usize {
        (self.size - 2).min(65535)
    }

    fn add(&mut self, head: &[u8], tail: &[u8]) -> bool {
        let length = head.len() + tail.len();
        if !fits(self.size, self.used, length) {
            return false;
        }
        let mut record = Vec::with_capacity(length);
        record.extend_from_slice(head);
        record.extend_from_slice(tail);
        self.records.push_back(record);
        self.used += length + 2;
        true
    }

    fn add_buffer(&mut self, buffer: &mut Vec<u8>) -> bool {
        if !fits(self.size, self.used, buffer.len()) {
            return false;
        }
        self.used += buffer.len() + 2;
        let fresh = Vec::with_capacity(buffer.len());
        self.records.push_back(std::mem::replace(buffer, fresh));
        true
    }

    fn first(&self) -> Option<(&[u8], &[u8])> {
        self.records.front().map(|record| (&record[..], &[][..]))
    }

    fn drop_first(&mut self) {
        if let Some(record) = self.records.pop_front() {
            self.used -= record.len() + 2;
        }
    }
}

// Records in a ring of octets, each behind its length in two octets.
pub struct ByteRing {
    octets: Box<[u8]>,
    start: usize,
    used: usize,
}

impl ByteRing {
    pub fn new(size: usize) -> Self {
        ByteRing { octets: vec![0; size].into_boxed_slice(), start: 0, used: 0 }
    }

    #[inline(always)]
    fn place(&self, k: usize) -> usize {
        let at = self.start + k;
        if at < self.octets.len() { at } else { at - self.octets.len() }
    }

    #[inline(always)]
    fn push(&mut self, run: &[u8]) {
        let at = self.place(self.used);
        let tail = self.octets.len() - at;
        if run.len() <= tail {
            self.octets[at..at + run.len()].copy_from_slice(run);
        } else {
            self.octets[at..].copy_from_slice(&run[..tail]);
            self.octets[..run.len() - tail].copy_from_slice(&run[tail..]);
        }
        self.used += run.len();
    }

    #[inline(always)]
    fn first_length(&self) -> usize {
        u16::from_be_bytes([self.octets[self.place(0)], self.octets[self.place(1)]]) as usize
    }
}

impl Queue for ByteRing {
    fn is_empty(&self) -> bool {
        self.used == 0
    }

    fn largest(&self) -> usize {
        (self.octets.len() - 2).min(65535)
    }

    fn add(&mut self, head: &[u8], tail: &[u8]) -> bool {
        let length = head.len() + tail.len();
        if !fits(self.octets.len(), self.used, length) {
            return false;
        }
        self.push(&(length as u16).to_be_bytes());
        self.push(head);
        self.push(tail);
        true
    }

    fn add_buffer(&mut self, buffer: &mut Vec<u8>) -> bool {
        let taken = self.add(buffer, &[]);
        if taken {
            buffer.clear();
        }
        taken
    }

    fn first(&self) -> Option<(&[u8], &[u8])> {
        if self.used == 0 {
            return None;
        }
        let length = self.first_length();
        let at = self.place(2);
        let tail = self.octets.len() - at;
        if length <= tail {
            Some((&self.octets[at..at + length], &[]))
        } else {
            Some((&self.octets[at..], &self.octets[..length - tail]))
        }
    }

    fn drop_first(&mut self) {
        if self.used > 0 {
            let n = self.first_length() + 2;
            self.start = self.place(n);
            self.used -= n;
        }
    }
}

// Fields in the order of their weight, so that the derived order is that of times.
#[derive(Clone, Copy, PartialEq, Eq, PartialOrd, Ord)]
pub struct Time {
    day: u16,
    millisecond: u32,
    microsecond: u16,
}

impl Time {
    fn new(day: u16, millisecond: u32, microsecond: u32) -> Option<Time> {
        if millisecond > 86_399_999 || microsecond > 999 {
            return None;
        }
        Some(Time { day, millisecond, microsecond: microsecond as u16 })
    }

    fn octets(&self) -> [u8; 8] {
        let mut out = [0; 8];
        out[..2].copy_from_slice(&self.day.to_be_bytes());
        out[2..6].copy_from_slice(&self.millisecond.to_be_bytes());
        out[6..].copy_from_slice(&self.microsecond.to_be_bytes());
        out
    }
}

#[derive(Clone, Copy)]
pub enum FaultKind {
    Short,
    Mark,
    Value,
    Extra,
}

#[derive(Clone, Copy)]
pub struct Fault {
    pub kind: FaultKind,
    pub place: usize,
}

// Goes through octets field by field; presence comes before value.
struct Cursor<'a> {
    octets: &'a [u8],
    place: usize,
}

impl<'a> Cursor<'a> {
    fn take(&mut self, n: usize) -> Result<&'a [u8], Fault> {
        let part = self.octets.get(self.place..self.place + n).ok_or(Fault { kind: FaultKind::Short, place: self.octets.len() })?;
        self.place += n;
        Ok(part)
    }

    fn octet(&mut self) -> Result<u8, Fault> {
        Ok(self.take(1)?[0])
    }

    fn two(&mut self) -> Result<u16, Fault> {
        let part = self.take(2)?;
        Ok(u16::from_be_bytes([part[0], part[1]]))
    }

    fn four(&mut self) -> Result<u32, Fault> {
        let part = self.take(4)?;
        Ok(u32::from_be_bytes([part[0], part[1], part[2], part[3]]))
    }

    // A fault of the field of `n` octets that was just read, unless its value is allowed.
    fn expect(&self, n: usize, allowed: bool) -> Result<(), Fault> {
        if allowed { Ok(()) } else { Err(Fault { kind: FaultKind::Value, place: self.place - n }) }
    }

    fn time(&mut self) -> Result<Time, Fault> {
        let day = self.two()?;
        let millisecond = self.four()?;
        self.expect(4, millisecond <= 86_399_999)?;
        let microsecond = self.two()?;
        self.expect(2, microsecond <= 999)?;
        Ok(Time { day, millisecond, microsecond })
    }

    fn time_if(&mut self) -> Result<Option<Time>, Fault> {
        let given = self.octet()?;
        self.expect(1, given <= 1)?;
        if given == 1 { Ok(Some(self.time()?)) } else { Ok(None) }
    }

    fn end(&self) -> Result<(), Fault> {
        if self.place == self.octets.len() { Ok(()) } else { Err(Fault { kind: FaultKind::Extra, place: self.place }) }
    }
}

#[derive(Clone, Copy)]
struct Selection {
    quality: u8,
    start: Option<Time>,
    stop: Option<Time>,
}

enum Invocation<'a> {
    Start { id: u16, selection: Selection },
    Stop { id: u16 },
    Bind { id: u16, version: u8, identifier: &'a [u8] },
    Unbind { id: u16, reason: u8 },
    PeerAbort,
}

fn read_invocation(octets: &[u8]) -> Result<Invocation<'_>, Fault> {
    let mut c = Cursor { octets, place: 0 };
    if c.two()? != 0x4956 {
        return Err(Fault { kind: FaultKind::Mark, place: 0 });
    }
    let operation = c.octet()?;
    c.expect(1, matches!(operation, 0 | 2 | 100 | 102 | 104))?;
    if operation == 104 {
        c.octet()?;
        c.end()?;
        return Ok(Invocation::PeerAbort);
    }
    let id = c.two()?;
    let invocation = match operation {
        0 => {
            let quality = c.octet()?;
            c.expect(1, quality <= 2)?;
            Invocation::Start { id, selection: Selection { quality, start: c.time_if()?, stop: c.time_if()? } }
        }
        2 => Invocation::Stop { id },
        100 => {
            let version = c.octet()?;
            c.expect(1, version >= 1)?;
            let length = c.octet()?;
            c.expect(1, (3..=16).contains(&length))?;
            Invocation::Bind { id, version, identifier: c.take(length as usize)? }
        }
        _ => {
            let reason = c.octet()?;
            c.expect(1, matches!(reason, 0 | 1 | 2 | 127))?;
            Invocation::Unbind { id, reason }
        }
    };
    c.end()?;
    Ok(invocation)
}

// What decides about a record.
enum Content {
    Frame { quality: u8, time: Time },
    Notification,
}

// Reads the front of a record of a whole length; a record in the frame buffer was written by this provider, so of a
// notification the mark is enough.
fn content(front: &[u8], length: usize) -> Option<Content> {
    let mut c = Cursor { octets: front, place: 0 };
    match c.two().ok()? {
        0x4652 => {
            let quality = c.octet().ok()?;
            let time = c.time().ok()?;
            let data = c.two().ok()? as usize;
            if quality > 2 || data + HEADER != length {
                return None;
            }
            Some(Content::Frame { quality, time })
        }
        0x4E54 if length == NOTIFICATION => Some(Content::Notification),
        _ => None,
    }
}

// What a record in two parts says; its front may go round the end of a ring.
#[inline]
fn content_of(near: &[u8], far: &[u8]) -> Option<Content> {
    let length = near.len() + far.len();
    if near.len() >= HEADER || far.is_empty() {
        return content(near, length);
    }
    let mut front = [0; HEADER];
    let more = far.len().min(HEADER - near.len());
    front[..near.len()].copy_from_slice(near);
    front[near.len()..near.len() + more].copy_from_slice(&far[..more]);
    content(&front[..near.len() + more], length)
}

#[derive(Clone, Copy, PartialEq, Eq)]
enum Phase {
    Unbound,
    Ready,
    Active,
    Closed,
}

#[derive(Clone, Copy, PartialEq, Eq)]
pub enum Moved {
    Idle,
    Sent,
    Waiting,
    Ended,
    Moved,
    PassedOver,
}

#[derive(Clone, Copy, PartialEq, Eq)]
pub enum Ticked {
    Quiet,
    Sent,
    Waiting,
}

pub enum Performed {
    Started { id: u16 },
    Stopped { id: u16 },
    Bound { id: u16, version: u8 },
    Unbound { id: u16 },
    Aborted { lost: usize },
}

// The number of a refusal; the two that end an association tell how many accepted records are lost.
pub enum Refused {
    Undecodable { fault: Fault, lost: usize },
    Protocol { lost: usize },
    Number(u8),
}

pub struct Provider<Q> {
    frames: Q,
    transport: Q,
    buffer_size: usize,
    latency_limit: u32,
    version: u8,
    identifier: Vec<u8>,
    opening: u8,
    phase: Phase,
    selection: Selection,
    end_mark: bool,
    halted: bool,
    buffer: Vec<u8>,
    count: usize,
    accepted: usize,
    age: u32,
}

const END_OF_DATA: [u8; NOTIFICATION] = [0x4e, 0x54, 3, 0, 0, 0, 0, 0, 0, 0, 0, 0];

impl<Q: Queue> Provider<Q> {
    pub fn open(frames: Q, transport: Q, buffer_size: u32, latency_limit: u32, version: u32, identifier: &[u8]) -> Self {
        let in_range = (1..=8).contains(&buffer_size)
            && (1..=3600).contains(&latency_limit)
            && (1..=255).contains(&version)
            && (3..=16).contains(&identifier.len());
        let opening = if !in_range {
            1
        } else if !frames.is_empty() || !transport.is_empty() {
            2
        } else if frames.largest() < LONGEST_RECORD || transport.largest() < buffer_size as usize * LONGEST_RECORD {
            3
        } else {
            0
        };
        Provider {
            frames,
            transport,
            buffer_size: buffer_size as usize,
            latency_limit,
            version: version as u8,
            identifier: identifier.to_vec(),
            opening,
            phase: if opening == 0 { Phase::Unbound } else { Phase::Closed },
            selection: Selection { quality: 2, start: None, stop: None },
            end_mark: false,
            halted: false,
            buffer: Vec::with_capacity(if opening == 0 { buffer_size as usize * LONGEST_RECORD } else { 0 }),
            count: 0,
            accepted: 0,
            age: 0,
        }
    }

    pub fn opening_number(&self) -> u8 {
        self.opening
    }

    pub fn acquire(&mut self, quality: u8, day: u16, millisecond: u32, microsecond: u32, data: &[u8]) -> Result<(), u8> {
        if self.phase == Phase::Closed {
            return Err(4);
        }
        if quality > 2 {
            return Err(10);
        }
        let time = Time::new(day, millisecond, microsecond).ok_or(11)?;
        if data.is_empty() || data.len() > DATA_LIMIT {
            return Err(12);
        }
        let mut header = [0; HEADER];
        header[..2].copy_from_slice(&[0x46, 0x52]);
        header[2] = quality;
        header[3..11].copy_from_slice(&time.octets());
        header[11..].copy_from_slice(&(data.len() as u16).to_be_bytes());
        if self.frames.add(&header, data) { Ok(()) } else { Err(13) }
    }

    pub fn note(&mut self, kind: u8, day: u16, millisecond: u32, microsecond: u32, status: u8) -> Result<(), u8> {
        if self.phase == Phase::Closed {
            return Err(4);
        }
        let mut record = [0; NOTIFICATION];
        record[..2].copy_from_slice(&[0x4e, 0x54]);
        match kind {
            0 => {
                let time = Time::new(day, millisecond, microsecond).ok_or(11)?;
                record[3..11].copy_from_slice(&time.octets());
            }
            1 if status <= 2 => {
                record[2] = 1;
                record[11] = status;
            }
            _ => return Err(14),
        }
        if !self.frames.add(&record, &[]) {
            return Err(13);
        }
        if kind == 1 {
            self.halted = status == 2;
        }
        Ok(())
    }

    fn send(&mut self) -> bool {
        if !self.transport.add_buffer(&mut self.buffer) {
            return false;
        }
        self.count = 0;
        self.accepted = 0;
        true
    }

    fn selects(&self, content: &Content) -> bool {
        match content {
            Content::Frame { quality, time } => {
                (self.selection.quality == 2 || self.selection.quality == *quality)
                    && self.selection.start.is_none_or(|start| *time >= start)
            }
            Content::Notification => true,
        }
    }

    fn enter(&mut self) {
        if self.count == 0 {
            self.age = 0;
        }
        self.count += 1;
    }

    pub fn move_record(&mut self) -> Moved {
        if self.phase != Phase::Active {
            return Moved::Idle;
        }
        if self.count == self.buffer_size || (self.end_mark && self.count > 0) {
            return if self.send() { Moved::Sent } else { Moved::Waiting };
        }
        if self.end_mark {
            return Moved::Idle;
        }
        let Some((near, far)) = self.frames.first() else {
            return Moved::Idle;
        };
        let Some(content) = content_of(near, far) else {
            return Moved::Idle;
        };
        if let (Content::Frame { time, .. }, Some(stop)) = (&content, self.selection.stop) {
            if *time > stop {
                self.buffer.extend_from_slice(&END_OF_DATA);
                self.enter();
                self.end_mark = true;
                return Moved::Ended;
            }
        }
        let selected = self.selects(&content);
        if selected {
            self.buffer.extend_from_slice(near);
            self.buffer.extend_from_slice(far);
            self.accepted += 1;
            self.enter();
        }
        self.frames.drop_first();
        if selected { Moved::Moved } else { Moved::PassedOver }
    }

    pub fn tick(&mut self) -> Ticked {
        if self.phase != Phase::Active || self.count == 0 {
            return Ticked::Quiet;
        }
        self.age = (self.age + 1).min(self.latency_limit);
        if self.age < self.latency_limit {
            Ticked::Quiet
        } else if self.send() {
            Ticked::Sent
        } else {
            Ticked::Waiting
        }
    }

    pub fn waiting_length(&self) -> Result<usize, u8> {
        let (near, far) = self.transport.first().ok_or(30)?;
        Ok(near.len() + far.len())
    }

    pub fn collect(&mut self, out: &mut [u8]) -> Result<usize, u8> {
        let (near, far) = self.transport.first().ok_or(30)?;
        let length = near.len() + far.len();
        if length > out.len() {
            return Err(34);
        }
        out[..near.len()].copy_from_slice(near);
        out[near.len()..length].copy_from_slice(far);
        self.transport.drop_first();
        Ok(length)
    }

    fn discard(&mut self) -> usize {
        let lost = self.accepted;
        self.buffer.clear();
        self.count = 0;
        self.accepted = 0;
        self.phase = Phase::Unbound;
        lost
    }

    fn bind(&mut self, id: u16, version: u8, identifier: &[u8]) -> Result<Performed, Refused> {
        if identifier != self.identifier {
            return Err(Refused::Number(22));
        }
        if version < self.version {
            return Err(Refused::Number(23));
        }
        self.phase = Phase::Ready;
        Ok(Performed::Bound { id, version: self.version })
    }

    fn start(&mut self, id: u16, selection: Selection) -> Result<Performed, Refused> {
        if self.halted {
            return Err(Refused::Number(25));
        }
        if let (Some(start), Some(stop)) = (selection.start, selection.stop) {
            if stop <= start {
                return Err(Refused::Number(24));
            }
        }
        self.selection = selection;
        self.end_mark = false;
        self.phase = Phase::Active;
        Ok(Performed::Started { id })
    }

    pub fn invoke(&mut self, octets: &[u8]) -> Result<Performed, Refused> {
        if self.phase == Phase::Closed {
            return Err(Refused::Number(4));
        }
        let invocation = match read_invocation(octets) {
            Ok(invocation) => invocation,
            Err(fault) => {
                let lost = if self.phase == Phase::Unbound { 0 } else { self.discard() };
                return Err(Refused::Undecodable { fault, lost });
            }
        };
        match (self.phase, invocation) {
            (Phase::Unbound, Invocation::Bind { id, version, identifier }) => self.bind(id, version, identifier),
            (Phase::Unbound, _) => Err(Refused::Number(26)),
            (Phase::Ready, Invocation::Start { id, selection }) => self.start(id, selection),
            (Phase::Active, Invocation::Stop { id }) => {
                self.phase = Phase::Ready;
                Ok(Performed::Stopped { id })
            }
            (Phase::Ready, Invocation::Unbind { id, reason }) => {
                self.phase = if reason == 0 { Phase::Closed } else { Phase::Unbound };
                Ok(Performed::Unbound { id })
            }
            (_, Invocation::PeerAbort) => Ok(Performed::Aborted { lost: self.discard() }),
            _ => Err(Refused::Protocol { lost: self.discard() }),
        }
    }
}
