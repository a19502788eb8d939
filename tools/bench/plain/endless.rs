//! The memory without an end in plain Rust, to tell what the proved one costs beside it: the same words, the same steps,
//! nothing proved. A write merges the groups of its command mask, and answers with the record that it found and the one that it
//! left; a read fills the interface registers that its command mask selects: as the proved ones do. What is counted of a write begins
//! and ends at those registers. Prints medians in nanoseconds, of a look, a flag word of 32 objects in one moment, 32 looks of a flag, and
//! full writes, alone and by three threads at objects apart and at one. With a word as `look=1000` it makes so many calls of that
//! kind and prints nothing: of `look`, `read`, `write`, `flags` or `line`.
use std::hint::black_box;
use std::sync::atomic::{AtomicU64, Ordering::SeqCst};
use std::sync::Barrier;
use std::time::Instant;

const OBJECTS: usize = 32;
/// Bits of a command mask: the groups that a transfer moves, and its request of a transmission.
const MASK: u16 = 64;
const ARBITRATION: u16 = 32;
const CONTROL: u16 = 16;
const TRANSMISSION: u16 = 4;
const DATA_A: u16 = 2;
const DATA_B: u16 = 1;
/// A write and a read of all groups.
const ALL: u16 = 0x00f3;
const READ: u16 = 0x0073;
/// Places of flags among the marks.
const MSGVAL: u32 = 13;
const INTPND: u32 = 10;
const CALLS: u64 = 4096;
const RUNS: usize = 101;

#[derive(Clone, Copy, PartialEq, Debug)]
struct Record {
    valid: bool,
    xtd: bool,
    dir: bool,
    id: u32,
    mxtd: bool,
    mdir: bool,
    mask: u32,
    newdat: bool,
    msglst: bool,
    intpnd: bool,
    umask: bool,
    txie: bool,
    rxie: bool,
    rmten: bool,
    txrqst: bool,
    eob: bool,
    dlc: u8,
    bytes: [u8; 8],
}

fn bit(value: u64, place: u32) -> bool {
    value >> place & 1 == 1
}

impl Record {
    fn marks(&self) -> u64 {
        let flags = [
            self.eob, self.txrqst, self.rmten, self.rxie, self.txie, self.umask, self.intpnd, self.msglst, self.newdat,
            self.valid,
        ];
        let mut marks = u64::from(self.dlc);
        for (place, flag) in flags.into_iter().enumerate() {
            marks |= u64::from(flag) << (4 + place);
        }
        marks
    }

    fn body(&self) -> [u64; 2] {
        let masks = u64::from(self.mxtd) << 31 | u64::from(self.mdir) << 30 | u64::from(self.mask);
        let identifiers = u64::from(self.xtd) << 30 | u64::from(self.dir) << 29 | u64::from(self.id);
        [masks << 32 | identifiers, u64::from_le_bytes(self.bytes)]
    }

    fn of(marks: u64, body: [u64; 2]) -> Record {
        Record {
            valid: bit(marks, 13),
            newdat: bit(marks, 12),
            msglst: bit(marks, 11),
            intpnd: bit(marks, 10),
            umask: bit(marks, 9),
            txie: bit(marks, 8),
            rxie: bit(marks, 7),
            rmten: bit(marks, 6),
            txrqst: bit(marks, 5),
            eob: bit(marks, 4),
            dlc: (marks & 15) as u8,
            mxtd: bit(body[0], 63),
            mdir: bit(body[0], 62),
            mask: (body[0] >> 32 & 0x1fff_ffff) as u32,
            xtd: bit(body[0], 30),
            dir: bit(body[0], 29),
            id: (body[0] & 0x1fff_ffff) as u32,
            bytes: body[1].to_le_bytes(),
        }
    }
}

/// The message buffer registers of an interface: Mask 1 and 2, Arbitration 1 and 2, Message Control and the data.
#[derive(Clone, Copy)]
struct Registers {
    mask: [u16; 2],
    arbitration: [u16; 2],
    control: u16,
    data: [u16; 4],
}

impl Registers {
    /// The record that they hold.
    fn buffer(&self) -> Record {
        let flag = |place: u32| self.control >> place & 1 == 1;
        let mut bytes = [0; 8];
        for (half, word) in self.data.iter().enumerate() {
            bytes[2 * half..2 * half + 2].copy_from_slice(&word.to_le_bytes());
        }
        Record {
            valid: self.arbitration[1] >> 15 == 1,
            xtd: self.arbitration[1] >> 14 & 1 == 1,
            dir: self.arbitration[1] >> 13 & 1 == 1,
            id: u32::from(self.arbitration[1] & 0x1fff) << 16 | u32::from(self.arbitration[0]),
            mxtd: self.mask[1] >> 15 == 1,
            mdir: self.mask[1] >> 14 & 1 == 1,
            mask: u32::from(self.mask[1] & 0x1fff) << 16 | u32::from(self.mask[0]),
            newdat: flag(15),
            msglst: flag(14),
            intpnd: flag(13),
            umask: flag(12),
            txie: flag(11),
            rxie: flag(10),
            rmten: flag(9),
            txrqst: flag(8),
            eob: flag(7),
            dlc: (self.control & 15) as u8,
            bytes,
        }
    }

    /// Takes the groups of a record that the command selects.
    fn fill(&mut self, command: u16, of: &Record) {
        if command & MASK != 0 {
            let high = u16::from(of.mxtd) << 15 | u16::from(of.mdir) << 14;
            self.mask = [of.mask as u16, high | (of.mask >> 16) as u16];
        }
        if command & ARBITRATION != 0 {
            let high = u16::from(of.valid) << 15 | u16::from(of.xtd) << 14 | u16::from(of.dir) << 13;
            self.arbitration = [of.id as u16, high | (of.id >> 16) as u16];
        }
        if command & CONTROL != 0 {
            self.control = of.control();
        }
        for (group, at) in [(DATA_A, 0), (DATA_B, 2)] {
            if command & group != 0 {
                for half in at..at + 2 {
                    self.data[half] = u16::from_le_bytes([of.bytes[2 * half], of.bytes[2 * half + 1]]);
                }
            }
        }
    }
}

impl Record {
    /// The Message Control register.
    fn control(&self) -> u16 {
        let flags = [
            self.eob, self.txrqst, self.rmten, self.rxie, self.txie, self.umask, self.intpnd, self.msglst, self.newdat,
        ];
        let places = [7, 8, 9, 10, 11, 12, 13, 14, 15];
        let bits: u16 = flags.into_iter().zip(places).map(|(flag, place)| u16::from(flag) << place).sum();
        bits | u16::from(self.dlc)
    }

    /// This record, with the groups of the buffer that the command selects.
    fn merged(&self, command: u16, buffer: &Record) -> Record {
        let chosen = |group: u16| if command & group != 0 { buffer } else { self };
        let (mask, arbitration) = (chosen(MASK), chosen(ARBITRATION));
        let (data_a, data_b) = (chosen(DATA_A), chosen(DATA_B));
        let control = chosen(CONTROL);
        let mut bytes = data_a.bytes;
        bytes[4..].copy_from_slice(&data_b.bytes[4..]);
        Record {
            mxtd: mask.mxtd,
            mdir: mask.mdir,
            mask: mask.mask,
            valid: arbitration.valid,
            xtd: arbitration.xtd,
            dir: arbitration.dir,
            id: arbitration.id,
            txrqst: control.txrqst || command & TRANSMISSION != 0,
            bytes,
            ..*control
        }
    }
}

/// The value of an object's word: count above the port, then the port, the low bits of the count, a side, the marks.
fn value_of(count: u64, port: usize, side: u64, marks: u64) -> u64 {
    count >> 16 << 33 | (port as u64) << 31 | (count & 0xffff) << 15 | side << 14 | marks
}

fn port_in(value: u64) -> usize {
    (value >> 31 & 3) as usize
}

fn side_in(value: u64) -> u64 {
    value >> 14 & 1
}

struct Memory {
    words: Vec<AtomicU64>,
}

#[derive(Clone, Copy)]
struct Port {
    port: usize,
    used: u64,
}

impl Memory {
    fn new() -> Memory {
        Memory { words: (0..2048).map(|_| AtomicU64::new(0)).collect() }
    }

    fn place(&self, port: usize, object: usize, side: u64) -> usize {
        512 + port * 512 + object * 8 + side as usize * 2
    }

    fn head(&self, object: usize) -> &AtomicU64 {
        &self.words[object * 8]
    }

    /// The value of the object's word, and the record that it shows.
    fn read(&self, object: usize) -> (u64, Record) {
        let mut value = self.head(object).load(SeqCst);
        loop {
            let place = self.place(port_in(value), object, side_in(value));
            let body = [self.words[place].load(SeqCst), self.words[place + 1].load(SeqCst)];
            let now = self.head(object).load(SeqCst);
            if now == value {
                return (value, Record::of(value & 0x3fff, body));
            }
            value = now;
        }
    }

    /// One try of a write of the groups that the command selects. The record that it found, and the one that it left.
    fn write(&self, port: &mut Port, object: usize, command: u16, buffer: &Record) -> Option<(Record, Record)> {
        let (value, found) = self.read(object);
        if self.head(object).load(SeqCst) != value {
            return None;
        }
        let side = if port_in(value) == port.port { 1 - side_in(value) } else { 0 };
        let record = found.merged(command, buffer);
        let body = record.body();
        let place = self.place(port.port, object, side);
        self.words[place].store(body[0], SeqCst);
        self.words[place + 1].store(body[1], SeqCst);
        let new = value_of(port.used + 1, port.port, side, record.marks());
        self.head(object).compare_exchange(value, new, SeqCst, SeqCst).ok()?;
        port.used += 1;
        Some((found, record))
    }

    /// A flag of all objects in one moment, by its place among the marks.
    fn flags(&self, flag: u32) -> u64 {
        loop {
            let mut values = [0u64; OBJECTS];
            for (object, value) in values.iter_mut().enumerate() {
                *value = self.head(object).load(SeqCst);
            }
            let _posed = self.head(0).load(SeqCst);
            if values.iter().enumerate().all(|(object, value)| self.head(object).load(SeqCst) == *value) {
                return values.iter().enumerate().map(|(object, value)| (value >> flag & 1) << object).sum();
            }
        }
    }
}

/// Makes so many calls, each of which has to succeed.
fn repeat(calls: u64, mut call: impl FnMut() -> bool) {
    for _ in 0..calls {
        assert!(call());
    }
}

/// Makes so many calls of one kind. The interrupt line is pulled where IE, bit 1 of the
/// controller's word, is 1 and an object asks for an interrupt.
fn make_calls(name: &str, calls: u64) {
    let memory = Memory::new();
    let mut port = Port { port: 0, used: 0 };
    let mut registers = Registers { mask: [0; 2], arbitration: [0; 2], control: 0, data: [0; 4] };
    registers.fill(READ, &message());
    let controller = AtomicU64::new(0);
    for object in 0..OBJECTS {
        assert!(memory.write(&mut port, object, ALL, &message()).is_some());
    }
    match name {
        "look" => repeat(calls, || memory.read(black_box(0)).1.valid),
        "read" => repeat(calls, || {
            registers.fill(black_box(READ), &memory.read(black_box(0)).1);
            black_box(&registers).arbitration[1] >> 15 == 1
        }),
        "write" => repeat(calls, || {
            let command = black_box(ALL);
            let Some((_, after)) = black_box(memory.write(&mut port, 0, command, &registers.buffer())) else {
                return false;
            };
            registers.fill(command, &after);
            black_box(&mut registers).control & 15 == 8
        }),
        "flags" => repeat(calls, || memory.flags(black_box(MSGVAL)) == 0xffff_ffff),
        "line" => repeat(calls, || {
            let asks = bit(controller.load(SeqCst), 1);
            let first = memory.flags(INTPND).trailing_zeros();
            !(asks && first < 64)
        }),
        _ => panic!("there is no such call"),
    }
}

fn message() -> Record {
    let mut record = Record::of(0, [0, 0]);
    record.valid = true;
    record.dir = true;
    record.eob = true;
    record.id = 0x123 << 18;
    record.dlc = 8;
    record.bytes = [0x11, 0x22, 0x33, 0x44, 0x55, 0x66, 0x77, 0x88];
    record
}

fn median(mut times: Vec<f64>) -> f64 {
    times.sort_by(f64::total_cmp);
    times[times.len() / 2]
}

/// The median over several memories, of all written, of the time of one of so many steps.
fn timed(steps: u64, mut step: impl FnMut(&Memory, &mut Port)) -> f64 {
    median(
        (0..RUNS)
            .map(|_| {
                let memory = Memory::new();
                let mut port = Port { port: 0, used: 0 };
                for object in 0..OBJECTS {
                    assert!(memory.write(&mut port, object, ALL, &message()).is_some());
                }
                let start = Instant::now();
                for _ in 0..steps {
                    step(&memory, &mut port);
                }
                start.elapsed().as_nanos() as f64 / steps as f64
            })
            .collect(),
    )
}

/// Three threads write at once, each as often; the mean of their times of a write.
fn writers(objects: [usize; 3]) -> f64 {
    median(
        (0..RUNS)
            .map(|_| {
                let memory = Memory::new();
                let barrier = Barrier::new(3);
                let times: Vec<f64> = std::thread::scope(|scope| {
                    let started: Vec<_> = (0..3)
                        .map(|name| {
                            let (memory, barrier) = (&memory, &barrier);
                            scope.spawn(move || {
                                let mut port = Port { port: name, used: 0 };
                                barrier.wait();
                                let start = Instant::now();
                                for _ in 0..CALLS {
                                    while black_box(memory.write(&mut port, objects[name], black_box(ALL), black_box(&message()))).is_none() {}
                                }
                                start.elapsed().as_nanos() as f64 / CALLS as f64
                            })
                        })
                        .collect();
                    started.into_iter().map(|thread| thread.join().unwrap()).collect()
                });
                times.iter().sum::<f64>() / 3.0
            })
            .collect(),
    )
}

fn main() {
    if let Some(word) = std::env::args().nth(1) {
        let (name, calls) = word.split_once('=').expect("a word as look=1000");
        return make_calls(name, calls.parse().expect("a number of calls"));
    }
    println!("the same memory without an end in plain Rust");
    let look = timed(100_000, |memory, _| {
        black_box(memory.read(black_box(0)).1);
    });
    println!("{:<22} {look:.1} ns", "look");
    let singles = timed(CALLS, |memory, _| {
        let word: u64 = (0..OBJECTS).map(|object| u64::from(memory.read(object).1.valid) << object).sum();
        assert_eq!(black_box(word), 0xffff_ffff);
    });
    println!("{:<22} {singles:.1} ns", "32 looks of a flag");
    let moment = timed(CALLS, |memory, _| assert_eq!(black_box(memory.flags(MSGVAL)), 0xffff_ffff));
    println!("{:<22} {moment:.1} ns", "32 flags of a moment");
    let write = timed(CALLS, |memory, port| {
        assert!(black_box(memory.write(port, 0, black_box(ALL), black_box(&message()))).is_some())
    });
    println!("{:<22} {write:.1} ns", "full write");
    println!("{:<22} {:.1} ns", "three writers apart", writers([0, 1, 2]));
    println!("{:<22} {:.1} ns", "three writers on one", writers([0, 0, 0]));
}
