// `rvtl check` as one would write it in Rust without proofs, to measure against: `plain_check [--ztso] TRACE`
// prints the same line and ends with the same status on a trace that can be read.
//
//     rustc --edition 2024 -O tools/plain_check/plain_check.rs -o plain_check
//
// It reads the text once, runs each hart's list once, and works out once for each operation how late the
// operations stand that must come before it: what the registers hold, which fence stood between, which access
// to a byte was last. No pair of operations is looked at but the one that it prints.

use std::collections::HashMap;
use std::process::ExitCode;

const BASE: u32 = 0x8000_0000;
const MAX_OPERATIONS: usize = 4096;
const RULES: usize = 13;

// ---- the text

#[derive(Clone, Copy)]
enum Status {
    Running,
    Stopped(u32),
    Exited(u32),
}

struct Entry {
    pc: u32,
    word: u32,
    loaded: Option<u32>,
    succeeded: Option<bool>,
}

struct Trace {
    entry: u32,
    image: Vec<u8>,
    lists: Vec<Vec<Entry>>,
    performed: Vec<(u8, u32)>,
    statuses: Vec<Status>,
}

struct Reader<'a> {
    rest: &'a [u8],
}

impl Reader<'_> {
    fn byte(&mut self, wanted: u8) -> Option<()> {
        let (first, rest) = self.rest.split_first()?;
        self.rest = rest;
        (*first == wanted).then_some(())
    }

    fn takes(&mut self, text: &[u8]) -> bool {
        match self.rest.strip_prefix(text) {
            Some(rest) => {
                self.rest = rest;
                true
            }
            None => false,
        }
    }

    fn number(&mut self) -> Option<u32> {
        let mut number = 0_u32;
        let mut digits = 0;
        while let [digit @ b'0'..=b'9', rest @ ..] = self.rest {
            number = number.checked_mul(10)?.checked_add(u32::from(digit - b'0'))?;
            self.rest = rest;
            digits += 1;
        }
        (digits > 0).then_some(number)
    }

    fn hexadecimal(&mut self, digits: usize) -> Option<u32> {
        let (text, rest) = self.rest.split_at_checked(digits)?;
        self.rest = rest;
        let mut number = 0;
        for digit in text {
            let value = match digit {
                b'0'..=b'9' => digit - b'0',
                b'a'..=b'f' => digit - b'a' + 10,
                _ => return None,
            };
            number = number << 4 | u32::from(value);
        }
        Some(number)
    }

    fn word(&mut self) -> Option<u32> {
        if self.takes(b"0x") { self.hexadecimal(8) } else { None }
    }

    fn line(&mut self) {
        let end = self.rest.iter().position(|byte| *byte == b'\n');
        self.rest = &self.rest[end.map_or(self.rest.len(), |end| end + 1)..];
    }
}

fn read(text: &[u8]) -> Option<Trace> {
    let mut reader = Reader { rest: text };
    let is_second = !reader.takes(b"rvtl-trace 1\nT ");
    if is_second && !reader.takes(b"rvtl-trace 2\nT ") {
        return None;
    }
    let harts = reader.number()? as usize;
    reader.byte(b' ')?;
    let kib = reader.number()? as usize;
    reader.byte(b' ')?;
    let entry = reader.word()?;
    let mut width = 16;
    if is_second {
        reader.byte(b' ')?;
        width = reader.number()? as usize;
    }
    reader.byte(b'\n')?;
    let mut trace = Trace {
        entry,
        image: vec![0; kib.checked_mul(1024)?],
        lists: (0..harts).map(|_| Vec::new()).collect(),
        performed: Vec::new(),
        statuses: Vec::new(),
    };
    while reader.takes(b"I ") {
        let at = reader.word()?.checked_sub(BASE)? as usize;
        reader.byte(b' ')?;
        for byte in trace.image.get_mut(at..at + width)? {
            *byte = reader.hexadecimal(2)? as u8;
        }
        reader.byte(b'\n')?;
    }
    while reader.takes(b"R ") {
        let hart = reader.number()? as usize;
        reader.byte(b' ')?;
        let entry = entry_at(&mut reader)?;
        trace.lists.get_mut(hart)?.push(entry);
    }
    while reader.takes(b"P ") {
        let hart = u8::try_from(reader.number()?).ok()?;
        reader.byte(b' ')?;
        trace.performed.push((hart, reader.number()?));
        reader.byte(b'\n')?;
    }
    while reader.takes(b"M ") {
        reader.line();
    }
    while reader.takes(b"H ") {
        reader.number()?;
        reader.byte(b' ')?;
        trace.statuses.push(status_at(&mut reader)?);
        reader.byte(b'\n')?;
    }
    (reader.rest.is_empty() && trace.statuses.len() == harts).then_some(trace)
}

fn entry_at(reader: &mut Reader) -> Option<Entry> {
    let pc = reader.word()?;
    reader.byte(b' ')?;
    let word = reader.word()?;
    reader.byte(b' ')?;
    let loaded = if reader.takes(b"- ") {
        None
    } else {
        let number = reader.word()?;
        reader.byte(b' ')?;
        Some(number)
    };
    let succeeded = if reader.takes(b"-\n") {
        None
    } else if reader.takes(b"ok\n") {
        Some(true)
    } else if reader.takes(b"fail\n") {
        Some(false)
    } else {
        return None;
    };
    Some(Entry { pc, word, loaded, succeeded })
}

fn status_at(reader: &mut Reader) -> Option<Status> {
    if reader.takes(b"run") {
        Some(Status::Running)
    } else if reader.takes(b"stop ") {
        Some(Status::Stopped(reader.number()?))
    } else if reader.takes(b"exit ") {
        Some(Status::Exited(reader.number()?))
    } else {
        None
    }
}

// ---- instructions

#[derive(Clone, Copy)]
enum Access {
    Load,
    Store,
    Reserve,
    Conditional,
    Amo,
}

/// What an instruction is, by its opcode and functions.
#[derive(Clone, Copy)]
struct Instr {
    word: u32,
    access: Option<Access>,
}

impl Instr {
    fn decode(word: u32) -> Option<Instr> {
        let (funct3, funct7) = (word >> 12 & 7, word >> 25);
        let mut access = None;
        let is_known = match word & 0x7f {
            0x37 | 0x17 | 0x6f => true,
            0x67 => funct3 == 0,
            0x63 => funct3 != 2 && funct3 != 3,
            0x03 => {
                access = Some(Access::Load);
                matches!(funct3, 0 | 1 | 2 | 4 | 5)
            }
            0x23 => {
                access = Some(Access::Store);
                funct3 < 3
            }
            0x13 => match funct3 {
                1 => funct7 == 0,
                5 => funct7 == 0 || funct7 == 0x20,
                _ => true,
            },
            0x33 => match funct7 {
                0 | 1 => true,
                0x20 => funct3 == 0 || funct3 == 5,
                _ => false,
            },
            0x0f => funct3 == 0,
            0x73 => word == 0x73 || word == 0x0010_0073,
            0x2f if funct3 == 2 => match word >> 27 {
                2 => {
                    access = Some(Access::Reserve);
                    word >> 20 & 0x1f == 0
                }
                3 => {
                    access = Some(Access::Conditional);
                    true
                }
                0 | 1 | 4 | 8 | 12 | 16 | 20 | 24 | 28 => {
                    access = Some(Access::Amo);
                    true
                }
                _ => false,
            },
            _ => false,
        };
        is_known.then_some(Instr { word, access })
    }

    fn opcode(self) -> u32 {
        self.word & 0x7f
    }

    fn funct3(self) -> u32 {
        self.word >> 12 & 7
    }

    fn rd(self) -> usize {
        (self.word >> 7 & 0x1f) as usize
    }

    fn rs1(self) -> usize {
        (self.word >> 15 & 0x1f) as usize
    }

    fn rs2(self) -> usize {
        (self.word >> 20 & 0x1f) as usize
    }

    fn immediate(self) -> u32 {
        (self.word as i32 >> 20) as u32
    }

    fn store_offset(self) -> u32 {
        (self.word as i32 >> 25 << 5) as u32 | self.word >> 7 & 0x1f
    }

    fn branch_offset(self) -> u32 {
        let word = self.word;
        (word as i32 >> 31 << 12) as u32 | (word >> 7 & 1) << 11 | (word >> 25 & 0x3f) << 5 | (word >> 8 & 0xf) << 1
    }

    fn jump_offset(self) -> u32 {
        let word = self.word;
        (word as i32 >> 31 << 20) as u32 | word & 0xf_f000 | (word >> 20 & 1) << 11 | (word >> 21 & 0x3ff) << 1
    }

    fn destination(self) -> usize {
        match self.opcode() {
            0x63 | 0x23 | 0x0f | 0x73 => 0,
            _ => self.rd(),
        }
    }
}

// ---- harts

#[derive(Clone, Copy)]
struct Operation {
    hart: u8,
    place: u32,
    access: Access,
    address: u32,
    size: u32,
    read: u32,
    written: u32,
    acquire: bool,
    release: bool,
}

impl Operation {
    fn reads(&self) -> bool {
        matches!(self.access, Access::Load | Access::Reserve | Access::Amo)
    }

    fn writes(&self) -> bool {
        matches!(self.access, Access::Store | Access::Conditional | Access::Amo)
    }

    fn precedes(&self, other: &Operation) -> bool {
        self.hart == other.hart && self.place < other.place
    }
}

struct Hart {
    pc: u32,
    registers: [u32; 32],
    exited: Option<u32>,
}

impl Hart {
    fn new(entry: u32, number: usize, harts: usize) -> Hart {
        let mut registers = [0; 32];
        registers[10] = number as u32;
        registers[11] = harts as u32;
        Hart { pc: entry, registers, exited: None }
    }

    fn address(&self, instr: Instr) -> u32 {
        let offset = match instr.opcode() {
            0x03 => instr.immediate(),
            0x23 => instr.store_offset(),
            _ => 0,
        };
        self.registers[instr.rs1()].wrapping_add(offset)
    }

    /// The code with which an instruction stops.
    fn stop(&self, instr: Instr, memory: usize) -> Option<u32> {
        if let Some(access) = instr.access {
            let misaligned = if matches!(access, Access::Load) { 4 } else { 6 };
            let (address, size) = (self.address(instr), 1 << (instr.funct3() & 3));
            if address % size != 0 {
                return Some(misaligned);
            }
            let inside = address.checked_sub(BASE).is_some_and(|at| at as usize + size as usize <= memory);
            return (!inside).then_some(misaligned + 1);
        }
        match instr.opcode() {
            0x6f | 0x67 | 0x63 => (self.next(instr) % 4 != 0).then_some(0),
            0x73 if instr.word == 0x73 => (self.registers[17] > 1).then_some(8),
            0x73 => Some(3),
            _ => None,
        }
    }

    fn is_taken(&self, instr: Instr) -> bool {
        let (a, b) = (self.registers[instr.rs1()], self.registers[instr.rs2()]);
        match instr.funct3() {
            0 => a == b,
            1 => a != b,
            4 => (a as i32) < b as i32,
            5 => a as i32 >= b as i32,
            6 => a < b,
            _ => a >= b,
        }
    }

    fn next(&self, instr: Instr) -> u32 {
        match instr.opcode() {
            0x6f => self.pc.wrapping_add(instr.jump_offset()),
            0x67 => self.registers[instr.rs1()].wrapping_add(instr.immediate()) & !1,
            0x63 if self.is_taken(instr) => self.pc.wrapping_add(instr.branch_offset()),
            _ => self.pc.wrapping_add(4),
        }
    }

    fn computed(&self, instr: Instr, read: u32) -> u32 {
        let a = self.registers[instr.rs1()];
        match instr.opcode() {
            0x37 => instr.word & 0xffff_f000,
            0x17 => self.pc.wrapping_add(instr.word & 0xffff_f000),
            0x6f | 0x67 => self.pc.wrapping_add(4),
            0x13 if instr.funct3() == 5 && instr.word >> 30 & 1 == 1 => ((a as i32) >> instr.rs2()) as u32,
            0x13 => plain(instr.funct3(), a, instr.immediate()),
            0x33 => match instr.word >> 25 {
                0 => plain(instr.funct3(), a, self.registers[instr.rs2()]),
                1 => product(instr.funct3(), a, self.registers[instr.rs2()]),
                _ if instr.funct3() == 0 => a.wrapping_sub(self.registers[instr.rs2()]),
                _ => ((a as i32) >> (self.registers[instr.rs2()] & 0x1f)) as u32,
            },
            0x03 => match instr.funct3() {
                0 => read as i8 as u32,
                1 => read as i16 as u32,
                _ => read,
            },
            _ => read,
        }
    }

    /// Does an instruction that doesn't stop.
    fn retire(&mut self, instr: Instr, read: u32) {
        if instr.word == 0x73 && self.registers[17] == 0 {
            self.exited = Some(self.registers[10] % 256);
        }
        let next = self.next(instr);
        let destination = instr.destination();
        if destination != 0 {
            self.registers[destination] = self.computed(instr, read);
        }
        self.pc = next;
    }

    fn operation(&self, hart: u8, place: u32, instr: Instr, entry: &Entry) -> Option<Operation> {
        let access = instr.access?;
        if matches!(access, Access::Conditional) && entry.succeeded != Some(true) {
            return None;
        }
        let size = 1 << (instr.funct3() & 3);
        let read = entry.loaded.unwrap_or(0);
        let stored = self.registers[instr.rs2()];
        let is_atomic = instr.opcode() == 0x2f;
        Some(Operation {
            hart,
            place,
            access,
            address: self.address(instr),
            size,
            read,
            written: match access {
                Access::Load | Access::Reserve => 0,
                Access::Store | Access::Conditional => stored & u32::MAX >> (32 - 8 * size),
                Access::Amo => combined(instr.word >> 27, read, stored),
            },
            acquire: is_atomic && instr.word >> 26 & 1 == 1,
            release: is_atomic && instr.word >> 25 & 1 == 1,
        })
    }
}

fn plain(funct3: u32, a: u32, b: u32) -> u32 {
    match funct3 {
        0 => a.wrapping_add(b),
        1 => a << (b & 0x1f),
        2 => u32::from((a as i32) < b as i32),
        3 => u32::from(a < b),
        4 => a ^ b,
        5 => a >> (b & 0x1f),
        6 => a | b,
        _ => a & b,
    }
}

fn product(funct3: u32, a: u32, b: u32) -> u32 {
    let (signed_a, signed_b) = (i64::from(a as i32), i64::from(b as i32));
    match funct3 {
        0 => a.wrapping_mul(b),
        1 => (signed_a.wrapping_mul(signed_b) >> 32) as u32,
        2 => (signed_a.wrapping_mul(i64::from(b)) >> 32) as u32,
        3 => (u64::from(a) * u64::from(b) >> 32) as u32,
        4 if b == 0 => u32::MAX,
        4 => (a as i32).wrapping_div(b as i32) as u32,
        5 => a.checked_div(b).unwrap_or(u32::MAX),
        6 if b == 0 => a,
        6 => (a as i32).wrapping_rem(b as i32) as u32,
        _ => a.checked_rem(b).unwrap_or(a),
    }
}

fn combined(funct5: u32, a: u32, b: u32) -> u32 {
    match funct5 {
        0 => a.wrapping_add(b),
        1 => b,
        4 => a ^ b,
        8 => a | b,
        12 => a & b,
        16 => (a as i32).min(b as i32) as u32,
        20 => (a as i32).max(b as i32) as u32,
        24 => a.min(b),
        _ => a.max(b),
    }
}

fn fetch(image: &[u8], pc: u32) -> Option<u32> {
    let at = pc.checked_sub(BASE)? as usize;
    let bytes = image.get(at..at + 4)?;
    Some(u32::from_le_bytes(bytes.try_into().ok()?))
}

/// The operations of a hart's list, in program order; none where it isn't a run.
fn operations_of(trace: &Trace, number: usize) -> Option<Vec<Operation>> {
    let mut hart = Hart::new(trace.entry, number, trace.lists.len());
    let mut operations = Vec::new();
    for (place, entry) in trace.lists[number].iter().enumerate() {
        if hart.exited.is_some() || entry.pc != hart.pc || fetch(&trace.image, hart.pc) != Some(entry.word) {
            return None;
        }
        let instr = Instr::decode(entry.word)?;
        if hart.stop(instr, trace.image.len()).is_some() || !has_answers(instr, entry) {
            return None;
        }
        operations.extend(hart.operation(number as u8, place as u32, instr, entry));
        let read = entry.succeeded.map_or(entry.loaded.unwrap_or(0), |ok| u32::from(!ok));
        hart.retire(instr, read);
    }
    let fits = match trace.statuses[number] {
        Status::Running => hart.exited.is_none(),
        Status::Exited(code) => hart.exited == Some(code),
        Status::Stopped(code) => hart.exited.is_none() && next_stop(trace, &hart) == Some(code),
    };
    fits.then_some(operations)
}

fn has_answers(instr: Instr, entry: &Entry) -> bool {
    match instr.access {
        Some(Access::Load | Access::Reserve | Access::Amo) => {
            let size = 1 << (instr.funct3() & 3);
            entry.succeeded.is_none() && entry.loaded.is_some_and(|number| number <= u32::MAX >> (32 - 8 * size))
        }
        Some(Access::Conditional) => entry.loaded.is_none() && entry.succeeded.is_some(),
        Some(Access::Store) | None => entry.loaded.is_none() && entry.succeeded.is_none(),
    }
}

fn next_stop(trace: &Trace, hart: &Hart) -> Option<u32> {
    let Some(word) = fetch(&trace.image, hart.pc) else {
        return Some(1);
    };
    match Instr::decode(word) {
        Some(instr) => hart.stop(instr, trace.image.len()),
        None => Some(2),
    }
}

// ---- the order

/// The operations in the order that is judged, where each byte of each comes from, and the places in the order
/// of each hart's.
struct Order {
    operations: Vec<Operation>,
    places: Vec<Vec<usize>>,
    /// The number of each operation's first byte: its bytes are numbered in a row, and those of one address alike.
    slots: Vec<usize>,
    bytes: usize,
    /// By byte, one more than the place of the store that it comes from; 0 for the image.
    sources: Vec<[usize; 4]>,
}

impl Order {
    fn new(trace: &Trace, lists: Vec<Vec<Operation>>) -> Option<Order> {
        let mut places: Vec<Vec<usize>> = lists.iter().map(|list| vec![usize::MAX; list.len()]).collect();
        let mut operations = Vec::new();
        for (hart, place) in &trace.performed {
            let hart = usize::from(*hart);
            let index = lists.get(hart)?.binary_search_by_key(place, |a| a.place).ok()?;
            if places[hart][index] != usize::MAX {
                return None;
            }
            places[hart][index] = operations.len();
            operations.push(lists[hart][index]);
        }
        for (own, list) in places.iter_mut().zip(&lists) {
            for (at, operation) in own.iter_mut().zip(list) {
                if *at == usize::MAX {
                    *at = operations.len();
                    operations.push(*operation);
                }
            }
        }
        let (slots, bytes) = slots_of(&operations);
        let mut order = Order { operations, places, slots, bytes, sources: Vec::new() };
        order.find_sources();
        Some(order)
    }

    fn find_sources(&mut self) {
        let mut last = vec![0; self.bytes];
        for (at, a) in self.operations.iter().enumerate() {
            let mut sources = [0; 4];
            for (byte, source) in sources.iter_mut().enumerate().take(a.size as usize) {
                let slot = &mut last[self.slots[at] + byte];
                *source = *slot;
                if a.writes() {
                    *slot = at + 1;
                }
            }
            self.sources.push(sources);
        }
        for places in &self.places {
            last.fill(0);
            for at in places {
                let a = &self.operations[*at];
                for byte in 0..a.size as usize {
                    let slot = &mut last[self.slots[*at] + byte];
                    self.sources[*at][byte] = self.sources[*at][byte].max(*slot);
                    if a.writes() {
                        *slot = (*slot).max(at + 1);
                    }
                }
            }
        }
    }
}

/// The numbers of the first bytes, and how many numbers there are.
fn slots_of(operations: &[Operation]) -> (Vec<usize>, usize) {
    let mut words = HashMap::new();
    let mut slots = Vec::with_capacity(operations.len());
    for a in operations {
        let count = words.len();
        slots.push(4 * *words.entry(a.address / 4).or_insert(count) + (a.address % 4) as usize);
    }
    (slots, 4 * words.len())
}

// ---- the rules

/// The greatest weight of what was added under each key: of all, and of those under another key than the first's.
#[derive(Clone, Copy, Default)]
struct Leaders {
    first: usize,
    key: usize,
    second: usize,
}

impl Leaders {
    fn but(&self, key: usize) -> usize {
        if key == self.key { self.second } else { self.first }
    }

    fn add(&mut self, key: usize, weight: usize) {
        if key == self.key {
            self.first = self.first.max(weight);
        } else if weight > self.first {
            *self = Leaders { first: weight, key, second: self.first };
        } else {
            self.second = self.second.max(weight);
        }
    }
}

/// What stands in a hart's list so far, as the greatest weight of the operations that it comes from.
#[derive(Default)]
struct Carried {
    registers: [usize; 32],
    steered: usize,
    addressed: usize,
    reads: usize,
    writes: usize,
    fenced_reads: usize,
    fenced_writes: usize,
    reserved: usize,
    all: usize,
    acquires: usize,
    annotated: usize,
}

/// For each operation and rule the greatest weight of those that must come before it.
fn latest(trace: &Trace, order: &Order, is_ztso: bool, weights: &[usize]) -> Vec<[usize; RULES]> {
    let mut rows = vec![[0; RULES]; order.operations.len()];
    let mut touched = vec![0; order.bytes];
    let mut loads = vec![Leaders::default(); order.bytes];
    for (list, places) in trace.lists.iter().zip(&order.places) {
        touched.fill(0);
        loads.fill(Leaders::default());
        let mut carried = Carried::default();
        let mut places = places.iter();
        for entry in list {
            if places.as_slice().is_empty() {
                break;
            }
            let instr = Instr::decode(entry.word).unwrap();
            let sources = match instr.opcode() {
                0x37 | 0x17 | 0x6f | 0x0f | 0x73 => 0,
                0x63 | 0x33 | 0x23 | 0x2f => carried.registers[instr.rs1()].max(carried.registers[instr.rs2()]),
                _ => carried.registers[instr.rs1()],
            };
            let mut own = 0;
            if instr.access.is_some() {
                let address = carried.registers[instr.rs1()];
                if entry.succeeded != Some(false) {
                    let at = *places.next().unwrap();
                    own = weights[at];
                    judge(order, is_ztso, weights, &carried, instr, at, &mut rows);
                    note(order, is_ztso, &mut carried, at, own);
                    touch(order, at, own, &mut touched, &mut loads, &mut rows[at]);
                }
                carried.addressed = carried.addressed.max(address);
                match instr.access {
                    Some(Access::Reserve) => carried.reserved = own,
                    Some(Access::Conditional) => carried.reserved = 0,
                    _ => {}
                }
            }
            match instr.opcode() {
                0x63 | 0x67 => carried.steered = carried.steered.max(sources),
                0x0f => fence(&mut carried, instr.word),
                _ => {}
            }
            carried.registers[instr.destination()] = sources.max(own);
            carried.registers[0] = 0;
        }
    }
    rows
}

fn fence(carried: &mut Carried, word: u32) {
    if word >> 28 == 8 && word >> 20 & 0xff == 0x33 {
        carried.fenced_reads = carried.fenced_reads.max(carried.reads);
        carried.fenced_writes = carried.fenced_writes.max(carried.reads).max(carried.writes);
        return;
    }
    let before = |bit: u32, weight: usize| if word >> bit & 1 == 1 { weight } else { 0 };
    let weight = before(25, carried.reads).max(before(24, carried.writes));
    if word >> 21 & 1 == 1 {
        carried.fenced_reads = carried.fenced_reads.max(weight);
    }
    if word >> 20 & 1 == 1 {
        carried.fenced_writes = carried.fenced_writes.max(weight);
    }
}

fn annotations(is_ztso: bool, a: &Operation) -> (bool, bool, bool) {
    let is_amo = matches!(a.access, Access::Amo);
    (
        a.acquire || is_ztso && a.reads(),
        a.release || is_ztso && a.writes(),
        a.acquire || a.release || is_ztso && is_amo,
    )
}

/// The rules that need no byte's own history.
fn judge(order: &Order, is_ztso: bool, weights: &[usize], carried: &Carried, instr: Instr, at: usize, rows: &mut [[usize; RULES]]) {
    let b = &order.operations[at];
    let (_, release, annotated) = annotations(is_ztso, b);
    let mut row = [0; RULES];
    if b.reads() {
        row[3] = carried.fenced_reads;
        for source in &order.sources[at][..b.size as usize] {
            let Some(from) = source.checked_sub(1) else { continue };
            let a = &order.operations[from];
            if a.precedes(b) {
                if matches!(a.access, Access::Amo | Access::Conditional) {
                    row[2] = row[2].max(weights[from]);
                }
                row[11] = row[11].max(rows[from][8]).max(rows[from][9]);
            }
        }
    }
    row[4] = carried.acquires;
    row[5] = if release { carried.all } else { 0 };
    row[6] = if annotated { carried.annotated } else { 0 };
    row[8] = carried.registers[instr.rs1()];
    if b.writes() {
        row[3] = row[3].max(carried.fenced_writes);
        row[9] = carried.registers[instr.rs2()];
        row[10] = carried.steered;
        row[12] = carried.addressed;
    }
    if matches!(b.access, Access::Conditional) {
        row[7] = carried.reserved;
    }
    rows[at] = row;
}

fn note(order: &Order, is_ztso: bool, carried: &mut Carried, at: usize, weight: usize) {
    let a = &order.operations[at];
    let (acquire, _, annotated) = annotations(is_ztso, a);
    carried.all = carried.all.max(weight);
    if acquire {
        carried.acquires = carried.acquires.max(weight);
    }
    if annotated {
        carried.annotated = carried.annotated.max(weight);
    }
    if a.reads() {
        carried.reads = carried.reads.max(weight);
    }
    if a.writes() {
        carried.writes = carried.writes.max(weight);
    }
}

/// The rules on accesses to one byte.
fn touch(order: &Order, at: usize, weight: usize, touched: &mut [usize], loads: &mut [Leaders], row: &mut [usize; RULES]) {
    let a = &order.operations[at];
    for byte in 0..a.size as usize {
        let slot = order.slots[at] + byte;
        if a.writes() {
            row[0] = row[0].max(touched[slot]);
        }
        touched[slot] = touched[slot].max(weight);
        let source = order.sources[at][byte];
        if a.reads() {
            row[1] = row[1].max(loads[slot].but(source));
        }
        if a.writes() {
            loads[slot] = Leaders::default();
        }
        if a.reads() {
            loads[slot].add(source, weight);
        }
    }
}

// ---- the verdict

type Fault = (usize, Operation, Operation);

fn broken_rule(trace: &Trace, order: &Order, is_ztso: bool, rows: &[[usize; RULES]]) -> Option<Fault> {
    for rule in 0..RULES {
        for (at, row) in rows.iter().enumerate() {
            if row[rule] <= at + 1 {
                continue;
            }
            // the first of those behind has the greatest weight now
            let count = rows.len();
            let weights: Vec<usize> = (0..count).map(|other| if other > at { count - other } else { 0 }).collect();
            let first = latest(trace, order, is_ztso, &weights)[at][rule];
            return Some((rule + 1, order.operations[count - first], order.operations[at]));
        }
    }
    None
}

fn wrong_load(image: &[u8], order: &Order) -> Option<Fault> {
    for (a, sources) in order.operations.iter().zip(&order.sources) {
        if !a.reads() {
            continue;
        }
        for (byte, source) in sources.iter().enumerate().take(a.size as usize) {
            let x = a.address as usize + byte;
            let wanted = match source.checked_sub(1) {
                Some(from) => {
                    let store = &order.operations[from];
                    store.written >> (8 * (x - store.address as usize)) & 0xff
                }
                None => u32::from(image[x - BASE as usize]),
            };
            if a.read >> (8 * byte) & 0xff != wanted {
                return Some((14, *a, *a));
            }
        }
    }
    None
}

fn broken_pair(order: &Order, rows: &[[usize; RULES]]) -> Option<Fault> {
    let mut stores = vec![Leaders::default(); order.bytes];
    for (at, w) in order.operations.iter().enumerate() {
        if let Some(reserved) = rows[at][7].checked_sub(1) {
            let r = &order.operations[reserved];
            for byte in 0..r.size as usize {
                let source = order.sources[reserved][byte];
                if source > at || stores[order.slots[reserved] + byte].but(usize::from(w.hart)) > source {
                    return Some((15, *r, *w));
                }
            }
        }
        if w.writes() {
            for byte in 0..w.size as usize {
                stores[order.slots[at] + byte].add(usize::from(w.hart), at + 1);
            }
        }
    }
    None
}

fn check(text: &[u8], is_ztso: bool) -> Result<Option<Fault>, &'static str> {
    let trace = read(text).ok_or("can't be read")?;
    let mut lists = Vec::new();
    for number in 0..trace.lists.len() {
        lists.push(operations_of(&trace, number).ok_or("NotARun")?);
    }
    if lists.iter().map(Vec::len).sum::<usize>() > MAX_OPERATIONS {
        return Err("TooLong");
    }
    let order = Order::new(&trace, lists).ok_or("NotAnOrder")?;
    let ranks: Vec<usize> = (1..=order.operations.len()).collect();
    let rows = latest(&trace, &order, is_ztso, &ranks);
    if let Some(fault) = broken_rule(&trace, &order, is_ztso, &rows) {
        return Ok(Some(fault));
    }
    if let Some(fault) = wrong_load(&trace.image, &order) {
        return Ok(Some(fault));
    }
    Ok(broken_pair(&order, &rows))
}

fn main() -> ExitCode {
    let words: Vec<String> = std::env::args().skip(1).collect();
    let is_ztso = words.first().is_some_and(|word| word == "--ztso");
    let Some(name) = words.last() else {
        return ExitCode::from(2);
    };
    let text = match std::fs::read(name) {
        Ok(text) => text,
        Err(error) => {
            eprintln!("{name}: {error}");
            return ExitCode::from(1);
        }
    };
    match check(&text, is_ztso) {
        Ok(None) => {
            println!("legal");
            ExitCode::SUCCESS
        }
        Ok(Some((code, a, b))) => {
            println!("fault {code} {}:{} {}:{}", a.hart, a.place, b.hart, b.place);
            ExitCode::from(3)
        }
        Err(why) => {
            eprintln!("{name}: {why}");
            ExitCode::from(1)
        }
    }
}
