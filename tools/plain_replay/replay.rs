//! A replay in plain Rust, with nothing proved, over the machine that `make_plain.py` wrote.
//!
//! replay IMAGE SCRIPT          reads a script, applies its events, and prints the trace, as `rvtl replay --raw` does
//! replay make HARTS IMAGE SCRIPT      writes a program without end, and for it a script of a million random events
//!                              that change the machine and of a fifth as many that don't, the same ones at each run

#[allow(dead_code)]
#[path = "../plain_texts/texts.rs"]
mod texts;

use coherent_machine::Machine;
use elf_loader::{raw, size_of_kib};
use hart::Status;
use kit::alloc::Global;
use machine_types::{Config, Event, MemoryModel};
use std::io::Write;
use std::process::ExitCode;
use texts::{put_hex, put_number, put_word};
use tl_types::{Body, Cap, Change, Channel, Grow, LineSize, Msg};
use trace_recorder::{Direction, Trace};

const BASE: u32 = 0x8000_0000;
const CHANNELS: [Channel; 5] = [Channel::A, Channel::B, Channel::C, Channel::D, Channel::E];

fn event_of(event: &texts::Event) -> Event {
    match *event {
        texts::Event::Step(hart) => Event::Step { hart },
        texts::Event::Drain(hart, word) => Event::Drain { hart, word },
        texts::Event::Evict(hart, line) => Event::Evict { hart, line },
        texts::Event::Deliver(channel, hart) => Event::Deliver { channel: CHANNELS[usize::from(channel)], hart },
        texts::Event::Local(hart, count) => Event::Local { hart, count },
    }
}

fn grow(grow: Grow) -> &'static str {
    match grow {
        Grow::NtoB => " NtoB",
        Grow::NtoT => " NtoT",
        Grow::BtoT => " BtoT",
    }
}

fn cap(cap: Cap) -> &'static str {
    match cap {
        Cap::ToT => " toT",
        Cap::ToB => " toB",
        Cap::ToN => " toN",
    }
}

fn change(change: Change) -> &'static str {
    match change {
        Change::TtoB => " TtoB",
        Change::TtoN => " TtoN",
        Change::BtoN => " BtoN",
        Change::TtoT => " TtoT",
        Change::BtoB => " BtoB",
        Change::NtoN => " NtoN",
    }
}

fn put_message(out: &mut Vec<u8>, direction: Direction, hart: u8, message: &Msg) {
    let (channel, name, permissions, data) = match &message.body {
        Body::AcquireBlock(it) => (b'A', "AcquireBlock", grow(*it), None),
        Body::ProbeBlock(it) => (b'B', "ProbeBlock", cap(*it), None),
        Body::ProbeAck(it) => (b'C', "ProbeAck", change(*it), None),
        Body::ProbeAckData { change: it, bytes } => (b'C', "ProbeAckData", change(*it), Some(bytes)),
        Body::Release(it) => (b'C', "Release", change(*it), None),
        Body::ReleaseData { change: it, bytes } => (b'C', "ReleaseData", change(*it), Some(bytes)),
        Body::Grant(it) => (b'D', "Grant", cap(*it), None),
        Body::GrantData { cap: it, bytes } => (b'D', "GrantData", cap(*it), Some(bytes)),
        Body::ReleaseAck => (b'D', "ReleaseAck", "", None),
        Body::GrantAck => (b'E', "GrantAck", "", None),
    };
    let way = if direction == Direction::Sent { b's' } else { b't' };
    out.extend_from_slice(&[b'M', b' ', way, b' ', channel, b' ', b'0' + hart, b' ']);
    out.extend_from_slice(name.as_bytes());
    out.push(b' ');
    put_word(out, message.line);
    out.extend_from_slice(permissions.as_bytes());
    if let Some(bytes) = data {
        out.push(b' ');
        put_hex(out, bytes.as_slice());
    }
    out.push(b'\n');
}

fn put_head(out: &mut Vec<u8>, trace: &Trace) {
    let (harts, line) = (trace.harts() as u32, trace.line_size().bytes());
    let first = texts::is_first_version(harts, line);
    out.extend_from_slice(if first { b"rvtl-trace 1\nT " } else { b"rvtl-trace 2\nT " });
    put_number(out, harts);
    out.push(b' ');
    let memory = trace.image().bytes();
    put_number(out, (memory.len() / 1024) as u32);
    out.push(b' ');
    put_word(out, trace.image().entry());
    if !first {
        out.push(b' ');
        put_number(out, line);
    }
    out.push(b'\n');
    for (i, bytes) in memory.chunks_exact(line as usize).enumerate() {
        if bytes.iter().any(|byte| *byte != 0) {
            out.extend_from_slice(b"I ");
            put_word(out, BASE + i as u32 * line);
            out.push(b' ');
            put_hex(out, bytes);
            out.push(b'\n');
        }
    }
}

fn put_entries(out: &mut Vec<u8>, trace: &Trace, hart: usize) {
    for entry in trace.entries(hart) {
        out.extend_from_slice(&[b'R', b' ', b'0' + hart as u8, b' ']);
        put_word(out, entry.pc);
        out.push(b' ');
        put_word(out, entry.word);
        out.push(b' ');
        match entry.loaded {
            None => out.push(b'-'),
            Some(word) => put_word(out, word),
        }
        out.extend_from_slice(match entry.sc_ok {
            None => b" -\n",
            Some(true) => b" ok\n",
            Some(false) => b" fail\n",
        });
    }
}

fn put_status(out: &mut Vec<u8>, hart: usize, status: Status) {
    out.extend_from_slice(&[b'H', b' ', b'0' + hart as u8, b' ']);
    match status {
        Status::Running => out.extend_from_slice(b"run"),
        Status::Stopped(code) => {
            out.extend_from_slice(b"stop ");
            put_number(out, u32::from(code));
        }
        Status::Exited(code) => {
            out.extend_from_slice(b"exit ");
            put_number(out, u32::from(code));
        }
    }
    out.push(b'\n');
}

fn trace_text(trace: &Trace) -> Vec<u8> {
    let mut out = Vec::new();
    put_head(&mut out, trace);
    for hart in 0..trace.harts() {
        put_entries(&mut out, trace, hart);
    }
    for operation in trace.performed() {
        out.extend_from_slice(&[b'P', b' ', b'0' + operation.hart, b' ']);
        put_number(&mut out, operation.place);
        out.push(b'\n');
    }
    for entry in trace.log() {
        put_message(&mut out, entry.direction, entry.hart, &entry.message);
    }
    for (hart, status) in trace.statuses().iter().enumerate() {
        put_status(&mut out, hart, *status);
    }
    out
}

fn replayed(image: &[u8], script: &[u8]) -> Option<Vec<u8>> {
    let script = texts::read_script(script)?;
    let image = raw(Global, image, size_of_kib(script.kib)?).ok()?;
    let line = if script.line == 16 { LineSize::Bytes16 } else { LineSize::Bytes64 };
    let config = Config { harts: script.harts, sets: script.sets, ways: script.ways, line, model: MemoryModel::Rvwmo };
    let mut machine = Machine::new(Global, image, config).ok()?;
    for event in &script.events {
        machine.apply(event_of(event)).ok()?;
    }
    Some(trace_text(machine.trace()))
}

// ---- random events

const EVENTS: u32 = 1_000_000;

/// Each hart goes round arithmetic, loads, stores of three widths, an AMO, a fence, LR and SC, on six words of four
/// lines from 0x80000100 on.
const PROGRAM: [u32; 15] = [
    0x800002b7, // lui t0, 0x80000
    0x10028293, // addi t0, t0, 0x100
    0x03028313, // addi t1, t0, 0x30
    0x00138393, // addi t2, t2, 1
    0x0072a023, // sw t2, 0(t0)
    0x0102a403, // lw s0, 0x10(t0)
    0x00729923, // sh t2, 0x12(t0)
    0x0202c483, // lbu s1, 0x20(t0)
    0x0073252f, // amoadd.w a0, t2, (t1)
    0x027280a3, // sb t2, 0x21(t0)
    0x0330000f, // fence rw, rw
    0x100325af, // lr.w a1, (t1)
    0x1873262f, // sc.w a2, t2, (t1)
    0x0342a683, // lw a3, 0x34(t0)
    0xfd5ff06f, // j back to the addi of t2
];

/// Xorshift (Marsaglia, 2003).
struct Random(u64);

impl Random {
    fn below(&mut self, bound: u32) -> u32 {
        self.0 ^= self.0 << 13;
        self.0 ^= self.0 >> 7;
        self.0 ^= self.0 << 17;
        (self.0 >> 32) as u32 % bound
    }

    fn event(&mut self, harts: u32) -> texts::Event {
        let hart = self.below(harts) as u8;
        match self.below(100) {
            0..40 => texts::Event::Step(hart),
            40..80 => texts::Event::Deliver(self.below(5) as u8, hart),
            80..98 => texts::Event::Drain(hart, BASE + 0x100 + [0, 0x10, 0x20, 0x30][self.below(4) as usize]),
            _ => texts::Event::Evict(hart, BASE + 0x100 + 16 * self.below(4)),
        }
    }
}

fn script_of(harts: u32) -> Option<Vec<u8>> {
    let image: Vec<u8> = PROGRAM.iter().flat_map(|word| word.to_le_bytes()).collect();
    let config = Config { harts, sets: 2, ways: 2, line: LineSize::Bytes16, model: MemoryModel::Rvwmo };
    let mut machine = Machine::new(Global, raw(Global, &image, size_of_kib(4)?).ok()?, config).ok()?;
    let (mut random, mut moved, mut idle) = (Random(88172645463325252), 0, 0);
    let mut events = Vec::new();
    while moved < EVENTS {
        let event = random.event(harts);
        let before = machine.views().changes();
        machine.apply(event_of(&event)).ok()?;
        if machine.views().changes() != before {
            moved += 1;
        } else if 5 * idle < moved {
            idle += 1;
        } else {
            continue;
        }
        events.push(event);
    }
    Some(texts::script_text(&texts::Script { harts, kib: 4, sets: 2, ways: 2, line: 16, events }))
}

fn make(harts: &str, image: &str, script: &str) -> Option<()> {
    let words: Vec<u8> = PROGRAM.iter().flat_map(|word| word.to_le_bytes()).collect();
    std::fs::write(image, words).ok()?;
    std::fs::write(script, script_of(harts.parse().ok()?)?).ok()
}

fn print(image: &str, script: &str) -> Option<()> {
    let out = replayed(&std::fs::read(image).ok()?, &std::fs::read(script).ok()?)?;
    std::io::stdout().write_all(&out).ok()
}

fn main() -> ExitCode {
    let words: Vec<String> = std::env::args().skip(1).collect();
    let words: Vec<&str> = words.iter().map(String::as_str).collect();
    let done = match words.as_slice() {
        ["make", harts, image, script] => make(harts, image, script),
        [image, script] => print(image, script),
        _ => None,
    };
    if done.is_some() { ExitCode::SUCCESS } else { ExitCode::from(2) }
}
