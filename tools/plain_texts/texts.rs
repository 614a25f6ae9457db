//! Scripts and traces in plain Rust, with nothing proved: what one would write by hand. Read by slices into
//! structs and vectors; written by appending to one `Vec<u8>`, which goes out in one write.
//!
//! texts read-script|write-script|read-trace|write-trace < TEXT

use std::io::{self, Read, Write};
use std::process::ExitCode;

const BASE: u32 = 0x8000_0000;

// ---- what the texts say

pub enum Event {
    Step(u8),
    Drain(u8, u32),
    Evict(u8, u32),
    Deliver(u8, u8),
    Local(u8, u32),
}

pub struct Script {
    pub harts: u32,
    pub kib: u32,
    pub sets: u32,
    pub ways: u32,
    pub line: u32,
    pub events: Vec<Event>,
}

struct Retired {
    pc: u32,
    word: u32,
    loaded: Option<u32>,
    answer: Option<bool>,
}

struct Operation {
    hart: u8,
    place: u32,
}

#[derive(Clone, Copy)]
enum Data {
    Short([u8; 16]),
    Long([u8; 64]),
}

/// A name's place in `NAMES`, a permission's in its list.
struct Message {
    sent: bool,
    hart: u8,
    name: u8,
    line: u32,
    permission: u8,
    data: Option<Data>,
}

enum Status {
    Running,
    Stopped(u8),
    Exited(u8),
}

struct Trace {
    line: u32,
    entry: u32,
    memory: Vec<u8>,
    entries: Vec<Vec<Retired>>,
    performed: Vec<Operation>,
    log: Vec<Message>,
    statuses: Vec<Status>,
}

type Permissions = &'static [&'static str];
const GROWS: Permissions = &[" NtoB", " NtoT", " BtoT"];
const CAPS: Permissions = &[" toT", " toB", " toN"];
const CHANGES: Permissions = &[" TtoB", " TtoN", " BtoN", " TtoT", " BtoB", " NtoN"];
const NONE: Permissions = &[""];

/// The channel, the name, the permissions that stand behind the line, and whether data does.
const NAMES: [(u8, &str, Permissions, bool); 10] = [
    (b'A', "AcquireBlock ", GROWS, false),
    (b'B', "ProbeBlock ", CAPS, false),
    (b'C', "ProbeAck ", CHANGES, false),
    (b'C', "ProbeAckData ", CHANGES, true),
    (b'C', "Release ", CHANGES, false),
    (b'C', "ReleaseData ", CHANGES, true),
    (b'D', "Grant ", CAPS, false),
    (b'D', "GrantData ", CAPS, true),
    (b'D', "ReleaseAck ", NONE, false),
    (b'E', "GrantAck ", NONE, false),
];

// ---- reading

struct Reader<'a> {
    rest: &'a [u8],
}

impl Reader<'_> {
    fn text(&mut self, text: &str) -> Option<()> {
        self.rest = self.rest.strip_prefix(text.as_bytes())?;
        Some(())
    }

    fn number(&mut self, end: u8, most: u32) -> Option<u32> {
        let mut value = 0u64;
        for (i, byte) in self.rest.iter().enumerate() {
            if *byte == end && i > 0 {
                if self.rest[0] == b'0' && i > 1 {
                    return None;
                }
                self.rest = &self.rest[i + 1..];
                return Some(value as u32);
            }
            if !byte.is_ascii_digit() {
                return None;
            }
            value = value * 10 + u64::from(*byte - b'0');
            if value > u64::from(most) {
                return None;
            }
        }
        None
    }

    fn hex(&mut self, out: &mut [u8]) -> Option<()> {
        fn digit(byte: u8) -> Option<u8> {
            match byte {
                b'0'..=b'9' => Some(byte - b'0'),
                b'a'..=b'f' => Some(byte - b'a' + 10),
                _ => None,
            }
        }
        let (digits, rest) = self.rest.split_at_checked(2 * out.len())?;
        for (byte, pair) in out.iter_mut().zip(digits.chunks_exact(2)) {
            *byte = digit(pair[0])? << 4 | digit(pair[1])?;
        }
        self.rest = rest;
        Some(())
    }

    fn word(&mut self) -> Option<u32> {
        self.text("0x")?;
        let mut bytes = [0; 4];
        self.hex(&mut bytes)?;
        Some(u32::from_be_bytes(bytes))
    }

    fn one_of(&mut self, texts: &[&str]) -> Option<u8> {
        let place = texts.iter().position(|text| self.rest.starts_with(text.as_bytes()))?;
        self.rest = &self.rest[texts[place].len()..];
        Some(place as u8)
    }

    fn data(&mut self, line: u32) -> Option<Data> {
        self.text(" ")?;
        if line == 16 {
            let mut data = [0; 16];
            self.hex(&mut data)?;
            Some(Data::Short(data))
        } else {
            let mut data = [0; 64];
            self.hex(&mut data)?;
            Some(Data::Long(data))
        }
    }
}

pub fn is_first_version(harts: u32, line: u32) -> bool {
    line == 16 && harts <= 4
}

/// Whether a text is of the first version, and not of the second; then how many harts and KiB it is of.
fn read_head(r: &mut Reader, first: &str, second: &str) -> Option<(bool, u32, u32)> {
    let is_first = r.text(first).is_some();
    if !is_first {
        r.text(second)?;
    }
    Some((is_first, r.number(b' ', 8)?, r.number(b' ', 1024)?))
}

pub fn read_script(text: &[u8]) -> Option<Script> {
    let mut r = Reader { rest: text };
    let (first, harts, kib) = read_head(&mut r, "rvtl-script 1 ", "rvtl-script 2 ")?;
    let sets = r.number(b' ', 64)?;
    let ways = r.number(if first { b'\n' } else { b' ' }, 4)?;
    let line = if first { 16 } else { r.number(b'\n', 64)? };
    let fits = harts > 0 && kib >= 4 && kib % 4 == 0 && sets.is_power_of_two() && ways > 0;
    if !fits || (line != 16 && line != 64) || first != is_first_version(harts, line) {
        return None;
    }
    let mut events = Vec::new();
    while let Some(letter) = r.rest.first() {
        events.push(match letter {
            b's' => {
                r.text("step ")?;
                Event::Step(r.number(b'\n', 255)? as u8)
            }
            b'd' if r.text("drain ").is_some() => {
                let (hart, word) = (r.number(b' ', 255)? as u8, r.word()?);
                r.text("\n")?;
                Event::Drain(hart, word)
            }
            b'd' => {
                r.text("deliver ")?;
                let channel = r.one_of(&["A ", "B ", "C ", "D ", "E "])?;
                Event::Deliver(channel, r.number(b'\n', 255)? as u8)
            }
            b'e' => {
                r.text("evict ")?;
                let (hart, line) = (r.number(b' ', 255)? as u8, r.word()?);
                r.text("\n")?;
                Event::Evict(hart, line)
            }
            _ => {
                r.text("local ")?;
                Event::Local(r.number(b' ', 255)? as u8, r.number(b'\n', u32::MAX)?)
            }
        });
    }
    Some(Script { harts, kib, sets, ways, line, events })
}

fn read_retired(r: &mut Reader) -> Option<Retired> {
    let pc = r.word()?;
    r.text(" ")?;
    let word = r.word()?;
    r.text(" ")?;
    let loaded = if r.text("-").is_some() { None } else { Some(r.word()?) };
    r.text(" ")?;
    let answer = [None, Some(true), Some(false)][r.one_of(&["-", "ok", "fail"])? as usize];
    r.text("\n")?;
    Some(Retired { pc, word, loaded, answer })
}

fn read_message(r: &mut Reader, harts: u32, kib: u32, line: u32) -> Option<Message> {
    let sent = r.one_of(&["s ", "t "])? == 0;
    let channel = *r.rest.first()?;
    r.rest = &r.rest[1..];
    r.text(" ")?;
    let hart = r.number(b' ', harts - 1)? as u8;
    let name = NAMES.iter().position(|name| r.rest.starts_with(name.1.as_bytes()))?;
    r.rest = &r.rest[NAMES[name].1.len()..];
    let at = r.word()?;
    let permission = r.one_of(NAMES[name].2)?;
    let data = if NAMES[name].3 { Some(r.data(line)?) } else { None };
    r.text("\n")?;
    let inside = at >= BASE && u64::from(at) < u64::from(BASE) + u64::from(kib) * 1024;
    if channel != NAMES[name].0 || at % line != 0 || !inside {
        return None;
    }
    Some(Message { sent, hart, name: name as u8, line: at, permission, data })
}

fn read_trace(text: &[u8]) -> Option<(Trace, usize)> {
    let mut r = Reader { rest: text };
    let (first, harts, kib) = read_head(&mut r, "rvtl-trace 1\nT ", "rvtl-trace 2\nT ")?;
    let entry = r.word()?;
    r.text(if first { "\n" } else { " " })?;
    let line = if first { 16 } else { r.number(b'\n', 64)? };
    let end = u64::from(BASE) + u64::from(kib) * 1024;
    let fits = harts > 0 && kib >= 4 && kib % 4 == 0 && entry % 4 == 0 && entry >= BASE;
    if !fits || u64::from(entry) + 4 > end || (line != 16 && line != 64) || first != is_first_version(harts, line) {
        return None;
    }
    let mut memory = vec![0; kib as usize * 1024];
    let mut next = u64::from(BASE);
    while r.text("I ").is_some() {
        let address = r.word()?;
        r.text(" ")?;
        if address % line != 0 || u64::from(address) < next || u64::from(address) >= end {
            return None;
        }
        let start = (address - BASE) as usize;
        let bytes = &mut memory[start..start + line as usize];
        r.hex(bytes)?;
        r.text("\n")?;
        if bytes.iter().all(|byte| *byte == 0) {
            return None;
        }
        next = u64::from(address) + u64::from(line);
    }
    let mut entries = Vec::new();
    for hart in 0..harts {
        let lead = [b'R', b' ', b'0' + hart as u8, b' '];
        let mut list = Vec::new();
        while let Some(rest) = r.rest.strip_prefix(&lead) {
            r.rest = rest;
            list.push(read_retired(&mut r)?);
            if list.len() > 1_000_000 {
                return None;
            }
        }
        entries.push(list);
    }
    let mut performed = Vec::new();
    while r.text("P ").is_some() {
        let hart = r.number(b' ', harts - 1)? as u8;
        performed.push(Operation { hart, place: r.number(b'\n', 999_999)? });
    }
    let mut log = Vec::new();
    while r.text("M ").is_some() {
        log.push(read_message(&mut r, harts, kib, line)?);
    }
    let mut statuses = Vec::new();
    for hart in 0..harts {
        let lead = [b'H', b' ', b'0' + hart as u8, b' '];
        r.rest = r.rest.strip_prefix(&lead)?;
        statuses.push(match r.one_of(&["run\n", "stop ", "exit "])? {
            0 => Status::Running,
            1 => Status::Stopped(r.number(b'\n', 8)? as u8),
            _ => Status::Exited(r.number(b'\n', 255)? as u8),
        });
    }
    let trace = Trace { line, entry, memory, entries, performed, log, statuses };
    Some((trace, text.len() - r.rest.len()))
}

// ---- writing

pub fn put_number(out: &mut Vec<u8>, n: u32) {
    let mut digits = [0; 10];
    let mut at = digits.len();
    let mut left = n;
    loop {
        at -= 1;
        digits[at] = b'0' + (left % 10) as u8;
        left /= 10;
        if left == 0 {
            break;
        }
    }
    out.extend_from_slice(&digits[at..]);
}

pub fn put_hex(out: &mut Vec<u8>, bytes: &[u8]) {
    const DIGITS: &[u8; 16] = b"0123456789abcdef";
    for byte in bytes {
        out.extend_from_slice(&[DIGITS[usize::from(byte >> 4)], DIGITS[usize::from(byte & 15)]]);
    }
}

pub fn put_word(out: &mut Vec<u8>, n: u32) {
    out.extend_from_slice(b"0x");
    put_hex(out, &n.to_be_bytes());
}

pub fn script_text(script: &Script) -> Vec<u8> {
    let mut out = Vec::new();
    let first = is_first_version(script.harts, script.line);
    out.extend_from_slice(if first { b"rvtl-script 1" } else { b"rvtl-script 2" });
    for n in [script.harts, script.kib, script.sets, script.ways] {
        out.push(b' ');
        put_number(&mut out, n);
    }
    if !first {
        out.push(b' ');
        put_number(&mut out, script.line);
    }
    out.push(b'\n');
    for event in &script.events {
        let (word, hart) = match event {
            Event::Step(hart) => ("step ", hart),
            Event::Drain(hart, _) => ("drain ", hart),
            Event::Evict(hart, _) => ("evict ", hart),
            Event::Deliver(_, hart) => ("deliver ", hart),
            Event::Local(hart, _) => ("local ", hart),
        };
        out.extend_from_slice(word.as_bytes());
        if let Event::Deliver(channel, _) = event {
            out.extend_from_slice(&[b'A' + channel, b' ']);
        }
        put_number(&mut out, u32::from(*hart));
        match event {
            Event::Drain(_, address) | Event::Evict(_, address) => {
                out.push(b' ');
                put_word(&mut out, *address);
            }
            Event::Local(_, count) => {
                out.push(b' ');
                put_number(&mut out, *count);
            }
            _ => {}
        }
        out.push(b'\n');
    }
    out
}

fn put_message(out: &mut Vec<u8>, message: &Message) {
    let (channel, name, permissions, _) = NAMES[usize::from(message.name)];
    out.extend_from_slice(&[b'M', b' ', if message.sent { b's' } else { b't' }, b' ', channel, b' ']);
    put_number(out, u32::from(message.hart));
    out.push(b' ');
    out.extend_from_slice(name.as_bytes());
    put_word(out, message.line);
    out.extend_from_slice(permissions[usize::from(message.permission)].as_bytes());
    if let Some(data) = &message.data {
        out.push(b' ');
        match data {
            Data::Short(bytes) => put_hex(out, bytes),
            Data::Long(bytes) => put_hex(out, bytes),
        }
    }
    out.push(b'\n');
}

fn trace_text(trace: &Trace) -> Vec<u8> {
    let mut out = Vec::new();
    let harts = trace.statuses.len() as u32;
    let first = is_first_version(harts, trace.line);
    out.extend_from_slice(if first { b"rvtl-trace 1\nT " } else { b"rvtl-trace 2\nT " });
    put_number(&mut out, harts);
    out.push(b' ');
    put_number(&mut out, (trace.memory.len() / 1024) as u32);
    out.push(b' ');
    put_word(&mut out, trace.entry);
    if !first {
        out.push(b' ');
        put_number(&mut out, trace.line);
    }
    out.push(b'\n');
    for (i, bytes) in trace.memory.chunks_exact(trace.line as usize).enumerate() {
        if bytes.iter().any(|byte| *byte != 0) {
            out.extend_from_slice(b"I ");
            put_word(&mut out, BASE + i as u32 * trace.line);
            out.push(b' ');
            put_hex(&mut out, bytes);
            out.push(b'\n');
        }
    }
    for (hart, list) in trace.entries.iter().enumerate() {
        for entry in list {
            out.extend_from_slice(&[b'R', b' ', b'0' + hart as u8, b' ']);
            put_word(&mut out, entry.pc);
            out.push(b' ');
            put_word(&mut out, entry.word);
            out.push(b' ');
            match entry.loaded {
                None => out.push(b'-'),
                Some(word) => put_word(&mut out, word),
            }
            out.extend_from_slice(match entry.answer {
                None => b" -\n",
                Some(true) => b" ok\n",
                Some(false) => b" fail\n",
            });
        }
    }
    for operation in &trace.performed {
        out.extend_from_slice(&[b'P', b' ', b'0' + operation.hart, b' ']);
        put_number(&mut out, operation.place);
        out.push(b'\n');
    }
    for message in &trace.log {
        put_message(&mut out, message);
    }
    for (hart, status) in trace.statuses.iter().enumerate() {
        out.extend_from_slice(&[b'H', b' ', b'0' + hart as u8, b' ']);
        match status {
            Status::Running => out.extend_from_slice(b"run"),
            Status::Stopped(code) => {
                out.extend_from_slice(b"stop ");
                put_number(&mut out, u32::from(*code));
            }
            Status::Exited(code) => {
                out.extend_from_slice(b"exit ");
                put_number(&mut out, u32::from(*code));
            }
        }
        out.push(b'\n');
    }
    out
}

fn run(command: &str, text: &[u8]) -> Option<Vec<u8>> {
    Some(match command {
        "read-script" => {
            let script = std::hint::black_box(read_script(text)?);
            let _ = script.events.len();
            Vec::new()
        }
        "write-script" => script_text(&read_script(text)?),
        "read-trace" => {
            let (trace, _) = std::hint::black_box(read_trace(text)?);
            let _ = trace.log.len();
            Vec::new()
        }
        "write-trace" => trace_text(&read_trace(text)?.0),
        _ => return None,
    })
}

fn main() -> ExitCode {
    let command = std::env::args().nth(1).unwrap_or_default();
    let mut text = Vec::new();
    if io::stdin().read_to_end(&mut text).is_err() {
        return ExitCode::from(2);
    }
    match run(&command, &text) {
        Some(out) if io::stdout().write_all(&out).is_ok() => ExitCode::SUCCESS,
        _ => ExitCode::from(2),
    }
}
