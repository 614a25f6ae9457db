//! A run by threads in plain Rust: the machine behind one `std::sync::Mutex`, a `std::thread` a hart, and what
//! they draw and publish in atomics. `plain_threads HARTS MODEL LIMIT ELF` prints how many events changed the
//! machine and how many were drawn, and how each hart ended. With a word `asleep` behind it the threads wait for
//! the lock as the Mutex has them wait, and not as those of `host_threads` do.

use coherent_machine::{AdoptError, ApplyError, Machine, Views};
use elf_loader::{BASE, Image, load};
use hart::{Batch, Hart, Status, run_local};
use kit::alloc::Global;
use machine_types::{Config, Event, MemoryModel, Outcome};
use rv32_decode::decode;
use rv32_exec::{Action, plan};
use std::sync::atomic::{AtomicBool, AtomicU64, Ordering};
use std::sync::{Mutex, MutexGuard};
use tl_types::{Channel, LineSize};

const MOST_ALONE: u32 = 256;
const MOST_HARTS: usize = 8;
const TRIES: u32 = 16;
const SHORTEST: u32 = 8;
const DOUBLINGS: u32 = 10;
const SHORTEST_REST: u32 = 64;
const REST_DOUBLINGS: u32 = 10;

// ---- what the threads share

struct Board {
    counter: AtomicU64,
    halted: AtomicU64,
    lengths: [AtomicU64; MOST_HARTS],
    stop: AtomicBool,
}

struct Fabric {
    machine: Machine,
    journal: Vec<Event>,
}

#[derive(Debug)]
enum Fault {
    Limit,
    NoMemory,
    BadEvent,
    Stale,
}

impl From<ApplyError> for Fault {
    fn from(error: ApplyError) -> Fault {
        match error {
            ApplyError::BadEvent => Fault::BadEvent,
            ApplyError::Limit => Fault::Limit,
            ApplyError::NoMemory => Fault::NoMemory,
        }
    }
}

impl Fabric {
    fn apply(&mut self, event: Event) -> Result<Outcome, Fault> {
        self.journal.try_reserve(1).map_err(|_| Fault::NoMemory)?;
        let changes = self.machine.views().changes();
        let outcome = self.machine.apply(event)?;
        if self.machine.views().changes() != changes {
            self.journal.push(event);
        }
        Ok(outcome)
    }

    fn commit(&mut self, batch: &Batch) -> Result<Outcome, Fault> {
        self.journal.try_reserve(1).map_err(|_| Fault::NoMemory)?;
        let hart = batch.first().id;
        let outcome = self.machine.adopt(hart, batch).map_err(|error| match error {
            AdoptError::Limit => Fault::Limit,
            AdoptError::NoMemory => Fault::NoMemory,
            AdoptError::Stale | AdoptError::Empty => Fault::Stale,
        })?;
        let count = batch.entries().len() as u32;
        self.journal.push(Event::Local { hart, count });
        Ok(outcome)
    }
}

// ---- the rounds of one hart's events

#[derive(Clone, Copy, PartialEq)]
enum Place {
    Step,
    Drain,
    Evict,
    Deliver(Channel),
}

const ROUND: [Place; 8] = [
    Place::Deliver(Channel::D),
    Place::Step,
    Place::Drain,
    Place::Evict,
    Place::Deliver(Channel::A),
    Place::Deliver(Channel::C),
    Place::Deliver(Channel::E),
    Place::Deliver(Channel::B),
];

struct Rounds<'a> {
    hart: u8,
    image: &'a Image,
    config: Config,
    next: usize,
    picked: Option<Event>,
    full: Option<u32>,
}

fn accessed(image: &Image, hart: &Hart) -> Option<u32> {
    if !image.has_word(hart.pc) {
        return None;
    }
    let instr = decode(image.word(hart.pc))?;
    match plan(&instr, hart.pc, &hart.regs, image.size()) {
        Action::Load { addr, .. } | Action::Lr { addr } | Action::Amo { addr, .. } => Some(addr),
        _ => None,
    }
}

fn goes_alone(image: &Image, hart: &Hart) -> bool {
    hart.status.is_running()
        && image.has_word(hart.pc)
        && decode(image.word(hart.pc))
            .is_some_and(|instr| matches!(plan(&instr, hart.pc, &hart.regs, image.size()), Action::Private))
}

impl Rounds<'_> {
    fn wanted(&self, hart: &Hart) -> Option<u32> {
        match self.picked {
            Some(Event::Step { .. }) => accessed(self.image, hart),
            Some(Event::Drain { word, .. }) => Some(word),
            _ => None,
        }
    }

    fn lowest_spare(&self, views: &Views<'_>, address: u32) -> Option<u32> {
        let cache = views.cache(usize::from(self.hart));
        let stride = self.config.sets * self.config.line.bytes();
        let first = BASE + address / self.config.line.bytes() % self.config.sets * self.config.line.bytes();
        (first..BASE + self.image.size()).step_by(stride as usize).find(|line| {
            cache.copy(*line).is_some() && !cache.is_acquiring(*line)
        })
    }

    fn event_at(&self, place: Place, views: &Views<'_>) -> Option<Event> {
        let hart = self.hart;
        let index = usize::from(hart);
        match place {
            Place::Step => views.hart(index).status.is_running().then_some(Event::Step { hart }),
            Place::Drain => views.buffer(index).lowest().map(|word| Event::Drain { hart, word }),
            Place::Evict => {
                let line = self.lowest_spare(views, self.full?)?;
                Some(Event::Evict { hart, line })
            }
            Place::Deliver(channel) => {
                (views.queues(index).len(channel) > 0).then_some(Event::Deliver { channel, hart })
            }
        }
    }

    fn pick(&mut self, views: &Views<'_>, last: Option<Outcome>) -> Option<Event> {
        if last == Some(Outcome::SetFull) {
            self.full = self.wanted(views.hart(usize::from(self.hart))).or(self.full);
        }
        for step in 0..ROUND.len() {
            let place = (self.next + step) % ROUND.len();
            if let Some(event) = self.event_at(ROUND[place], views) {
                self.next = (place + 1) % ROUND.len();
                self.picked = Some(event);
                if ROUND[place] != Place::Drain {
                    self.full = None;
                }
                return Some(event);
            }
        }
        self.picked = None;
        None
    }
}

// ---- one thread

fn is_change(outcome: Outcome) -> bool {
    matches!(
        outcome,
        Outcome::Retired
            | Outcome::Stopped(_)
            | Outcome::Exited(_)
            | Outcome::Drained
            | Outcome::Delivered
            | Outcome::Evicted
            | Outcome::Missed(_)
    )
}

// Takes the lock.
#[inline(always)]
fn held(lock: &Mutex<Fabric>, is_asleep: bool) -> MutexGuard<'_, Fabric> {
    match lock.try_lock() {
        Ok(guard) => guard,
        Err(_) if is_asleep => lock.lock().unwrap(),
        Err(_) => awaited(lock),
    }
}

// Takes a lock that another worker holds.
#[cold]
fn awaited(lock: &Mutex<Fabric>) -> MutexGuard<'_, Fabric> {
    let ticks = AtomicU64::new(0);
    let ticks = std::hint::black_box(&ticks);
    for attempt in 0..TRIES {
        for _ in 0..SHORTEST << attempt.min(DOUBLINGS) {
            ticks.fetch_add(1, Ordering::SeqCst);
        }
        if let Ok(guard) = lock.try_lock() {
            return guard;
        }
    }
    lock.lock().unwrap()
}

/// What a turn came to while the lock was held.
enum Taken {
    Nothing,
    Over,
    HeldBack(Event),
    Tried(Result<Outcome, Fault>),
}

struct Worker<'a> {
    hart: u8,
    harts: usize,
    image: &'a Image,
    limit: u64,
    board: &'a Board,
    lock: &'a Mutex<Fabric>,
    rounds: Rounds<'a>,
    state: Hart,
    seen: (u64, Status),
    last: Option<Outcome>,
    has_halted: bool,
    receipts: u64,
    rests: u32,
    is_asleep: bool,
}

impl Worker<'_> {
    fn run(mut self) -> (u64, Option<Fault>) {
        let fault = loop {
            if self.board.stop.load(Ordering::SeqCst) {
                break None;
            }
            let mut lengths = [0; MOST_HARTS];
            for (length, word) in lengths.iter_mut().zip(&self.board.lengths[..self.harts]) {
                *length = word.load(Ordering::SeqCst);
            }
            std::hint::black_box(&lengths);
            match self.take_turn() {
                Ok(true) => {}
                // A hart whose list is full ends alone.
                Ok(false) | Err(Fault::Limit) => break None,
                Err(fault) => {
                    self.board.stop.store(true, Ordering::SeqCst);
                    break Some(fault);
                }
            }
        };
        self.halt();
        (self.receipts, fault)
    }

    fn take_turn(&mut self) -> Result<bool, Fault> {
        if self.board.halted.load(Ordering::SeqCst) == (1 << self.harts) - 1 {
            return Ok(false);
        }
        let outcome = match self.take() {
            Taken::Nothing => {
                self.rest();
                return Ok(true);
            }
            Taken::Over => return Ok(false),
            Taken::HeldBack(event) => self.go_alone(event)?,
            Taken::Tried(came) => came?,
        };
        self.last = Some(outcome);
        if is_change(outcome) {
            self.receipts += 1;
            self.rests = 0;
            self.board.lengths[usize::from(self.hart)].fetch_max(self.seen.0, Ordering::SeqCst);
            self.halt_at_end();
        } else {
            self.rest();
        }
        Ok(true)
    }

    fn take(&mut self) -> Taken {
        let lock = self.lock;
        let mut fabric = held(lock, self.is_asleep);
        let taken = self.take_on(&mut fabric);
        self.see(&fabric);
        taken
    }

    fn take_on(&mut self, fabric: &mut Fabric) -> Taken {
        let views = fabric.machine.views();
        let Some(event) = self.rounds.pick(&views, self.last) else {
            return Taken::Nothing;
        };
        if self.board.counter.fetch_add(1, Ordering::SeqCst) >= self.limit {
            return Taken::Over;
        }
        let own = views.hart(usize::from(self.hart));
        if event == (Event::Step { hart: self.hart }) && goes_alone(self.image, own) {
            self.state = *own;
            return Taken::HeldBack(event);
        }
        Taken::Tried(fabric.apply(event))
    }

    fn go_alone(&mut self, event: Event) -> Result<Outcome, Fault> {
        let batch = run_local(Global, self.image, &self.state, MOST_ALONE).map_err(|_| Fault::NoMemory)?;
        let lock = self.lock;
        let mut fabric = held(lock, self.is_asleep);
        let came = match fabric.commit(&batch) {
            Err(Fault::Stale) => fabric.apply(event),
            answer => answer,
        };
        self.see(&fabric);
        came
    }

    fn see(&mut self, fabric: &Fabric) {
        let trace = fabric.machine.trace();
        let hart = usize::from(self.hart);
        self.seen = (trace.entries(hart).len() as u64, trace.statuses()[hart]);
    }

    fn rest(&mut self) {
        self.halt_at_end();
        if self.rests > REST_DOUBLINGS {
            return std::thread::yield_now();
        }
        for _ in 0..SHORTEST_REST << self.rests {
            if self.board.stop.load(Ordering::SeqCst) {
                break;
            }
        }
        self.rests += 1;
    }

    fn halt_at_end(&mut self) {
        if !self.seen.1.is_running() {
            self.halt();
        }
    }

    fn halt(&mut self) {
        if !self.has_halted {
            self.board.halted.fetch_or(1 << self.hart, Ordering::SeqCst);
            self.has_halted = true;
        }
    }
}

fn main() {
    let words: Vec<String> = std::env::args().collect();
    let (words, is_asleep) = match words.as_slice() {
        [words @ .., last] if last == "asleep" => (words, true),
        words => (words, false),
    };
    let [_, harts, model, limit, file] = words else {
        panic!("plain_threads HARTS MODEL LIMIT ELF [asleep]");
    };
    let harts: u32 = harts.parse().unwrap();
    let model = if model == "ztso" { MemoryModel::Ztso } else { MemoryModel::Rvwmo };
    let limit: u64 = limit.parse().unwrap();
    let image = load(Global, &std::fs::read(file).unwrap(), 64 * 1024).unwrap();
    let config = Config { harts, sets: 4, ways: 2, line: LineSize::Bytes16, model };
    let own = image.try_copy(Global).unwrap();
    let machine = Machine::new(Global, image, config).ok().unwrap();
    let lock = Mutex::new(Fabric { machine, journal: Vec::new() });
    let board = Board {
        counter: AtomicU64::new(0),
        halted: AtomicU64::new(0),
        lengths: [const { AtomicU64::new(0) }; MOST_HARTS],
        stop: AtomicBool::new(false),
    };
    let receipts: Vec<(u64, Option<Fault>)> = std::thread::scope(|scope| {
        let threads: Vec<_> = (0..harts as u8)
            .map(|hart| {
                let rounds = Rounds { hart, image: &own, config, next: 0, picked: None, full: None };
                let worker = Worker {
                    hart,
                    harts: harts as usize,
                    image: &own,
                    limit,
                    board: &board,
                    lock: &lock,
                    rounds,
                    state: Hart::at_reset(hart, own.entry(), harts),
                    seen: (0, Status::Running),
                    last: None,
                    has_halted: false,
                    receipts: 0,
                    rests: 0,
                    is_asleep,
                };
                scope.spawn(move || worker.run())
            })
            .collect();
        threads.into_iter().map(|thread| thread.join().unwrap()).collect()
    });
    let fabric = lock.into_inner().unwrap();
    let trace = fabric.machine.trace();
    assert_eq!(receipts.iter().map(|one| one.0).sum::<u64>(), fabric.journal.len() as u64);
    for (hart, status) in trace.statuses().iter().enumerate() {
        println!("hart {hart}: {status:?}, {} instructions", trace.entries(hart).len());
    }
    println!("{} events of {}", fabric.journal.len(), board.counter.load(Ordering::SeqCst));
}
