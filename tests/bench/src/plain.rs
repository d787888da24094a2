//! A stepper of the same rules in ordinary Rust, nothing of it proved, that the engine is measured
//! against.
//!
//! It trusts its plan file and keeps its state to itself, so that it refuses with 10 to 13 and 26
//! only.

use std::collections::VecDeque;

const TRAILER: usize = 12;
const SERIAL: u8 = 83;

/// A worker and a line.
pub type Choice = [u8; 2];

#[derive(Clone, Copy, Debug, PartialEq, Eq)]
pub struct Step {
    pub line: u8,
    pub pipe: u8,
    pub token: u16,
    pub place: u16,
    pub worker: u8,
}

#[derive(Clone, Copy, Debug, PartialEq, Eq)]
pub enum Answer {
    Started(Step),
    Finished(Step),
    /// The line and the worker.
    Stopped(u8, u8),
    Refused(u8),
}

impl Step {
    fn value(self) -> u64 {
        u64::from(self.line) * 4
            + u64::from(self.pipe) * 256
            + u64::from(self.token) * 4096
            + u64::from(self.place) * 16_777_216
            + u64::from(self.worker) * 68_719_476_736
    }
}

impl Answer {
    /// The answer as one number, for the checksum.
    pub fn value(self) -> u64 {
        match self {
            Answer::Started(step) => step.value(),
            Answer::Finished(step) => step.value() + 1,
            Answer::Stopped(line, worker) => {
                u64::from(line) * 4 + u64::from(worker) * 68_719_476_736 + 2
            }
            Answer::Refused(number) => u64::from(number) * 4 + 3,
        }
    }
}

/// A whole run: opens the plan, makes every choice, and gives the checksum of all answers.
pub fn run(file: &[u8], workers: u16, choices: &[Choice]) -> u64 {
    let mut run = Run::open(file, workers);
    let add = |sum, &choice: &Choice| (sum * 1_000_003 + run.choose(choice).value()) % (1 << 41);
    choices.iter().fold(0, add)
}

struct Pipe {
    serial: bool,
    full: u8,
}

/// A line runs at `pipe` or waits there. Token and place are those it carries, and the worker is the
/// one that runs it.
#[derive(Clone, Copy)]
struct Line {
    running: bool,
    pipe: u8,
    token: u16,
    place: u16,
    worker: u8,
}

pub struct Run {
    pipes: Vec<Pipe>,
    lines: Vec<Line>,
    /// Join counters, a row of pipes for each line.
    counters: Vec<u8>,
    /// Whether each worker runs a line.
    busy: Vec<bool>,
    running: u16,
    stopped: bool,
    ended: bool,
    tokens: Tokens,
}

impl Run {
    pub fn open(file: &[u8], workers: u16) -> Run {
        let trailer = file.len() - TRAILER;
        let [start, pipe_count, line_count, token_count, ..] =
            [0, 1, 2, 3, 4, 5].map(|i| field(file, trailer + 2 * i));

        let pipes: Vec<Pipe> = file[start.into()..][..pipe_count.into()]
            .iter()
            .map(|&kind| Pipe { serial: kind == SERIAL, full: if kind == SERIAL { 2 } else { 1 } })
            .collect();

        let mut counters = Vec::with_capacity(pipes.len() * usize::from(line_count));
        for line in 0..line_count {
            for (pipe, kind) in pipes.iter().enumerate() {
                counters.push(match (line, pipe) {
                    (0, 0) => 0,
                    (0, _) | (_, 0) => 1,
                    _ => kind.full,
                });
            }
        }

        let idle = Line { running: false, pipe: 0, token: 0, place: 0, worker: 0 };
        Run {
            pipes,
            lines: vec![idle; line_count.into()],
            counters,
            busy: vec![false; workers.into()],
            running: 0,
            stopped: false,
            ended: false,
            tokens: Tokens::open(&file[..start.into()], token_count),
        }
    }

    pub fn lines(&self) -> usize {
        self.lines.len()
    }

    pub fn pipes(&self) -> usize {
        self.pipes.len()
    }

    pub fn ended(&self) -> bool {
        self.ended
    }

    pub fn workers(&self) -> usize {
        self.busy.len()
    }

    /// The worker that goes with a line: its own, or the idle one with the smallest number.
    pub fn worker_for(&self, line: u8) -> u8 {
        let line = self.lines[usize::from(line)];
        if line.running {
            return line.worker;
        }
        self.busy.iter().position(|&busy| !busy).unwrap_or(0) as u8
    }

    /// The number that a choice would be refused with now.
    pub fn refusal(&self, [worker, line]: Choice) -> Option<u8> {
        let Some(state) = self.lines.get(usize::from(line)) else {
            return Some(10);
        };
        let Some(&busy) = self.busy.get(usize::from(worker)) else {
            return Some(26);
        };
        if self.ended {
            Some(11)
        } else if state.running {
            (state.worker != worker).then_some(26)
        } else if self.counters[self.counter(line.into(), state.pipe.into())] > 0 {
            Some(12)
        } else if busy {
            Some(13)
        } else {
            None
        }
    }

    pub fn choose(&mut self, choice: Choice) -> Answer {
        let [worker, line] = choice;
        if let Some(number) = self.refusal(choice) {
            return Answer::Refused(number);
        }
        let answer = if self.lines[usize::from(line)].running {
            self.finish(line.into())
        } else {
            self.start(worker, line.into())
        };
        if self.stopped {
            self.ended = self.has_ended();
        }
        answer
    }

    fn start(&mut self, worker: u8, line: usize) -> Answer {
        let pipe = usize::from(self.lines[line].pipe);
        let counter = self.counter(line, pipe);
        self.counters[counter] = self.pipes[pipe].full;
        if pipe == 0 {
            let Some((token, place)) = self.tokens.take() else {
                self.stopped = true;
                return Answer::Stopped(line as u8, worker);
            };
            self.lines[line].token = token;
            self.lines[line].place = place;
        }
        self.lines[line].running = true;
        self.lines[line].worker = worker;
        self.busy[usize::from(worker)] = true;
        self.running += 1;
        Answer::Started(self.step(line))
    }

    fn finish(&mut self, line: usize) -> Answer {
        let step = self.step(line);
        let pipe = usize::from(step.pipe);
        if pipe == 0 {
            self.tokens.finish(step.token);
        }
        if self.pipes[pipe].serial {
            let next_line = if line + 1 == self.lines.len() { 0 } else { line + 1 };
            let counter = self.counter(next_line, pipe);
            self.counters[counter] -= 1;
        }
        let next_pipe = if pipe + 1 == self.pipes.len() { 0 } else { pipe + 1 };
        let counter = self.counter(line, next_pipe);
        self.counters[counter] -= 1;
        self.lines[line].pipe = next_pipe as u8;
        self.lines[line].running = false;
        self.busy[usize::from(step.worker)] = false;
        self.running -= 1;
        Answer::Finished(step)
    }

    fn has_ended(&self) -> bool {
        self.running == 0
            && (0..self.lines.len()).all(|line| {
                let pipe = usize::from(self.lines[line].pipe);
                self.counters[self.counter(line, pipe)] > 0
            })
    }

    fn step(&self, line: usize) -> Step {
        let Line { pipe, token, place, worker, .. } = self.lines[line];
        Step { line: line as u8, pipe, token, place, worker }
    }

    fn counter(&self, line: usize, pipe: usize) -> usize {
        line * self.pipes.len() + pipe
    }
}

/// Which tokens are taken, deferred, ready and ordered.
struct Tokens {
    total: u16,
    /// How many were ever taken as new.
    count: u16,
    ordered: u16,
    ready: VecDeque<u16>,
    /// All listed numbers one after another, and which of them are each token's own.
    numbers: Vec<u16>,
    lists: Vec<List>,
    /// For each token, how many numbers it still waits for: 0 if it is not deferred.
    due: Vec<u8>,
    /// For each token, the chain of those that wait for it, in the order entered. All chains are
    /// links of one vector: one for each token would mean thousands of small allocations.
    chains: Vec<Chain>,
    links: Vec<Link>,
}

#[derive(Clone, Copy)]
struct List {
    start: u16,
    end: u16,
}

#[derive(Clone, Copy)]
struct Chain {
    first: u16,
    last: u16,
}

struct Link {
    waiter: u16,
    next: u16,
}

/// No link; there are at most 8,192.
const NONE: u16 = u16::MAX;

impl Tokens {
    fn open(records: &[u8], total: u16) -> Tokens {
        let mut numbers = Vec::with_capacity(records.len() / 2);
        let mut lists = vec![List { start: 0, end: 0 }; total.into()];
        let mut at = 0;
        while at < records.len() {
            let token = usize::from(field(records, at));
            let count = usize::from(field(records, at + 2));
            let start = numbers.len() as u16;
            numbers.extend((0..count).map(|i| field(records, at + 4 + 2 * i)));
            lists[token] = List { start, end: numbers.len() as u16 };
            at += 4 + 2 * count;
        }
        Tokens {
            total,
            count: 0,
            ordered: 0,
            ready: VecDeque::new(),
            due: vec![0; total.into()],
            chains: vec![Chain { first: NONE, last: NONE }; total.into()],
            links: Vec::with_capacity(numbers.len()),
            numbers,
            lists,
        }
    }

    /// The next token in order and its place; those on the way to it that must wait are deferred.
    fn take(&mut self) -> Option<(u16, u16)> {
        let token = loop {
            if let Some(token) = self.ready.pop_front() {
                break token;
            }
            if self.count == self.total {
                return None;
            }
            let token = self.count;
            self.count += 1;
            if !self.defer(token) {
                break token;
            }
        };
        let place = self.ordered;
        self.ordered += 1;
        Some((token, place))
    }

    /// Defers the token on those of its numbers that are still due, if there are any.
    fn defer(&mut self, token: u16) -> bool {
        let List { start, end } = self.lists[usize::from(token)];
        let mut due = 0;
        for i in start..end {
            let number = self.numbers[usize::from(i)];
            if number >= self.count || self.due[usize::from(number)] > 0 {
                due += 1;
                // A number that never enters releases nobody.
                if number < self.total {
                    self.add_waiter(number, token);
                }
            }
        }
        self.due[usize::from(token)] = due;
        due > 0
    }

    fn add_waiter(&mut self, number: u16, waiter: u16) {
        let link = self.links.len() as u16;
        self.links.push(Link { waiter, next: NONE });
        let chain = &mut self.chains[usize::from(number)];
        if chain.first == NONE {
            chain.first = link;
        } else {
            self.links[usize::from(chain.last)].next = link;
        }
        chain.last = link;
    }

    fn finish(&mut self, token: u16) {
        let mut link = self.chains[usize::from(token)].first;
        while link != NONE {
            let Link { waiter, next } = self.links[usize::from(link)];
            let due = &mut self.due[usize::from(waiter)];
            *due -= 1;
            if *due == 0 {
                self.ready.push_back(waiter);
            }
            link = next;
        }
    }
}

/// Two bytes, low byte first.
fn field(bytes: &[u8], at: usize) -> u16 {
    u16::from_le_bytes([bytes[at], bytes[at + 1]])
}
