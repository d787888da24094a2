//! Plans, written as files, and lists of choices.

use crate::plain::{Answer, Choice, Run};

pub const SERIAL: u8 = 83;
pub const PARALLEL: u8 = 80;

/// Nothing here is checked, so that bad files can be written too.
#[derive(Clone, Debug)]
pub struct Plan {
    pub pipes: Vec<u8>,
    pub lines: u16,
    pub tokens: u16,
    /// A token and the numbers that it is deferred to.
    pub records: Vec<(u16, Vec<u16>)>,
}

impl Plan {
    pub fn file(&self) -> Vec<u8> {
        let mut file = Vec::new();
        for (token, numbers) in &self.records {
            put(&mut file, *token);
            put(&mut file, numbers.len() as u16);
            for &number in numbers {
                put(&mut file, number);
            }
        }
        let start = file.len() as u16;
        file.extend(&self.pipes);
        let edition = 1;
        for number in [
            start,
            self.pipes.len() as u16,
            self.lines,
            self.tokens,
            self.records.len() as u16,
            edition,
        ] {
            put(&mut file, number);
        }
        file
    }
}

/// Two bytes, low byte first.
fn put(file: &mut Vec<u8>, number: u16) {
    file.extend(number.to_le_bytes());
}

/// 16 pipes and 32 lines. Pipe 0 is serial, pipe 1 parallel, and so on by turns.
fn wide(tokens: u16, records: Vec<(u16, Vec<u16>)>) -> Plan {
    let pipes = (0..16).map(|pipe| if pipe % 2 == 0 { SERIAL } else { PARALLEL });
    Plan { pipes: pipes.collect(), lines: 32, tokens, records }
}

pub fn undeferred(tokens: u16) -> Plan {
    wide(tokens, Vec::new())
}

/// Every third token waits for the one two on and the one nine on.
pub fn every_third(tokens: u16) -> Plan {
    let deferred = (0..tokens - 9).step_by(3);
    wide(tokens, deferred.map(|t| (t, vec![t + 2, t + 9])).collect())
}

/// The first half of the tokens wait for four each of the last 32nd, so that they stay deferred till
/// nearly all others have passed. With 4,096 tokens that is 8,192 numbers in all.
pub fn long_deferred(tokens: u16) -> Plan {
    let last = tokens / 32;
    let list = |t: u16| (0..4).map(|k| tokens - last + (4 * t + k) % last).collect();
    wide(tokens, (0..tokens / 2).map(|t| (t, list(t))).collect())
}

/// Every token but the last waits for the one after it: the last lets all others in, backwards.
pub fn chain(tokens: u16) -> Plan {
    wide(tokens, (0..tokens - 1).map(|t| (t, vec![t + 1])).collect())
}

/// Every token but the last is deferred, the first to the last and each other to the one before it: each
/// finish lets the oldest of all that are left in, which moves all others. No plan is known to us whose
/// finishes take longer all in all.
pub fn oldest_first(tokens: u16) -> Plan {
    let number = |t: u16| t.checked_sub(1).unwrap_or(tokens - 1);
    wide(tokens, (0..tokens - 1).map(|t| (t, vec![number(t)])).collect())
}

/// 511 tokens wait for the same sixteen, which let each other in backwards: each of their finishes is of
/// the highest number that the others still wait for, so that at all but the last of them each must find
/// another.
pub fn highest_first(tokens: u16) -> Plan {
    let sixteen = 511..527;
    let waiting = (0..511).map(|t| (t, sixteen.clone().collect()));
    let chain = (511..526).map(|t| (t, vec![t + 1]));
    wide(tokens, waiting.chain(chain).collect())
}

/// The same tokens and records on one pipe and one line: every second choice finishes pipe 0.
pub fn narrow(plan: Plan) -> Plan {
    Plan { pipes: vec![SERIAL], lines: 1, ..plan }
}

/// Chance with a fixed seed.
pub struct Chance(pub u32);

impl Chance {
    /// A number below the limit, which is at most 65,536.
    pub fn below(&mut self, limit: usize) -> usize {
        self.0 = self.0.wrapping_mul(1_664_525).wrapping_add(1_013_904_223);
        // The low bits of such a sequence have short periods.
        (self.0 >> 16) as usize % limit
    }

    pub fn one_in(&mut self, often: usize) -> bool {
        self.below(often) == 0
    }

    pub fn pick<T: Copy>(&mut self, things: &[T]) -> T {
        things[self.below(things.len())]
    }
}

/// The choices of each line's worker that would be accepted now.
pub fn allowed(run: &Run) -> Vec<Choice> {
    (0..run.lines() as u8)
        .map(|line| [run.worker_for(line), line])
        .filter(|&choice| run.refusal(choice).is_none())
        .collect()
}

/// Each choice is drawn from all that are allowed, until the run has ended.
pub fn random_order(file: &[u8], workers: u16, seed: u32) -> Vec<Choice> {
    let mut chance = Chance(seed);
    let mut run = Run::open(file, workers);
    let mut choices = Vec::new();
    while !run.ended() {
        let choice = chance.pick(&allowed(&run));
        run.choose(choice);
        choices.push(choice);
    }
    choices
}

/// The one-worker run, to be opened with W = 1: each token in order goes through all pipes on its
/// line, and after the last the next line stops.
pub fn one_worker_order(file: &[u8]) -> Vec<Choice> {
    let mut run = Run::open(file, 1);
    let mut choices = Vec::new();
    let mut line = 0;
    loop {
        for _ in 0..2 * run.pipes() {
            choices.push([0, line as u8]);
            match run.choose([0, line as u8]) {
                Answer::Started(_) | Answer::Finished(_) => {}
                Answer::Stopped(..) => {
                    assert!(run.ended(), "the stop of the one-worker run ends it");
                    return choices;
                }
                Answer::Refused(number) => panic!("the one-worker run got {number}"),
            }
        }
        line = (line + 1) % run.lines();
    }
}

/// For a plan of fewer tokens than lines, in token order and with W = 1: each token through pipe 0, then the
/// stop, and only then each line, one after the other, through the other pipes. So most choices come after
/// the stop.
pub fn stop_first_order(plan: &Plan) -> Vec<Choice> {
    assert!(plan.tokens < plan.lines && plan.records.is_empty());
    let lines = 0..plan.tokens as u8;
    let through = |pipes: usize| lines.clone().flat_map(move |line| vec![[0, line]; 2 * pipes]);
    let stop = [0, plan.tokens as u8];
    through(1).chain([stop]).chain(through(plan.pipes.len() - 1)).collect()
}
