//! Compares answers and measures nothing: those of the plain stepper with the worked cases of the
//! rules, then those of the engine, in each of its ways, with the plain stepper's.

use crate::engine::{self, WholeRun};
use crate::plain::{self, Answer, Choice, Run, Step};
use crate::plans::{self, Chance, Plan, PARALLEL, SERIAL};
use crate::rounding::Lent;

const RANDOM_PLANS: usize = 5000;

type Outcome = Result<(), String>;

/// An older archive, where one is linked, gives the same checksum.
pub fn same_as_before(file: &[u8], workers: u16, choices: &[Choice], mem: &mut [u16]) -> Outcome {
    match engine::BEFORE {
        Some(run_before)
            if run_before(file, workers, choices, mem) != plain::run(file, workers, choices) =>
        {
            Err("the older archive has another checksum".to_string())
        }
        _ => Ok(()),
    }
}

/// In each way the engine makes the whole run that the plain stepper makes, and leaves the same memory.
pub fn same(file: &[u8], workers: u16, choices: &[Choice], mem: &mut [u16]) -> Outcome {
    let mut left: Option<Vec<u16>> = None;
    for (way, whole_run) in engine::WAYS {
        mem.fill(MARK);
        same_answers(whole_run, file, workers, choices, mem)
            .map_err(|why| format!("{way}: {why}"))?;
        let expected = left.get_or_insert_with(|| mem.to_vec());
        expect(expected == mem, &format!("{way} leave the memory that choices leave"))?;
    }
    Ok(())
}

/// With rounding the answers and the memory are those without, and the figures those of the paper.
pub fn same_rounded(
    file: &[u8],
    workers: u16,
    choices: &[Choice],
    lent: &mut Lent,
    mem: &mut [u16],
) -> Outcome {
    mem.fill(MARK);
    engine::run(file, workers, choices, mem);
    let left = mem.to_vec();
    mem.fill(MARK);
    let told = engine::run_rounded(file, workers, lent, choices, mem);
    expect(told == plain::run(file, workers, choices), "rounding changes no answer")?;
    expect(left == mem, "rounding changes no memory")?;
    let (_, said) = answers(file, workers, choices);
    expect(lent.expected(&said) == lent.figures, "the figures are those of the paper")
}

/// Both sides make the same whole run, else it says which choice they first differ at.
fn same_answers(
    whole_run: WholeRun,
    file: &[u8],
    workers: u16,
    choices: &[Choice],
    mem: &mut [u16],
) -> Outcome {
    let opening = whole_run(file, workers, &[], mem);
    if opening != 0 {
        return Err(format!("the engine refuses the opening with {opening}"));
    }
    let mut agree = |many: usize| {
        let choices = &choices[..many];
        whole_run(file, workers, choices, mem) == plain::run(file, workers, choices)
    };
    if agree(choices.len()) {
        return Ok(());
    }
    // Checksums that have come apart stay so, but for rare chance.
    let (mut good, mut bad) = (0, choices.len());
    while good + 1 < bad {
        let middle = (good + bad) / 2;
        if agree(middle) {
            good = middle;
        } else {
            bad = middle;
        }
    }
    let ([worker, line], answer) = (choices[good], answers(file, workers, choices).1[good]);
    Err(format!(
        "W = {workers}, choice {good} (from 0), worker {worker}, line {line}: the engine does not \
         say {answer:?}"
    ))
}

pub fn all(mem: &mut [u16]) -> Outcome {
    worked_cases()?;
    println!("the plain stepper gives the worked cases");
    random_plans(mem)?;
    refused_openings()?;
    refused_roundings()?;
    lent_beyond()
}

fn answers(file: &[u8], workers: u16, choices: &[Choice]) -> (Run, Vec<Answer>) {
    let mut run = Run::open(file, workers);
    let answers = choices.iter().map(|&choice| run.choose(choice)).collect();
    (run, answers)
}

/// The answers where lines are listed alone.
fn line_answers(file: &[u8], workers: u16, lines: &[u8]) -> Vec<Answer> {
    let mut run = Run::open(file, workers);
    lines.iter().map(|&line| run.choose([run.worker_for(line), line])).collect()
}

fn expect(holds: bool, what: &str) -> Outcome {
    if holds {
        Ok(())
    } else {
        Err(format!("not so: {what}"))
    }
}

/// Tokens in the order of their starts at pipe 0, with their lines.
fn starts(answers: &[Answer]) -> Vec<(u8, u16)> {
    let start = |answer: &Answer| match *answer {
        Answer::Started(Step { line, pipe: 0, token, .. }) => Some((line, token)),
        _ => None,
    };
    answers.iter().filter_map(start).collect()
}

/// Cases a to j: their letter, N, records and order.
type Worked = (char, u16, &'static [(u16, &'static [u16])], &'static [u16]);
const CASES: &[Worked] = &[
    ('a', 1, &[], &[0]),
    (
        'b',
        17,
        &[(7, &[16]), (12, &[6, 7, 16])],
        &[0, 1, 2, 3, 4, 5, 6, 8, 9, 10, 11, 13, 14, 15, 16, 7, 12],
    ),
    ('c', 0, &[], &[]),
    ('d', 2, &[(0, &[1])], &[1, 0]),
    ('e', 2, &[(0, &[1]), (1, &[0])], &[]),
    ('f', 3, &[(0, &[3])], &[1, 2]),
    ('g', 3, &[(0, &[2]), (1, &[2])], &[2, 0, 1]),
    ('h', 3, &[(0, &[1, 2]), (1, &[2])], &[2, 1, 0]),
    ('i', 4, &[(0, &[3]), (1, &[2])], &[2, 1, 3, 0]),
    ('j', 4, &[(1, &[0])], &[0, 1, 2, 3]),
];

fn case_file(case: &Worked, pipes: &[u8], lines: u16) -> Vec<u8> {
    let (_, tokens, records, _) = *case;
    let records = records.iter().map(|&(token, numbers)| (token, numbers.to_vec()));
    Plan { pipes: pipes.to_vec(), lines, tokens, records: records.collect() }.file()
}

fn worked_cases() -> Outcome {
    for case in CASES {
        for pipes in [&[SERIAL][..], &[SERIAL; 3], &[SERIAL, PARALLEL, SERIAL]] {
            for lines in [1, 2, 3, 7] {
                worked_case(case, pipes, lines)?;
            }
        }
    }

    let [case_a, case_b] = [&CASES[0], &CASES[1]];
    let file = case_file(case_a, &[SERIAL], 1);
    expect(file == [0x53, 0, 0, 1, 0, 1, 0, 1, 0, 0, 0, 1, 0], "case a's file")?;
    let step = Step { line: 0, pipe: 0, token: 0, place: 0, worker: 0 };
    let (run, said) = answers(&file, 1, &[[0, 0], [0, 0], [0, 0], [0, 0], [1, 0], [1, 1]]);
    expect(
        said == [
            Answer::Started(step),
            Answer::Finished(step),
            Answer::Stopped(0, 0),
            Answer::Refused(11),
            Answer::Refused(26),
            Answer::Refused(10),
        ] && run.ended(),
        "case a's answers, and what comes after its end",
    )?;

    let file = case_file(case_b, &[SERIAL], 3);
    let said = answers(&file, 1, &plans::one_worker_order(&file)).1;
    let on_line_0 = starts(&said).into_iter().filter(|&(line, _)| line == 0);
    expect(
        on_line_0.map(|(_, token)| token).eq([0, 3, 6, 10, 14, 7]),
        "case b on three lines: the tokens of line 0",
    )?;
    let file = case_file(case_b, &[SERIAL; 3], 1);
    expect(
        plans::one_worker_order(&file).len() == 103,
        "case b with three pipes takes 103 choices",
    )?;

    // Token 1 overtakes at a parallel pipe and not at a serial one.
    let plan =
        |second| Plan { pipes: vec![SERIAL, second], lines: 2, tokens: 2, records: Vec::new() };
    let order = [0, 0, 0, 1, 1, 1, 1];
    let said = line_answers(&plan(PARALLEL).file(), 2, &order);
    let overtaker = Step { line: 1, pipe: 1, token: 1, place: 1, worker: 1 };
    expect(
        said[6] == Answer::Finished(overtaker) && starts(&said) == [(0, 0), (1, 1)],
        "token 1 is first to finish a parallel pipe",
    )?;
    let said = line_answers(&plan(SERIAL).file(), 2, &order);
    expect(said[5] == Answer::Refused(12), "the sixth choice gets 12")?;
    let said = line_answers(&plan(SERIAL).file(), 1, &[0, 0, 0, 1]);
    expect(said[3] == Answer::Refused(13), "a second worker is wanted")
}

/// The one-worker run and random ones give the case's order, each place on its line, in
/// 2·M·P + 1 choices.
fn worked_case(case: &Worked, pipes: &[u8], lines: u16) -> Outcome {
    let (letter, .., order) = *case;
    let file = case_file(case, pipes, lines);
    let place = |(k, &token): (usize, &u16)| ((k % usize::from(lines)) as u8, token);
    let expected: Vec<(u8, u16)> = order.iter().enumerate().map(place).collect();
    for (workers, choices) in [
        (1, plans::one_worker_order(&file)),
        (2, plans::random_order(&file, 2, 1)),
        (32, plans::random_order(&file, 32, 2)),
    ] {
        let (run, said) = answers(&file, workers, &choices);
        expect(
            starts(&said) == expected
                && run.ended()
                && choices.len() == 2 * order.len() * pipes.len() + 1,
            &format!(
                "the order of case {letter}, {} pipes, {lines} lines, W = {workers}",
                pipes.len()
            ),
        )?;
    }
    Ok(())
}

fn random_plans(mem: &mut [u16]) -> Outcome {
    let mut chance = Chance(20_261_115);
    let mut seen = [0; KINDS.len()];
    let mut ended = 0;
    for number in 0..RANDOM_PLANS {
        let plan = random_plan(&mut chance);
        let file = plan.file();
        let most = chance.pick(&[1, 2, 4, 32]);
        let workers = 1 + chance.below(most) as u16;
        let choices = random_choices(&mut chance, &plan, &file, workers);
        same(&file, workers, &choices, mem)
            .and_then(|()| {
                let serial = |&pipe: &usize| plan.pipes[pipe] == SERIAL;
                let serial: Vec<usize> = (0..plan.pipes.len()).filter(serial).collect();
                let pipe = chance.pick(&serial) as u16;
                let mut lent = Lent::new(pipe, chance.pick(&[3, 5]), plan.tokens);
                same_rounded(&file, workers, &choices, &mut lent, mem)
            })
            .map_err(|why| format!("random plan {number}: {why}; {plan:?}"))?;
        let (run, said) = answers(&file, workers, &choices);
        said.iter().for_each(|answer| seen[kind(answer)] += 1);
        ended += usize::from(run.ended());
    }
    print!("{RANDOM_PLANS} random plans, with and without rounding: all checksums agree; {ended} runs ended; answers:");
    KINDS.iter().zip(seen).for_each(|(name, many)| print!(" {many} {name},"));
    println!(" {} in all", seen.iter().sum::<usize>());
    // Else this compares too little.
    expect(seen.iter().all(|&many| many > 0) && ended > 0, "every kind of answer comes up")
}

fn random_plan(chance: &mut Chance) -> Plan {
    let tokens = chance.below(41) as u16;
    let pipes = 1 + chance.below(16);
    let often = chance.below(9);
    let most = chance.pick(&[1, 2, 4, 16]);
    let manner = chance.below(4);
    // Only numbers of lower rank are listed where there is to be no cycle.
    let rank: Vec<usize> = (0..tokens).map(|_| chance.below(65_536)).collect();

    let mut records = Vec::new();
    for token in 0..tokens {
        if chance.below(8) >= often {
            continue;
        }
        let mut pool: Vec<u16> = match manner {
            0 | 1 => (token + 1..tokens).collect(),
            2 => (0..tokens).filter(|&n| rank[usize::from(n)] < rank[usize::from(token)]).collect(),
            _ => (0..tokens).filter(|&n| n != token).collect(),
        };
        // Numbers that never enter.
        if manner == 1 && chance.one_in(6) {
            pool.extend([tokens, tokens + 1 + chance.below(50) as u16, 65_535]);
        }
        for _ in 0..pool.len().saturating_sub(1 + chance.below(most)) {
            pool.remove(chance.below(pool.len()));
        }
        if !pool.is_empty() {
            records.push((token, pool));
        }
    }
    let kind = |pipe| if pipe == 0 || chance.below(3) > 0 { SERIAL } else { PARALLEL };
    Plan {
        pipes: (0..pipes).map(kind).collect(),
        lines: 1 + chance.below(32) as u16,
        tokens,
        records,
    }
}

/// Allowed choices with any others in between, of lines up to 40 and workers up to W. Some lists stop
/// before the end of the run and some go on after it.
fn random_choices(chance: &mut Chance, plan: &Plan, file: &[u8], workers: u16) -> Vec<Choice> {
    let strays = chance.pick(&[1, 2, 4, 16]);
    let whole = 2 * usize::from(plan.tokens) * plan.pipes.len() + 1;
    let mut run = Run::open(file, workers);
    let mut choices = Vec::new();
    for _ in 0..chance.below(2 * whole + 20) {
        let worker = chance.below(run.workers() + 1) as u8;
        let choice = if chance.one_in(20) {
            [worker, chance.below(41) as u8]
        } else if run.ended() || chance.one_in(strays) {
            [worker, chance.below(run.lines()) as u8]
        } else {
            chance.pick(&plans::allowed(&run))
        };
        run.choose(choice);
        choices.push(choice);
    }
    choices
}

/// The kinds of answers, named as the program prints them.
const KINDS: [&str; 8] = ["S", "F", "X", "R 10", "R 11", "R 12", "R 13", "R 26"];

fn kind(answer: &Answer) -> usize {
    match *answer {
        Answer::Started(_) => 0,
        Answer::Finished(_) => 1,
        Answer::Stopped(..) => 2,
        Answer::Refused(26) => 7,
        Answer::Refused(number) => usize::from(number) - 10 + 3,
    }
}

/// Fills lent memory, so that anything written there shows.
const MARK: u16 = 0xa55a;

/// Fields of the trailer, counted in twos from its start.
const START: usize = 0;
const RECORDS: usize = 4;
const EDITION: usize = 5;

fn with_field(mut file: Vec<u8>, which: usize, number: u16) -> Vec<u8> {
    let at = file.len() - 12 + 2 * which;
    file[at..at + 2].copy_from_slice(&number.to_le_bytes());
    file
}

/// Damaged files, bad worker limits and too little memory: each gets its number and writes nothing.
fn refused_openings() -> Outcome {
    let good = Plan {
        pipes: vec![SERIAL, PARALLEL],
        lines: 2,
        tokens: 5,
        records: vec![(1, vec![2, 3]), (2, vec![3])],
    };
    let file = good.file();
    let changed = |change: fn(&mut Plan)| {
        let mut plan = good.clone();
        change(&mut plan);
        plan.file()
    };
    let start = file.len() - 12 - good.pipes.len();
    let mut cut_short = with_field(file.clone(), START, start as u16 - 2);
    cut_short.drain(start - 2..start);
    // This plan lists 8,192 numbers.
    let mut crowded = plans::long_deferred(4096);
    crowded.records[0].1.insert(0, 3000);

    let files = [
        ("11 bytes", 1, file[file.len() - 11..].to_vec()),
        ("32,797 bytes", 1, vec![0; 32_797]),
        ("A one too high", 2, with_field(file.clone(), START, start as u16 + 1)),
        ("edition 0", 3, with_field(file.clone(), EDITION, 0)),
        ("edition 3", 3, with_field(file.clone(), EDITION, 3)),
        ("no pipe", 3, changed(|plan| plan.pipes.clear())),
        ("17 pipes", 3, changed(|plan| plan.pipes.resize(17, SERIAL))),
        ("no line", 3, changed(|plan| plan.lines = 0)),
        ("33 lines", 3, changed(|plan| plan.lines = 33)),
        ("4,097 tokens", 3, changed(|plan| plan.tokens = 4097)),
        ("another pipe byte", 4, changed(|plan| plan.pipes[1] = 88)),
        ("pipe 0 parallel", 4, changed(|plan| plan.pipes[0] = PARALLEL)),
        ("a token of N", 5, changed(|plan| plan.records[1].0 = 5)),
        ("a token again", 5, changed(|plan| plan.records[1].0 = 1)),
        ("no number", 5, changed(|plan| plan.records[0].1.clear())),
        ("17 numbers", 5, changed(|plan| plan.records[0].1 = (2..19).collect())),
        ("numbers that fall", 5, changed(|plan| plan.records[0].1 = vec![3, 2])),
        ("the last record cut short", 5, cut_short),
        ("R one too high", 5, with_field(file.clone(), RECORDS, 3)),
        ("a token that lists itself", 6, changed(|plan| plan.records[0].1[0] = 1)),
        ("8,193 numbers in all", 7, crowded.file()),
    ];
    for (what, number, file) in &files {
        refused(what, *number, file, 1, engine::LENT)?;
    }
    refused("no worker", 8, &file, 0, engine::LENT)?;
    refused("33 workers", 8, &file, 33, engine::LENT)?;
    refused("one number too few lent", 9, &file, 1, engine::LENT - 1)?;
    println!("{} refused openings: each gets its number and writes nothing", files.len() + 3);
    Ok(())
}

fn refused(what: &str, number: u64, file: &[u8], workers: u16, lent: usize) -> Outcome {
    for (way, whole_run) in engine::WAYS {
        let mut mem = vec![MARK; lent];
        let got = whole_run(file, workers, &[[0, 0], [0, 0], [0, 1], [0, 2]], &mut mem);
        expect(got == number, &format!("{way}: {what} gets {number} (got {got})"))?;
        expect(mem.iter().all(|&x| x == MARK), &format!("{way}: {what} writes nothing"))?;
    }
    Ok(())
}

/// What is wrong, the number that it gets, and the damage.
type Damage = (&'static str, u64, fn(&mut Lent));

/// Bad pipes, bases, cells and figures: each gets its number and writes nothing.
fn refused_roundings() -> Outcome {
    let pipes = vec![SERIAL, PARALLEL];
    let file = Plan { pipes, lines: 2, tokens: 5, records: vec![(1, vec![2, 3])] }.file();
    let tries: [Damage; 9] = [
        ("a pipe past the last", 16, |lent| lent.pipe = 2),
        ("a parallel pipe", 16, |lent| lent.pipe = 1),
        ("base 2", 17, |lent| lent.base = 2),
        ("base 4", 17, |lent| lent.base = 4),
        ("a cell too few", 18, |lent| lent.cells.truncate(4)),
        ("a cell too many", 18, |lent| lent.cells.push(0)),
        ("a cell of 1,000,001", 18, |lent| lent.cells[4] = 1_000_001),
        ("a figure too few", 18, |lent| lent.figures.truncate(4)),
        ("a figure too many", 18, |lent| lent.figures.push(u32::MAX)),
    ];
    for (what, number, change) in tries {
        let mut lent = Lent::new(0, 3, 5);
        change(&mut lent);
        let mut mem = vec![MARK; engine::LENT];
        let got = engine::run_rounded(&file, 1, &mut lent, &[[0, 0], [0, 0]], &mut mem);
        expect(got == number, &format!("{what} gets {number} (got {got})"))?;
        let unwritten =
            mem.iter().all(|&x| x == MARK) && lent.figures.iter().all(|&x| x == u32::MAX);
        expect(unwritten, &format!("{what} writes nothing"))?;
    }
    println!("{} refused openings with rounding: the same", tries.len());
    Ok(())
}

/// More may be lent, and what is beyond is untouched.
fn lent_beyond() -> Outcome {
    let file = plans::every_third(4096).file();
    let choices = plans::random_order(&file, 32, 3);
    let mut mem = vec![MARK; engine::LENT + 1000];
    same(&file, 32, &choices, &mut mem)?;
    expect(mem[engine::LENT..].iter().all(|&x| x == MARK), "what is lent beyond is untouched")?;
    println!("lent memory beyond {} numbers is untouched", engine::LENT);
    Ok(())
}
