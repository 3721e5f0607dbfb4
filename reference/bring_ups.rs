//! Random bring-ups: a host program is fed answers of cards, damaged at random, and compared line by line with
//! the reference host, which runs along inside.

use crate::bring_up::{read_answer, read_limit, step_line, Command, End, Host, Step, USAGE};
use crate::bring_up_cards::{damaged, AnyCard};
use crate::bring_up_coverage::BringUpCoverage;
use crate::chance::Rng;
use crate::lines::Bench;
use crate::programs::Program;

/// Words of the shell that are no limit.
const NO_LIMITS: [&str; 12] =
    ["1 2", "''", "0", "1001", "x", "-1", "+1", "1x", "' 1'", "65537", "4294967297", "00"];

struct Run {
    words: String,
    expected: Vec<Vec<u8>>,
    /// Lines of the card, newlines included.
    answers: Vec<Vec<u8>>,
    end: Option<End>,
    is_locked: bool,
    at_once: bool,
}

/// Gives the account, or the report of the first difference.
pub fn differ(seed: u64, runs: u64, program: &str) -> Result<BringUpCoverage, String> {
    let mut rng = Rng::new(seed);
    let mut bench = Bench::console();
    let mut coverage = BringUpCoverage::default();
    for number in 1..=runs {
        let run = Run::new(&mut rng, &mut bench, &mut coverage);
        coverage.end(run.end, run.is_locked);
        coverage.fed(run.at_once);
        run.compare(program)
            .map_err(|report| format!("{report}\ndifference in bring-up {number} of seed {seed}"))?;
    }
    Ok(coverage)
}

/// The program's arguments, as words of the shell.
fn words(rng: &mut Rng) -> String {
    let few = 1 + rng.below(20);
    let zeros = "0".repeat(rng.below(40) as usize);
    match rng.below(100) {
        0..=4 => String::new(),
        5..=8 => rng.pick(&NO_LIMITS).into(),
        9..=28 => "1".into(),
        29..=32 => (1 + rng.below(1000)).to_string(),
        33..=35 => format!("{zeros}{few}"),
        36 => "1000".into(),
        _ => few.to_string(),
    }
}

/// The words as the program gets them.
fn arguments(words: &str) -> Vec<String> {
    match words.strip_prefix('\'').and_then(|words| words.strip_suffix('\'')) {
        Some(word) => vec![word.into()],
        None => words.split_whitespace().map(String::from).collect(),
    }
}

/// Which answers are damaged: those to one command, or some of all, or none.
fn damage_plan(rng: &mut Rng) -> (Option<Command>, u64) {
    use Command::*;
    let commands =
        [GoIdleState, SendIfCond, AppCmd, SdSendOpCond, AllSendCid, SendRelativeAddr, SendCsd, SelectCard];
    let one = rng.pick(&commands);
    rng.weighted(&[(3, (None, 0)), (2, (None, 10)), (8, (Some(one), 70))])
}

impl Run {
    fn new(rng: &mut Rng, bench: &mut Bench, coverage: &mut BringUpCoverage) -> Run {
        let words = words(rng);
        let mut run = Run {
            words,
            expected: Vec::new(),
            answers: Vec::new(),
            end: None,
            is_locked: false,
            at_once: rng.chance(50),
        };
        match read_limit(&arguments(&run.words)) {
            Some(limit) => run.bring_up(rng, bench, coverage, limit),
            None => run.expected.push(format!("{USAGE}\n").into_bytes()),
        }
        if run.at_once {
            run.finish(rng);
        }
        run
    }

    fn bring_up(&mut self, rng: &mut Rng, bench: &mut Bench, coverage: &mut BringUpCoverage, limit: u16) {
        let mut card = AnyCard::new(rng, bench, limit);
        self.is_locked = card.is_locked();
        let (at, percent) = damage_plan(rng);
        let (mut host, mut step) = Host::begin(limit).expect("the limit was read");
        loop {
            self.expected.push(step_line(&step));
            let frame = match step {
                Step::Send(frame) => frame,
                Step::End(end) => break self.end = Some(end),
            };
            let answer = card.answer(rng, host.sent, &frame);
            let mut arrives = Some(answer);
            if at.is_none_or(|command| command == host.sent) && rng.chance(percent) {
                let (damage, line) = damaged(rng, arrives.as_deref().unwrap_or_default());
                coverage.damage(damage);
                arrives = line;
            }
            step = host.hear(arrives.as_deref().and_then(read_answer).as_deref());
            self.answers.extend(arrives.map(|mut line| {
                line.push(b'\n');
                line
            }));
        }
    }

    /// Answers that nobody asks for, or a last line without its newline.
    fn finish(&mut self, rng: &mut Rng) {
        let asked = self.expected.len() - usize::from(self.end.is_some());
        if rng.chance(30) && self.answers.len() == asked {
            self.answers.extend((0..rng.below(5)).map(|_| b"rsp\t370000012083\n".to_vec()));
        } else if rng.chance(30) {
            self.answers.last_mut().map(Vec::pop);
        }
    }

    fn compare(&self, program: &str) -> Result<(), String> {
        let mut program = Program::start(&format!("{program} {}", self.words))?;
        if self.at_once {
            // A program that has ended reads no more.
            let _ = program.send(&self.answers.concat());
            program.end_input();
        }
        for (i, expected) in self.expected.iter().enumerate() {
            let line = program.answer();
            if line.as_ref() != Ok(expected) {
                return Err(self.report(i, &line.map_or_else(|fault| fault, |line| shown(&line))));
            }
            match self.answers.get(i) {
                _ if self.at_once => {}
                Some(answer) => drop(program.send(answer)),
                None => program.end_input(),
            }
        }
        program.check_end().map_err(|fault| self.report(self.expected.len(), &fault))
    }

    fn report(&self, at: usize, line: &str) -> String {
        let path = std::env::temp_dir().join(format!("differ-{}.in", std::process::id()));
        let kept = match std::fs::write(&path, self.answers.concat()) {
            Ok(()) => format!("its answers kept in {}", path.display()),
            Err(error) => format!("its answers not kept: {error}"),
        };
        let before: Vec<String> = (at.saturating_sub(10)..at).map(|i| self.exchange(i)).collect();
        let expected = self.expected.get(at).map_or("nothing".into(), |line| shown(line));
        let words = &self.words;
        format!("{}\nexpected: {expected}\nwritten:  {line}\narguments: {words}; {kept}", before.join("\n"))
    }

    fn exchange(&self, i: usize) -> String {
        let answer = self.answers.get(i).map_or("the input ends".into(), |line| shown(line));
        format!("{} => {answer}", shown(&self.expected[i]))
    }
}

fn shown(line: &[u8]) -> String {
    line.trim_ascii_end().escape_ascii().to_string()
}
