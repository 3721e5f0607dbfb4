//! Differential tester: `differ SEED CALLS CMD_A CMD_B` drives two replay programs with
//! the same random histories and stops at the first answer in which they differ;
//! `differ --console SEED CALLS CMD_A CMD_B` does so with two console programs, and
//! `differ --host SEED RUNS CMD` compares a host program with the reference host (bring_ups.rs).
//!
//! The reference card runs along inside, only so that the generator knows the state
//! reached; the answers compared are those of the two programs.

#[allow(dead_code)]
mod bring_up;
mod bring_up_cards;
mod bring_up_coverage;
mod bring_ups;
mod calls;
mod card;
mod chance;
mod console_coverage;
mod console_host;
mod coverage;
mod erase_coverage;
mod host;
#[allow(dead_code)]
mod lines;
mod lock_calls;
mod lock_coverage;
mod lock_host;
mod locked_coverage;
mod programs;
mod spi_answer_coverage;
mod spi_block_coverage;
mod spi_calls;
mod spi_command_coverage;
mod spi_coverage;
mod spi_host;
mod tally;

use calls::Call;
use card::Card;
use chance::Rng;
use coverage::Coverage;
use host::Host;
use programs::{History, Program};
use std::process::ExitCode;

/// Calls of the life in which every RCA is published, and some to spare.
const EVERY_RCA: u64 = 66_000;

struct Run<'a> {
    is_console: bool,
    seed: u64,
    calls: u64,
    programs: [&'a str; 2],
}

fn main() -> ExitCode {
    let arguments: Vec<String> = std::env::args().skip(1).collect();
    if let [flag, seed, runs, program] = arguments.as_slice() {
        if let ("--host", Ok(seed), Ok(runs)) = (flag.as_str(), seed.parse(), runs.parse()) {
            return bring_ups(seed, runs, program);
        }
    }
    let Some(run) = read_arguments(&arguments) else {
        eprintln!("usage: differ [--console] SEED CALLS CMD_A CMD_B, or differ --host SEED RUNS CMD");
        return ExitCode::from(2);
    };
    let mut coverage = Coverage::new(run.is_console);
    match differ(&run, &mut coverage) {
        Ok((calls, lives)) => {
            coverage.print();
            println!("no difference in {calls} calls, {lives} {}, seed {}", run.life()[1], run.seed);
            ExitCode::SUCCESS
        }
        Err(report) => {
            println!("{report}");
            ExitCode::FAILURE
        }
    }
}

fn bring_ups(seed: u64, runs: u64, program: &str) -> ExitCode {
    match bring_ups::differ(seed, runs, program) {
        Ok(coverage) => {
            coverage.print();
            println!("no difference in {runs} bring-ups, seed {seed}");
            ExitCode::SUCCESS
        }
        Err(report) => {
            println!("{report}");
            ExitCode::FAILURE
        }
    }
}

fn read_arguments(arguments: &[String]) -> Option<Run<'_>> {
    let (is_console, rest) = match arguments {
        [flag, rest @ ..] if flag == "--console" => (true, rest),
        _ => (false, arguments),
    };
    let [seed, calls, a, b] = rest else {
        return None;
    };
    Some(Run { is_console, seed: seed.parse().ok()?, calls: calls.parse().ok()?, programs: [a, b] })
}

impl Run<'_> {
    /// What a life is called, one and several.
    fn life(&self) -> [&'static str; 2] {
        if self.is_console {
            ["life", "lives"]
        } else {
            ["power-up", "power-ups"]
        }
    }

    /// Long runs begin with a life in which every RCA is published.
    fn shows_every_rca(&self) -> bool {
        self.calls >= if self.is_console { 10 } else { 2 } * EVERY_RCA
    }
}

/// Gives the number of calls and of lives, or the report of the first difference.
fn differ(run: &Run, coverage: &mut Coverage) -> Result<(u64, u64), String> {
    let mut rng = Rng::new(run.seed);
    let mut done = 0;
    let mut lives = 0;
    while done < run.calls {
        let every_rca = lives == 0 && run.shows_every_rca();
        let calls = if every_rca { EVERY_RCA } else { (200 + rng.below(4000)).min(run.calls - done) };
        done += live(&mut rng, run, calls, every_rca, coverage).map_err(|report| {
            let (number, life, seed) = (lives + 1, run.life()[0], run.seed);
            format!(
                "{report}\ndifference in {life} {number} of seed {seed}, after {done} calls and the above"
            )
        })?;
        lives += 1;
    }
    Ok((done, lives))
}

/// One pair of processes from their start to the end of input.
struct Life<'a> {
    programs: [Program; 2],
    host: Host,
    history: History,
    coverage: &'a mut Coverage,
    sent: u64,
}

fn live(
    rng: &mut Rng,
    run: &Run,
    calls: u64,
    every_rca: bool,
    coverage: &mut Coverage,
) -> Result<u64, String> {
    let [a, b] = run.programs;
    let mut life = Life {
        programs: [Program::start(a)?, Program::start(b)?],
        host: Host::new(run.is_console),
        history: History::default(),
        coverage,
        sent: 0,
    };
    if every_rca {
        life.host.plan_every_rca();
    } else if run.is_console {
        life.host.begin_console(rng);
    }
    life.run(rng, calls, !run.is_console)?;
    if run.is_console {
        life.host.plan_last_look(rng);
        let calls = life.host.plan.len() as u64 + rng.below(2);
        life.run(rng, calls, true)?;
    }
    for (program, name) in life.programs.iter_mut().zip(["A", "B"]) {
        program.check_end().map_err(|fault| format!("program {name} {fault}"))?;
    }
    Ok(life.sent)
}

impl Life<'_> {
    fn run(&mut self, rng: &mut Rng, calls: u64, is_last: bool) -> Result<(), String> {
        let mut left = calls;
        let mut inactive = 20 + rng.below(60);
        while left > 0 {
            let batch = if rng.chance(50) { 1 } else { 1 + rng.below(60) }.min(left);
            left -= batch;
            let (text, calls) = self.batch(rng, batch, is_last && left == 0);
            if self.host.is_lost() {
                inactive = inactive.saturating_sub(batch);
                left = left.min(inactive);
            }
            self.compare(&text, &calls, is_last && left == 0)?;
        }
        Ok(())
    }

    /// The lines of the next calls, and the calls with the cards that they meet.
    fn batch(&mut self, rng: &mut Rng, count: u64, is_last: bool) -> (Vec<u8>, Vec<(Call, Card)>) {
        let mut text = Vec::new();
        let mut calls = Vec::new();
        for i in 0..count {
            let call = self.host.next_call(rng);
            let step = self.host.apply(&call);
            self.coverage.call(&call, &step);
            let line = call.line();
            text.extend_from_slice(&line);
            // A last line counts without its newline.
            if !(is_last && i == count - 1 && rng.chance(50)) || line.is_empty() {
                text.push(b'\n');
            }
            calls.push((call, step.before));
        }
        self.sent += count;
        (text, calls)
    }

    fn compare(&mut self, text: &[u8], calls: &[(Call, Card)], is_last: bool) -> Result<(), String> {
        let written: Vec<_> = self.programs.iter_mut().map(|program| program.send(text)).collect();
        if is_last {
            self.programs.iter_mut().for_each(Program::end_input);
        }
        for (i, (call, card)) in calls.iter().enumerate() {
            // What was sent behind a difference belongs to no report.
            let answers = [self.programs[0].answer(), self.programs[1].answer()];
            self.history.push(call, card, &answers);
            if answers[0] != answers[1] || answers[0].is_err() {
                return Err(self.history.report(&answers));
            }
            self.coverage.answer(call, card, answers[0].as_ref().unwrap());
            if i + 1 == calls.len() && written.iter().any(Result::is_err) {
                return Err(self.history.report(&answers) + "\na program stopped reading");
            }
        }
        Ok(())
    }
}
