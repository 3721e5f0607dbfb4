//! The reference card's programs, one line out for each line in: `main` is the replay program of 01,
//! `main console` the console. `main bring_up [LIMIT]` is the reference host.

mod bring_up;
#[cfg(test)]
mod bring_up_checks;
mod card;
#[cfg(test)]
mod checks;
mod lines;
#[cfg(test)]
mod lock_checks;
#[cfg(test)]
mod spi_block_checks;
#[cfg(test)]
mod spi_checks;

use lines::{Bench, LONGEST_LINE};
use std::cell::RefCell;
use std::io::{self, BufRead, BufReader, BufWriter, Write};

fn main() -> io::Result<()> {
    let arguments: Vec<String> = std::env::args().skip(1).collect();
    match arguments.first().map(String::as_str) {
        Some("bring_up") => bring_up(&arguments[1..]),
        Some("console") => answer(Bench::console()),
        _ => answer(Bench::replay()),
    }
}

fn answer(mut bench: Bench) -> io::Result<()> {
    let mut input = BufReader::with_capacity(1 << 16, io::stdin());
    let mut output = BufWriter::with_capacity(1 << 16, io::stdout().lock());
    let mut line = Vec::with_capacity(LONGEST_LINE + 1);
    while read_line(&mut input, &mut output, &mut line)? {
        let answer = bench.answer(&line);
        output.write_all(answer)?;
    }
    output.flush()
}

fn bring_up(arguments: &[String]) -> io::Result<()> {
    let mut input = BufReader::new(io::stdin());
    let output = RefCell::new(io::stdout().lock());
    let mut line = Vec::new();
    let hear = || {
        let begun = read_line(&mut input, &mut *output.borrow_mut(), &mut line)?;
        Ok(begun.then(|| line.clone()))
    };
    bring_up::run(arguments, |line| output.borrow_mut().write_all(line), hear)
}

/// Reads a line without its newline; false at the end of the input. Of an over-long
/// line it keeps just enough to see that it is one.
fn read_line<R: io::Read>(
    input: &mut BufReader<R>,
    output: &mut impl Write,
    line: &mut Vec<u8>,
) -> io::Result<bool> {
    line.clear();
    let mut begun = false;
    loop {
        if input.buffer().is_empty() {
            // The next read may wait for the host, who may wait for our answers.
            output.flush()?;
        }
        let bytes = input.fill_buf()?;
        if bytes.is_empty() {
            return Ok(begun);
        }
        begun = true;
        let newline = bytes.iter().position(|&byte| byte == b'\n');
        let end = newline.unwrap_or(bytes.len());
        let room = LONGEST_LINE + 1 - line.len();
        line.extend_from_slice(&bytes[..end.min(room)]);
        input.consume(end + usize::from(newline.is_some()));
        if newline.is_some() {
            return Ok(true);
        }
    }
}
