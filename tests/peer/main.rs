//! A second model of the register face, written from the documents alone, and what it takes to hold
//! it against the programs `face` and `why`. See README.md.

mod bus;
mod commands;
mod compare;
mod cut;
mod device;
mod draw;
mod draw_corners;
mod draw_errors;
mod draw_full;
mod draw_host;
mod draw_near;
mod draw_numbers;
mod draw_receive;
mod draw_text;
mod draw_transmit;
mod draw_why;
mod fate;
mod frame;
mod host;
mod hostile;
mod last_number;
mod noise;
mod random;
mod request;
mod said;
mod script;
mod tally;
mod why;

use noise::Noise;
use said::Model;
use script::Session;
use std::io::{Error, Read, Write};
use std::process::ExitCode;
use why::Why;

const USAGE: &str = "usage: peer answers < SCRIPT
       peer why < SCRIPT
       peer last-number
       peer draw SEED LINES
       peer draw-why SEED
       peer compare FACE SEED LINES [-v]
       peer compare-why WHY SEED SCRIPTS [-v]
       peer hostile FACE SEED BYTES [-v]
       peer hostile-why WHY SEED BYTES [-v]";

/// Answers each line as soon as it is complete, also on a pipe.
fn answer_input(mut model: impl Model) -> Result<(), Error> {
    let (mut input, mut output) = (std::io::stdin().lock(), std::io::stdout().lock());
    let mut buffer = [0; 65536];
    loop {
        let length = input.read(&mut buffer)?;
        for &byte in &buffer[..length] {
            if let Some(said) = model.byte(byte) {
                writeln!(output, "{}", said.text())?;
            }
        }
        if length == 0 {
            for said in model.end() {
                writeln!(output, "{}", said.text())?;
            }
            return Ok(());
        }
    }
}

/// Nothing when the words are no command.
fn run(words: &[&str]) -> Option<Result<bool, Error>> {
    let (words, verbose) = match words {
        [words @ .., "-v"] => (words, true),
        _ => (words, false),
    };
    match words {
        ["answers"] => Some(answer_input(Session::fresh()).map(|()| true)),
        ["why"] => Some(answer_input(Why::fresh()).map(|()| true)),
        ["last-number"] => Some(Ok(last_number::holds())),
        ["draw", seed, lines] => {
            let script = draw::draw(seed.parse().ok()?, lines.parse().ok()?);
            let output = std::io::stdout().write_all(draw::text(&script).as_bytes());
            Some(output.map(|()| true))
        }
        ["draw-why", seed] => {
            let script = draw_why::draw_why(seed.parse().ok()?);
            let output = std::io::stdout().write_all(draw_why::why_text(&script).as_bytes());
            Some(output.map(|()| true))
        }
        ["compare", face, seed, lines] => {
            let (seed, lines) = (seed.parse().ok()?, lines.parse().ok()?);
            Some(compare::compare(face, seed, lines, verbose))
        }
        ["compare-why", why, seed, scripts] => {
            let (seed, scripts) = (seed.parse().ok()?, scripts.parse().ok()?);
            Some(compare::compare_why(why, seed, scripts, verbose))
        }
        ["hostile", face, seed, bytes] => {
            let noise = Noise::new(seed.parse().ok()?, bytes.parse().ok()?, b"spi D2");
            Some(hostile::hostile(face, Session::fresh(), noise, verbose).map(|()| true))
        }
        ["hostile-why", why, seed, bytes] => {
            let last = b"frame 123 std data 2 ack AA 55";
            let noise = Noise::new(seed.parse().ok()?, bytes.parse().ok()?, last);
            Some(hostile::hostile(why, Why::fresh(), noise, verbose).map(|()| true))
        }
        _ => None,
    }
}

fn main() -> ExitCode {
    let words: Vec<String> = std::env::args().skip(1).collect();
    let words: Vec<&str> = words.iter().map(String::as_str).collect();
    match run(&words) {
        Some(Ok(true)) => ExitCode::SUCCESS,
        Some(Ok(false)) => ExitCode::from(1),
        Some(Err(error)) => {
            eprintln!("peer: {}", error);
            ExitCode::from(1)
        }
        None => {
            eprintln!("{}", USAGE);
            ExitCode::from(2)
        }
    }
}
