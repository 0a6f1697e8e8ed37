//! Runs drawn scripts through a program and its model, and reports the first difference.

use crate::cut::cut;
use crate::draw::{draw, text};
use crate::draw_why::{draw_why, why_text, ROUND};
use crate::random::Random;
use crate::said::{said_to, Said};
use crate::script::Session;
use crate::tally::Tally;
use crate::why::Why;
use std::io::{Error, Write};
use std::process::{Command, Stdio};

/// A program, and what the model knows of it.
struct Pair<'a> {
    program: &'a str,
    text: fn(&[String]) -> String,
    model: fn(&[u8]) -> Vec<Said>,
    /// One line is said to each request, so that a script may end where the first one differs.
    answers_each: bool,
}

struct Difference {
    /// Which line of output, from 0.
    place: usize,
    program: Vec<String>,
    model: Vec<String>,
}

fn program_says(program: &str, script: &str) -> Result<Vec<Vec<u8>>, Error> {
    let mut child = Command::new(program)
        .stdin(Stdio::piped())
        .stdout(Stdio::piped())
        .spawn()?;
    let mut stdin = child.stdin.take().expect("stdin is piped");
    let script = script.as_bytes().to_vec();
    // A program that stops early closes its input: its missing answers tell enough.
    let writer = std::thread::spawn(move || drop(stdin.write_all(&script)));
    let output = child.wait_with_output()?.stdout;
    writer.join().expect("the writer doesn't panic");
    let mut lines: Vec<Vec<u8>> = output.split(|&b| b == b'\n').map(<[u8]>::to_vec).collect();
    if lines.last().map_or(false, Vec::is_empty) {
        lines.pop();
    }
    Ok(lines)
}

impl Pair<'_> {
    fn model_says(&self, script: &[String]) -> Vec<Said> {
        (self.model)((self.text)(script).as_bytes())
    }

    fn difference(&self, script: &[String]) -> Result<Option<Difference>, Error> {
        let model = self.model_says(script);
        let program = program_says(self.program, &(self.text)(script))?;
        let agree = |place: usize| match (model.get(place), program.get(place)) {
            (Some(ours), Some(theirs)) => ours.agrees(theirs),
            _ => false,
        };
        let mut places = 0..model.len().max(program.len());
        let found = places.find(|&place| !agree(place));
        let lossy = |line: &Vec<u8>| String::from_utf8_lossy(line).into_owned();
        Ok(found.map(|place| Difference {
            place,
            program: program.iter().map(lossy).collect(),
            model: model.iter().map(Said::text).collect(),
        }))
    }

    /// How many elements of the script show a difference, if they do.
    fn needs(&self, script: &[String]) -> Result<Option<usize>, Error> {
        let found = self.difference(script)?;
        Ok(found.map(|found| match self.answers_each {
            true => found.place + 1,
            false => script.len(),
        }))
    }

    fn report(&self, script: &[String]) -> Result<(), Error> {
        let mut failure = None;
        let short = cut(script, &mut |trial| {
            self.needs(trial).unwrap_or_else(|error| {
                failure = Some(error);
                None
            })
        });
        if let Some(error) = failure {
            return Err(error);
        }
        let text = (self.text)(&short);
        let lines: Vec<&str> = text.split_terminator('\n').collect();
        eprintln!("a script of {} lines that shows it:", lines.len());
        lines.iter().for_each(|line| eprintln!("    {}", line));
        if !text.ends_with('\n') {
            eprintln!("it has no newline at its end");
        }
        match self.difference(&short)? {
            Some(found) => self.show(&found),
            None => eprintln!("the difference comes and goes: the program is not deterministic"),
        }
        Ok(())
    }

    fn show(&self, found: &Difference) {
        let (from, what) = if self.answers_each {
            (found.place, "the answers to its last line:")
        } else {
            (0, "what is said to it:")
        };
        eprintln!("{}", what);
        for (side, said) in [("program:", &found.program), ("model:  ", &found.model)] {
            let shown = said.get(from..).unwrap_or(&[]);
            for line in shown {
                eprintln!("    {} {}", side, line);
            }
            if shown.is_empty() {
                eprintln!("    {} nothing", side);
            }
        }
    }
}

/// True when all answers agree.
pub fn compare(face: &str, seed: u64, requests: usize, verbose: bool) -> Result<bool, Error> {
    let pair = Pair {
        program: face,
        text,
        model: |script| said_to(Session::fresh(), script),
        answers_each: true,
    };
    let mut random = Random::new(seed);
    let (mut left, mut scripts) = (requests, 0);
    while left > 0 {
        let length = random.between(100, 400).min(left);
        let script_seed = random.bits() >> 40;
        let script = draw(script_seed, length);
        scripts += 1;
        if pair.difference(&script)?.is_some() {
            eprintln!("seed {}: the answers differ in script {}", seed, scripts);
            eprintln!("the whole script: peer draw {} {}", script_seed, length);
            pair.report(&script)?;
            return Ok(false);
        }
        left -= length;
    }
    if verbose {
        println!(
            "{} requests in {} scripts: all answers agree",
            requests, scripts
        );
    }
    Ok(true)
}

/// True when all that is said agrees.
pub fn compare_why(why: &str, seed: u64, scripts: usize, verbose: bool) -> Result<bool, Error> {
    let pair = Pair {
        program: why,
        text: why_text,
        model: |script| said_to(Why::fresh(), script),
        answers_each: false,
    };
    let mut random = Random::new(seed);
    let mut tally = Tally::new();
    for n in 1..=scripts {
        let script_seed = (random.bits() >> 40) * ROUND + n as u64 % ROUND;
        let script = draw_why(script_seed);
        if pair.difference(&script)?.is_some() {
            eprintln!("seed {}: what is said differs in script {}", seed, n);
            eprintln!("the whole script: peer draw-why {}", script_seed);
            pair.report(&script)?;
            return Ok(false);
        }
        tally.count(&why_text(&script), &pair.model_says(&script));
    }
    if verbose {
        println!("{} scripts: all that is said agrees\n{}", scripts, tally);
    }
    Ok(true)
}
