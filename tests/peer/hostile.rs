//! One long hostile script through one run of a program. Writer and reader each make the same
//! bytes from the seed, so that nothing has to be kept between them.

use crate::noise::Noise;
use crate::said::{Model, Said};
use std::io::{BufRead, BufReader, Error, ErrorKind, Write};
use std::process::{ChildStdout, Command, Stdio};
use std::sync::mpsc::{channel, Sender};
use std::time::Duration;

/// How far the program's memory may grow after the first tenth.
const ALLOWED_KB: u64 = 64;
const HUGE_PAGE_KB: u64 = 2048;
/// A program that owes an answer gets this long before its input is closed.
const PATIENCE: Duration = Duration::from_secs(120);

fn fault(text: String) -> Error {
    Error::new(ErrorKind::Other, text)
}

/// A number that the kernel tells of a process.
fn told_kb(pid: u32, file: &str, name: &str) -> Result<u64, Error> {
    let text = std::fs::read_to_string(format!("/proc/{}/{}", pid, file))?;
    let line = text.lines().find_map(|line| line.strip_prefix(name));
    let number = line.and_then(|line| line.trim().strip_suffix(" kB"));
    let number = number.and_then(|number| number.trim().parse().ok());
    number.ok_or_else(|| fault("the program stopped".to_string()))
}

/// A process and all that it started: a program may be a script that runs others.
fn family(pid: u32) -> Vec<u32> {
    let children = std::fs::read_to_string(format!("/proc/{0}/task/{0}/children", pid));
    let children = children.unwrap_or_default();
    let children = children
        .split_whitespace()
        .filter_map(|pid| pid.parse().ok());
    std::iter::once(pid)
        .chain(children.flat_map(family))
        .collect()
}

#[derive(Clone, Copy, Default)]
struct Memory {
    /// The most that was had so far, and what of it now stands in huge pages.
    peak_kb: u64,
    huge_kb: u64,
}

impl Memory {
    fn of(pid: u32) -> Result<Memory, Error> {
        let mut sum = Memory::default();
        for pid in family(pid) {
            sum.peak_kb += told_kb(pid, "status", "VmHWM:")?;
            // Not every kernel tells of them.
            sum.huge_kb += told_kb(pid, "smaps_rollup", "AnonHugePages:").unwrap_or(0);
        }
        Ok(sum)
    }

    /// How much more than before. The kernel may make a huge page of an emulator's small ones at any time: one is
    /// no matter.
    fn grown_since(self, before: Memory) -> u64 {
        let pages = self
            .huge_kb
            .saturating_sub(before.huge_kb)
            .min(HUGE_PAGE_KB);
        self.peak_kb.saturating_sub(before.peak_kb + pages)
    }
}

/// The program's memory after one tenth of the script and after nine.
struct Watch {
    pid: u32,
    early: Option<Memory>,
    late: Memory,
    /// As long as it is there, the input stays open, and the program can't have come to its end.
    hold: Option<Sender<()>>,
}

impl Watch {
    /// An answer has shown how far the program has come. It may keep the last ones back until its
    /// input ends, so that it is held no longer than needed.
    fn look(&mut self, tenth: usize) -> Result<(), Error> {
        if tenth >= 1 && self.early.is_none() {
            self.early = Some(Memory::of(self.pid)?);
        }
        if tenth >= 9 && self.hold.is_some() {
            self.late = Memory::of(self.pid)?;
            self.hold = None;
        }
        Ok(())
    }
}

struct Checker {
    output: BufReader<ChildStdout>,
    /// How the line in hand begins: enough to find it again in a report.
    beginning: Vec<u8>,
    lines: u64,
    said: u64,
    unreadable: u64,
}

impl Checker {
    fn remember(&mut self, byte: u8) {
        if byte == b'\n' {
            self.beginning.clear();
            self.lines += 1;
        } else if self.beginning.len() < 80 {
            self.beginning.push(byte);
        }
    }

    fn expect(&mut self, said: &Said, place: usize) -> Result<(), Error> {
        let mut line = Vec::new();
        self.output.read_until(b'\n', &mut line)?;
        let text = said.text();
        self.said += 1;
        self.unreadable += u64::from(text.contains(": expected "));
        let complete = line.pop() == Some(b'\n');
        if complete && said.agrees(&line) {
            return Ok(());
        }
        Err(fault(format!(
            "at the line that ends at byte {}\n    begins:  {:?}\n    program: {}\n    model:   {}",
            place,
            String::from_utf8_lossy(&self.beginning),
            String::from_utf8_lossy(&line),
            text
        )))
    }

    fn expect_the_end(&mut self) -> Result<(), Error> {
        let mut more = Vec::new();
        if self.output.read_until(b'\n', &mut more)? != 0 {
            let more = String::from_utf8_lossy(&more).into_owned();
            return Err(fault(format!("a line too many: {}", more)));
        }
        Ok(())
    }
}

pub fn hostile(
    program: &str,
    mut model: impl Model,
    mut noise: Noise,
    verbose: bool,
) -> Result<(), Error> {
    let mut child = Command::new(program)
        .stdin(Stdio::piped())
        .stdout(Stdio::piped())
        .spawn()?;
    let mut stdin = child.stdin.take().expect("stdin is piped");
    let output = child.stdout.take().expect("stdout is piped");
    let (hold, held) = channel::<()>();
    let mut same_noise = noise.clone();
    let writer = std::thread::spawn(move || {
        while let Some(chunk) = same_noise.chunk() {
            if stdin.write_all(&chunk).is_err() {
                return;
            }
        }
        // Keeps the input open until the memory has been looked at.
        let _ = held.recv_timeout(PATIENCE);
    });
    let mut checker = Checker {
        output: BufReader::new(output),
        beginning: Vec::new(),
        lines: 1,
        said: 0,
        unreadable: 0,
    };
    let mut watch = Watch {
        pid: child.id(),
        early: None,
        late: Memory::default(),
        hold: Some(hold),
    };
    let mut place = 0;
    while let Some(chunk) = noise.chunk() {
        for byte in chunk {
            place += 1;
            if let Some(said) = model.byte(byte) {
                checker.expect(&said, place)?;
                watch.look(place * 10 / noise.bytes)?;
            }
            checker.remember(byte);
        }
    }
    watch.look(10)?;
    for said in model.end() {
        checker.expect(&said, place)?;
    }
    checker.expect_the_end()?;
    writer.join().expect("the writer doesn't panic");
    let status = child.wait()?;
    if !status.success() {
        return Err(fault(format!("the program ended with {}", status)));
    }
    let early = watch.early.unwrap_or_default();
    let grown = watch.late.grown_since(early);
    if grown > ALLOWED_KB {
        return Err(fault(format!("memory grew by {} kB", grown)));
    }
    if verbose {
        println!(
            "{} bytes in {} lines, {} lines said, {} of them of what can't be read, \
            {} kB after a tenth, {} kB more after nine",
            place, checker.lines, checker.said, checker.unreadable, early.peak_kb, grown
        );
    }
    Ok(())
}
