//! Cuts a script down to the lines that are needed to show a difference.

/// Tells how many lines it takes to show a difference, if there is one.
pub type Differs<'a> = dyn FnMut(&[String]) -> Option<usize> + 'a;

/// Ends with a script of which no single line can be dropped.
pub fn cut(script: &[String], differs: &mut Differs) -> Vec<String> {
    let mut script = script.to_vec();
    let mut before = usize::MAX;
    // Simpler operands may make further lines needless.
    while script.len() < before {
        before = script.len();
        drop_chunks(&mut script, differs);
        simplify(&mut script, differs);
    }
    script
}

/// Takes over a shorter or simpler script if it still shows a difference.
fn accept(script: &mut Vec<String>, mut trial: Vec<String>, differs: &mut Differs) -> bool {
    match differs(&trial) {
        Some(needed) => {
            trial.truncate(needed);
            *script = trial;
            true
        }
        None => false,
    }
}

fn drop_chunks(script: &mut Vec<String>, differs: &mut Differs) {
    let whole = script.clone();
    accept(script, whole, differs);
    let mut size = script.len();
    while size > 0 {
        let mut dropped = false;
        let mut start = 0;
        while start < script.len() {
            let mut trial = script.clone();
            trial.drain(start..(start + size).min(script.len()));
            if accept(script, trial, differs) {
                dropped = true;
            } else {
                start += size;
            }
        }
        // Single lines are tried until none can be dropped: one may have held another.
        if size > 1 {
            size /= 2;
        } else if !dropped {
            size = 0;
        }
    }
}

fn simplify(script: &mut Vec<String>, differs: &mut Differs) {
    let mut n = 0;
    while n < script.len() {
        let found = simpler(&script[n]).into_iter().any(|line| {
            let mut trial = script.clone();
            trial[n] = line;
            accept(script, trial, differs)
        });
        if !found {
            n += 1;
        }
    }
}

/// The same request with one thing less to read in it, in all ways that are easy to name.
fn simpler(line: &str) -> Vec<String> {
    let plain = line.rsplit('\n').next().unwrap_or("");
    let plain = plain.split('#').next().unwrap_or("");
    let words: Vec<&str> = plain.split_whitespace().collect();
    let mut found = vec![words.join(" ")];
    for place in 0..words.len() {
        let simple = match (words[0], place) {
            (first, 0) if first.starts_with("spi/") => "spi",
            ("spi", 2..) | ("frame", 6..) | ("hits", 5..) => "00",
            ("frame" | "hits", 1) => "0",
            ("ticks", 1) => "1",
            _ => continue,
        };
        let mut trial = words.clone();
        trial[place] = simple;
        found.push(trial.join(" "));
    }
    if words.len() > 2 && words[0] == "spi" {
        found.push(words[..words.len() - 1].join(" "));
    }
    found.retain(|simple| simple != line);
    found
}
