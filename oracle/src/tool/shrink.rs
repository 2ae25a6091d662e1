//! Makes a script that shows a difference shorter, while it still shows one.

use std::io;
use std::time::{Duration, Instant};

use crate::script::{first_difference, lines};
use crate::sides::{Side, run_both};

/// After this the shortest script so far is kept.
const PATIENCE: Duration = Duration::from_secs(60);

/// Leaves out lines, in ever smaller runs, for as long as that gets any shorter.
pub fn shrunk(one: &Side, other: &Side, script: &[u8]) -> io::Result<Vec<u8>> {
    let start = Instant::now();
    let mut kept: Vec<&[u8]> = lines(script).collect();
    let mut run = kept.len().div_ceil(2);
    while run > 0 {
        let mut shorter = false;
        let mut place = 0;
        while place < kept.len() && start.elapsed() < PATIENCE {
            let end = (place + run).min(kept.len());
            let rest = [&kept[..place], &kept[end..]].concat();
            match differs_at(one, other, &joined(&rest))? {
                Some(line) => {
                    kept = rest;
                    // Nothing behind the first difference is needed.
                    kept.truncate(line + 1);
                    shorter = true;
                }
                None => place = end,
            }
        }
        if !(shorter && run == 1) {
            run /= 2;
        }
    }
    Ok(joined(&kept))
}

fn joined(lines: &[&[u8]]) -> Vec<u8> {
    lines.iter().flat_map(|line| line.iter().copied().chain([b'\n'])).collect()
}

/// The line of the first difference. A side that fails after its last answer differs there.
pub fn differs_at(one: &Side, other: &Side, script: &[u8]) -> io::Result<Option<usize>> {
    let (a, b) = run_both(one, other, script)?;
    if a == b {
        return Ok(None);
    }
    let found = first_difference(script, &a.text, &b.text).map(|difference| difference.line);
    Ok(Some(found.unwrap_or_else(|| lines(script).count().saturating_sub(1))))
}
