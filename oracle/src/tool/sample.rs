//! The sample that `replay` is held to: hand-picked sections, then a piece of each kind of generated script.

use std::fs;
use std::io;
use std::path::Path;

use crate::generator::script;
use crate::options::Options;
use crate::profiles::PROFILES;
use crate::script::{lines, without};
use crate::sides::Side;
use crate::tally::Tally;

/// What the oracle alone knows: `replay` answers `bad` to it, so it may not stand in a sample for both.
const OF_THE_ORACLE: [&str; 6] = ["mode", "cap", "touch", "wire", "setssn", "setstats"];

fn is_of_the_oracle(line: &str) -> bool {
    line.split_whitespace().next().is_some_and(|call| OF_THE_ORACLE.contains(&call))
}

/// Writes `stdin` and `stdout` to the folder. Whether every call and every refusal is in it; where a call is left
/// out on demand, what it would reach may be missing too.
pub fn sample(options: &Options, oracle: &Side, sections: &Path) -> io::Result<bool> {
    let mut text = fs::read_to_string(sections)?;
    for number in 0..options.scripts {
        let part = script(options.seed, number, &PROFILES, options.calls);
        text += &format!("\n# Generated: {}, seed {}, script {number}.\n{}", part.name, options.seed, part.text);
    }
    if let Some(call) = &options.without {
        text = without(&text, call);
    }
    let answers = oracle.run(text.as_bytes())?;
    let mut tally = Tally::new();
    tally.add(text.as_bytes(), &answers.text);
    fs::create_dir_all(&options.folder)?;
    fs::write(options.folder.join("stdin"), &text)?;
    fs::write(options.folder.join("stdout"), &answers.text)?;
    println!("{tally}");
    println!("{} lines of script, in {}", lines(text.as_bytes()).count(), options.folder.display());
    let missing = tally.missing();
    for what in &missing {
        println!("MISSING: {what}");
    }
    let foreign = text.lines().filter(|line| is_of_the_oracle(line)).count();
    if foreign > 0 {
        println!("{foreign} lines are of the oracle alone");
    }
    Ok((missing.is_empty() || options.without.is_some()) && foreign == 0 && answers.trouble.is_none())
}
