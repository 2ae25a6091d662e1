//! The command line.

use std::path::PathBuf;

#[derive(Clone)]
pub struct Options {
    pub scripts: u64,
    pub calls: usize,
    pub seed: u64,
    pub port: PathBuf,
    /// A file that is compared in place of made scripts.
    pub script: Option<PathBuf>,
    /// The one kind of which all but the long scripts are; without it they are of each kind in turn.
    pub kind: Option<String>,
    /// Whether the long scripts run too.
    pub long: bool,
    /// A call that is left out of every script.
    pub without: Option<String>,
    pub folder: PathBuf,
}

impl Options {
    /// What the words after the command say, over what holds without them.
    pub fn read(mut self, mut words: impl Iterator<Item = String>) -> Result<Self, String> {
        while let Some(word) = words.next() {
            let mut value = || words.next().ok_or_else(|| format!("{word} needs a value"));
            match word.as_str() {
                "--scripts" => self.scripts = number(&value()?)?,
                "--calls" => self.calls = number(&value()?)? as usize,
                "--seed" => self.seed = number(&value()?)?,
                "--port" => self.port = value()?.into(),
                "--script" => self.script = Some(value()?.into()),
                "--kind" => self.kind = Some(value()?),
                "--short" => self.long = false,
                "--without" => self.without = Some(value()?),
                _ if word.starts_with('-') => return Err(format!("unknown option {word}")),
                _ => self.folder = word.into(),
            }
        }
        Ok(self)
    }
}

fn number(word: &str) -> Result<u64, String> {
    word.parse().map_err(|_| format!("{word} is no number"))
}
