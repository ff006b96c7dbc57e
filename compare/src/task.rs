//! What the program is asked to do.

use crate::budget::Budget;
use std::time::Duration;

pub enum Task {
    Compare(Budget),
    WriteSample(String),
    Time,
}

impl Task {
    /// Reads the words behind the program's name.
    pub fn from_arguments(mut words: impl Iterator<Item = String>) -> Result<Task, String> {
        let mut task = Task::Compare(Budget::usual());
        while let Some(word) = words.next() {
            task = match word.as_str() {
                "--seconds" => Task::Compare(Budget::Time(read_seconds(words.next())?)),
                "--write-sample" => {
                    Task::WriteSample(words.next().ok_or("--write-sample lacks its folder")?)
                }
                "--time" => Task::Time,
                _ => return Err(format!("unknown argument {word:?}")),
            };
        }
        Ok(task)
    }
}

fn read_seconds(word: Option<String>) -> Result<Duration, String> {
    let word = word.ok_or("--seconds lacks its number")?;
    match word.parse() {
        Ok(seconds) => Ok(Duration::from_secs(seconds)),
        Err(_) => Err(format!("--seconds {word:?}: not a whole number")),
    }
}
