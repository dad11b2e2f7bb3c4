//! The arguments of a program, whose usage says which there are.

use std::collections::BTreeMap;
use std::env;
use std::process::ExitCode;
use std::str::FromStr;

/// The arguments that a program was called with, and their values.
pub struct Given(BTreeMap<String, String>);

impl Given {
    /// Reads them. A line of the usage that begins with `--` names an argument and then, in capitals,
    /// its value, if it has one. An error says what is wrong.
    pub fn read(usage: &str, words: &[String]) -> Result<Given, String> {
        let mut given = BTreeMap::new();
        let mut words = words.iter();
        while let Some(word) = words.next() {
            let mut lines = usage.lines().filter_map(|line| line.trim_start().split_once(' '));
            let line = lines.find(|(name, _)| name.starts_with("--") && name == word);
            let (_, rest) = line.ok_or(format!("there is no argument {word}: --help lists all"))?;
            let value = match rest.starts_with(|next: char| next.is_ascii_uppercase()) {
                true => words.next().ok_or(format!("{word} needs a value"))?,
                false => "",
            };
            given.insert(word.clone(), value.to_string());
        }
        Ok(Given(given))
    }

    /// Whether this argument was given.
    pub fn has(&self, name: &str) -> bool {
        self.0.contains_key(name)
    }

    /// The value of this argument, if it was given.
    pub fn value<T: FromStr>(&self, name: &str) -> Result<Option<T>, String> {
        let read = |text: &String| text.parse().map_err(|_| format!("{name} does not take {text}"));
        self.0.get(name).map(read).transpose()
    }
}

/// Does the work of a program, which says whether all answers were right, or prints its usage. The
/// status is 1 if they were not, 2 for an error, and 0 otherwise.
pub fn run(usage: &str, work: impl FnOnce(&[String]) -> Result<bool, String>) -> ExitCode {
    let words: Vec<String> = env::args().skip(1).collect();
    if words == ["--help"] {
        println!("{usage}");
        return ExitCode::SUCCESS;
    }
    match work(&words) {
        Ok(true) => ExitCode::SUCCESS,
        Ok(false) => ExitCode::from(1),
        Err(fault) => {
            eprintln!("error: {fault}");
            ExitCode::from(2)
        }
    }
}

#[cfg(test)]
mod tests {
    use super::Given;

    const USAGE: &str = "--texts N  how many texts\n--debug    build in debug";

    fn read(words: &[&str]) -> Result<Given, String> {
        Given::read(USAGE, &words.iter().copied().map(String::from).collect::<Vec<_>>())
    }

    #[test]
    fn every_argument_is_read_or_refused() {
        let all = read(&["--texts", "5", "--debug"]).unwrap();
        assert!(all.has("--debug") && all.value("--texts") == Ok(Some(5)));
        assert!(read(&["--texts", "many"]).unwrap().value::<u64>("--texts").is_err());
        assert!(!read(&[]).unwrap().has("--debug"));
        assert!(read(&["--texts"]).is_err() && read(&["--count"]).is_err());
    }
}
