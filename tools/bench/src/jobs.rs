//! The texts of jobs that tokenizers do, and the sums of their numbers.

use crate::input::Input;
use crate::lists::LEAST;
use crate::table::Task;
use torkettle_common::random::Random;

// Writes a part of a text, with a `#` before each number that is read.
type Part = fn(&mut Random) -> String;

// The names of the jobs, as the loops have them, and what writes their texts.
const JOBS: [(&str, Part); 7] = [
    ("iso_dates", iso_date),
    ("ipv4", |random| format!("{}\n", address(random))),
    ("access_log", access),
    ("semver", version),
    ("json_arrays", json_array),
    ("resp", command),
    ("http", answer),
];

// The jobs that functions of `formats` do, too.
const BY_FORMATS: [&str; 3] = ["iso_dates", "ipv4", "semver"];

/// The jobs that have what `--only` says.
pub fn tasks(only: &str) -> Vec<Task> {
    let jobs = JOBS.into_iter().map(|(name, part)| (name, format!("job {name}"), part));
    let jobs = jobs.filter(|(_, line, _)| line.contains(only));
    let task = |(name, line, part): (&str, _, _)| {
        let words = if BY_FORMATS.contains(&name) { &["$job", "$format"][..] } else { &["$job"] };
        let words = words.iter().map(|word| (*word, name.to_string())).collect();
        Task { kind: "job", line, groups: vec![String::from("jobs")], words, input: input(part) }
    };
    jobs.map(task).collect()
}

// The text of a job.
fn input(part: Part) -> Input {
    let (mut text, mut sum, mut count) = (String::new(), 0_u64, 0);
    let random = &mut Random::new(1);
    while count < LEAST {
        let part = part(random);
        let mut pieces = part.split('#');
        text.extend(pieces.next());
        for piece in pieces {
            let digits = piece.bytes().skip(1).take_while(u8::is_ascii_digit).count();
            let number: i64 = piece[..=digits].parse().expect("a number follows each mark");
            text += piece;
            sum = sum.wrapping_add(number as u64);
            count += 1;
        }
    }
    Input::of_text(text, sum, count)
}

// A number below `end`. That it is below the square root is as likely as that it is not.
fn zipf(end: usize, random: &mut Random) -> usize {
    let exponent = random.bits() as f64 / u64::MAX as f64;
    ((end as f64).powf(exponent) as usize - 1).min(end - 1)
}

// A number of up to so many digits, whose count is random.
fn size(digits: usize, random: &mut Random) -> usize {
    let power = 10_usize.pow(random.below(digits) as u32);
    power + random.below(9 * power)
}

fn iso_date(random: &mut Random) -> String {
    let [year, month, day, hour, minute, second] =
        [12, 12, 28, 24, 60, 60].map(|count| random.below(count));
    let (year, month, day) = (2015 + year, 1 + month, 1 + day);
    format!("#{year}-#{month:02}-#{day:02}T#{hour:02}:#{minute:02}:#{second:02}Z\n")
}

// One of 3,000 addresses, some of them much more often than others. Three in ten are of a local network.
fn address(random: &mut Random) -> String {
    let own = &mut Random::new(zipf(3000, random) as u64);
    let last = 1 + own.below(254);
    match own.below(10) {
        0..=1 => format!("#192.#168.#{}.#{last}", own.below(4)),
        2 => format!("#10.#{}.#{}.#{last}", own.below(30), own.below(256)),
        _ => format!("#{}.#{}.#{}.#{last}", 1 + own.below(223), own.below(256), own.below(256)),
    }
}

fn access(random: &mut Random) -> String {
    let address = address(random);
    let [day, hour, minute, second] = [30, 24, 60, 60].map(|count| random.below(count));
    let page = ["", "index.html", "api/v1/items", "style.css", "favicon.ico"][zipf(5, random)];
    let status = random.pick(&[200, 200, 200, 200, 200, 200, 200, 304, 404, 500]);
    let size = if status == 304 { 0 } else { 10 * size(6, random) };
    format!(
        "{address} - - [#{:02}/Nov/#2026:#{hour:02}:#{minute:02}:#{second:02} +0000] \
         \"GET /{page} HTTP/1.1\" #{status} #{size}\n",
        1 + day
    )
}

fn version(random: &mut Random) -> String {
    let major = random.pick(&[0, 0, 0, 1, 1, 1, 2, 2, 3, 4, 5, 8, 12, 21]);
    format!("#{major}.#{}.#{}\n", zipf(120, random), zipf(250, random))
}

// An array of ten numbers of one kind: of one digit, counts, times among counts, or with signs.
fn json_array(random: &mut Random) -> String {
    let kind = random.below(4);
    let number = |place: usize| match kind {
        0 => format!("#{}", random.below(10)),
        1 => format!("#{}", zipf(1000, random)),
        2 if place.is_multiple_of(5) => format!("#{}", 1_700_000_000 + random.below(90_000_000)),
        2 => format!("#{}", zipf(100_000, random)),
        _ => format!("#{}", random.below(400) as i64 - 100),
    };
    format!("[{}]\n", (0..10).map(number).collect::<Vec<_>>().join(", "))
}

// Commands to Redis, with keys and values.
const COMMANDS: &str = "PING,INCR k,DEL k,GET k,GET k,GET k,SET k v,SET k v,EXPIRE k v,HSET k v v";

fn command(random: &mut Random) -> String {
    let command = random.pick(&COMMANDS.split(',').collect::<Vec<_>>());
    let word = |word: &str| match word {
        "k" => "x".repeat(4 + zipf(24, random)),
        "v" => "x".repeat(1 + zipf(300, random)),
        _ => word.to_string(),
    };
    let string = |word: String| format!("$#{}\r\n{word}\r\n", word.len());
    let strings: Vec<String> = command.split(' ').map(word).map(string).collect();
    format!("*#{}\r\n{}", strings.len(), strings.concat())
}

// The answer of a server.
fn answer(random: &mut Random) -> String {
    let status = random.pick(&[200, 200, 200, 200, 200, 200, 200, 204, 304, 404]);
    format!("HTTP/1.#1 #{status} OK\r\nContent-Length: #{}\r\n\r\n", size(6, random))
}

#[cfg(test)]
mod tests {
    use super::{Input, JOBS, LEAST, input};

    #[test]
    fn sums_are_those_of_the_texts() {
        for (name, part) in JOBS.into_iter().filter(|(name, _)| ["ipv4", "semver"].contains(name)) {
            let Input { text, expected, count, .. } = input(part);
            let numbers = text.split(['.', '\n']).filter(|number| !number.is_empty());
            let numbers: Vec<u64> = numbers.map(|number| number.parse().unwrap()).collect();
            assert_eq!((numbers.iter().sum(), numbers.len()), (expected, count), "{name}");
            assert!(count >= LEAST);
        }
    }
}
