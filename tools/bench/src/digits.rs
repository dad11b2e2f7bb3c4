//! How many digits the numbers of a random list have.

use torkettle_common::random::Random;

/// Ranges of numbers of digits: the least, how many there are, and the weight of the range. The text `A` says that all
/// numbers have A digits, `A-B` any number of digits from A to B, all equally likely, and `A|B` A or B digits.
/// `A*W,B-C*V` gives weights: A digits with weight W, and any number of digits from B to C with weight V. With `log`,
/// half of the numbers have one digit, a quarter two and so on, up to 10. `1*80,2*14,3*4,4-9*2` has the lengths of
/// numbers in program texts, and `1*50,2-9*50` is bad for a branch on one digit.
pub struct Digits(Vec<(usize, usize, usize)>);

impl Digits {
    /// Those that a text of this program says.
    pub fn new(text: &str) -> Digits {
        Digits(match text {
            "log" => (1..=10).map(|count| (count, 1, 1024 >> count)).collect(),
            _ => text.split([',', '|']).map(part).collect(),
        })
    }

    /// The group of lists that it belongs to.
    pub fn group(&self) -> &'static str {
        let (_, size, weight) = self.0[0];
        let is_even = |(_, many, of): &(usize, usize, usize)| of * size == weight * many;
        match &self.0[..] {
            [(1..=4, 1, _)] => "equal lengths, 1 to 4 digits",
            [(_, 1, _)] => "equal lengths, 5 digits or more",
            all if all.iter().all(is_even) => "lengths equally frequent",
            _ => "short numbers more frequent",
        }
    }

    /// A random number, of which the first digit is 1, so that all are in range. It has a minus with
    /// probability one half if `is_signed`.
    pub fn number(&self, is_signed: bool, random: &mut Random) -> String {
        let count = self.count(random);
        let sign = if is_signed && random.one_in(2) { "-1" } else { "1" };
        let mut text = String::from(sign);
        for place in 1..count {
            // With a second digit of 0, each number of 20 digits fits in a u64.
            let digit = if count == 20 && place == 1 { b'0' } else { random.digit() };
            text.push(char::from(digit));
        }
        text
    }

    fn count(&self, random: &mut Random) -> usize {
        let mut left = random.below(self.0.iter().map(|(_, _, weight)| weight).sum());
        for (least, size, weight) in &self.0 {
            if left < *weight {
                return least + random.below(*size);
            }
            left -= weight;
        }
        unreachable!("the number is below the sum of the weights")
    }
}

// Reads a range and its weight. Without one, the range has the weight of its size.
fn part(text: &str) -> (usize, usize, usize) {
    let number = |text: &str| -> usize { text.parse().expect("a list says how many digits") };
    let (range, weight) = text.split_once('*').map_or((text, None), |(it, of)| (it, Some(of)));
    let (least, most) = range.split_once('-').unwrap_or((range, range));
    let size = number(most) + 1 - number(least);
    (number(least), size, weight.map_or(size, number))
}

#[cfg(test)]
mod tests {
    use super::Digits;
    use torkettle_common::random::Random;

    #[test]
    fn shares_of_one_to_three_digits_and_groups() {
        for (text, expected, group) in [
            ("1-3", [333, 333, 333], "lengths equally frequent"),
            ("1|3", [500, 0, 500], "lengths equally frequent"),
            ("1*80,2-3*20", [800, 100, 100], "short numbers more frequent"),
            ("log", [500, 250, 125], "short numbers more frequent"),
            ("2", [0, 1000, 0], "equal lengths, 1 to 4 digits"),
            ("5", [0, 0, 0], "equal lengths, 5 digits or more"),
        ] {
            let (digits, random) = (Digits::new(text), &mut Random::new(1));
            let lengths: Vec<usize> =
                (0..10_000).map(|_| digits.number(false, random).len()).collect();
            let share = |length| lengths.iter().filter(|it| **it == length).count() / 10;
            let shares = [share(1), share(2), share(3)];
            assert!(shares.iter().zip(expected).all(|(it, of)| it.abs_diff(of) < 20), "{text}");
            assert_eq!(digits.group(), group, "{text}");
        }
    }
}
