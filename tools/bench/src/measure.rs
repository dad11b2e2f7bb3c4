//! Times loops: all sides in turn within a round. Counts their instructions with valgrind, which are the same on a busy
//! machine.
//!
//! Valgrind runs this program once more, with the same arguments, which then calls each loop. It counts only what
//! is executed inside of these, and writes the count when `export_ends` is called.

use crate::builds::{Layout, loops};
use crate::input::Loop;
use crate::table::{Table, Task};
use std::env;
use std::process::Command;
use torkettle_common::cache::{empty_folder, read};
use torkettle_common::clock::nanoseconds;
use torkettle_common::command::run;

// How many numbers a side reads in the rounds of a pass, at each layout.
const NUMBERS: usize = 1_000_000;

// What was measured of each side, if it has a loop for the task.
pub type Round = Vec<Option<f64>>;

/// The measurements of a task.
pub struct Figures {
    /// The rounds in each layout.
    pub layouts: Vec<Vec<Round>>,
    /// For each side, whether one of its sums was wrong.
    pub is_wrong: Vec<bool>,
}

impl Figures {
    /// No measurements yet, in so many layouts and of so many sides.
    pub fn new(layouts: usize, sides: usize) -> Figures {
        Figures { layouts: vec![Vec::new(); layouts], is_wrong: vec![false; sides] }
    }

    /// The sides whose sums were wrong.
    pub fn wrong(&self) -> impl Iterator<Item = usize> {
        (0..self.is_wrong.len()).filter(|side| self.is_wrong[*side])
    }

    /// The figure of a side: the median of quiet rounds, and the geometric mean over the layouts.
    pub fn of(&self, side: usize) -> Option<f64> {
        self.over_layouts(|round| round[side])
    }

    /// The ratio of two sides: the median of the ratios within quiet rounds, and the geometric mean over the layouts.
    pub fn ratio(&self, (ours, theirs): (usize, usize)) -> Option<f64> {
        self.over_layouts(|round| Some(round[ours]? / round[theirs]?))
    }

    fn over_layouts(&self, figure: impl Fn(&Round) -> Option<f64>) -> Option<f64> {
        let median = |rounds: &Vec<Round>| {
            let mut figures: Vec<f64> = quiet(rounds).into_iter().filter_map(&figure).collect();
            figures.sort_by(f64::total_cmp);
            figures.get(figures.len() / 2).copied()
        };
        mean(&self.layouts.iter().map(median).collect::<Option<Vec<f64>>>()?)
    }
}

// The faster half of the rounds. In the other, more programs used the core, which slows branches most.
fn quiet(rounds: &[Round]) -> Vec<&Round> {
    let time = |round: &Round| round.iter().flatten().sum::<f64>();
    let mut rounds: Vec<&Round> = rounds.iter().collect();
    rounds.sort_by(|one, other| time(one).total_cmp(&time(other)));
    rounds.truncate(rounds.len().div_ceil(2));
    rounds
}

/// The geometric mean. There is none of nothing.
pub fn mean(figures: &[f64]) -> Option<f64> {
    let logarithms: f64 = figures.iter().map(|figure| figure.ln()).sum();
    (!figures.is_empty()).then(|| (logarithms / figures.len() as f64).exp())
}

/// Times every task of a table in each pass.
pub fn time(table: &Table, layouts: &[Layout], passes: usize) -> Vec<Figures> {
    let figures = || Figures::new(layouts.len(), table.sides.len());
    let mut all: Vec<Figures> = table.tasks.iter().map(|_| figures()).collect();
    for pass in 1..=passes {
        for (task, figures) in table.tasks.iter().zip(&mut all) {
            let loops: Vec<_> = layouts.iter().map(|it| loops(table, task, it)).collect();
            for round in 0..NUMBERS.div_ceil(task.input.count) {
                for (layout, loops) in loops.iter().enumerate() {
                    let round = time_round(task, loops, round % 2 == 1, &mut figures.is_wrong);
                    figures.layouts[layout].push(round);
                }
            }
        }
        eprintln!("pass {pass} of {passes}");
    }
    all
}

// Times each side once, in their order or backwards. Marks those with a wrong sum.
fn time_round(
    task: &Task,
    loops: &[Option<Loop>],
    is_backwards: bool,
    is_wrong: &mut [bool],
) -> Round {
    let mut round = vec![None; loops.len()];
    for at in 0..loops.len() {
        let side = if is_backwards { loops.len() - 1 - at } else { at };
        let Some(call) = loops[side] else { continue };
        let from = nanoseconds();
        let is_right = task.input.is_right(call);
        round[side] = Some((nanoseconds() - from) / task.input.count as f64);
        is_wrong[side] |= !is_right;
    }
    round
}

/// Counts what the sides execute for each number of the tasks, for a processor.
pub fn count(cpu: &str, tables: &[Table], layout: &Layout) -> Result<Vec<Vec<Figures>>, String> {
    let dump = empty_folder("counted")?.join("callgrind");
    let program = env::current_exe().map_err(|error| format!("this program: {error}"))?;
    let mut valgrind = Command::new("valgrind");
    valgrind.args(["--tool=callgrind", "--combine-dumps=yes", "--dump-after=export_ends"]);
    valgrind.arg("--toggle-collect=timed_*");
    valgrind.arg(format!("--callgrind-out-file={}", dump.display()));
    valgrind.arg(program).args(["--exports", cpu]).args(env::args().skip(1));
    let said = run(&mut valgrind)?;
    let dump = read(&dump)?;
    let totals = dump.lines().filter_map(|line| line.strip_prefix("totals: ")?.trim().parse().ok());
    let mut counts = said.lines().zip(totals);
    let mut figures_of = |table: &Table, task: &Task| {
        let mut figures = Figures::new(1, table.sides.len());
        let mut round = vec![None; table.sides.len()];
        for (side, _) in loops(table, task, layout).iter().enumerate().filter(|it| it.1.is_some()) {
            let (said, total): (&str, f64) =
                counts.next().ok_or("valgrind counted too few loops")?;
            round[side] = Some(total / task.input.count as f64);
            figures.is_wrong[side] = said != "right";
        }
        figures.layouts[0].push(round);
        Ok(figures)
    };
    let of_table = |table: &Table| table.tasks.iter().map(|task| figures_of(table, task)).collect();
    tables.iter().map(of_table).collect()
}

/// Calls each loop once, and prints whether its sum is right. Valgrind runs it.
pub fn call_exports(tables: &[Table], layout: &Layout) {
    let tasks = tables.iter().flat_map(|table| table.tasks.iter().map(move |task| (table, task)));
    for (table, task) in tasks {
        for call in loops(table, task, layout).into_iter().flatten() {
            let is_right = task.input.is_right(call);
            export_ends();
            println!("{}", if is_right { "right" } else { "wrong" });
        }
    }
}

/// Valgrind writes a count when this returns.
#[unsafe(no_mangle)]
#[inline(never)]
extern "C" fn export_ends() {
    std::hint::black_box(());
}

#[cfg(test)]
mod tests {
    use super::Figures;

    #[test]
    fn medians_of_ratios_in_quiet_rounds() {
        let mut figures = Figures::new(2, 3);
        let slow = [[90.0, 10.0]; 3];
        for [ours, theirs] in [[1.0, 2.0], [10.0, 20.0], [5.0, 50.0]].into_iter().chain(slow) {
            figures.layouts[0].push(vec![Some(ours), Some(theirs), None]);
        }
        figures.layouts[1].push(vec![Some(8.0), Some(4.0), None]);
        // In the first layout, the medians are 5 and 0.5.
        let near = |figure: Option<f64>, expected: f64| (figure.unwrap() - expected).abs() < 1e-9;
        assert!(near(figures.of(0), 40_f64.sqrt()) && near(figures.ratio((0, 1)), 1.0));
        assert!(figures.of(2).is_none() && figures.ratio((0, 2)).is_none());
    }
}
