//! Prints tables: a line for each task, with the figures of all sides and the ratios of those that are compared, and
//! then the means of groups of tasks.

use crate::measure::{Figures, mean};
use crate::table::{Table, Task};
use std::rc::Rc;

/// Prints the figures of a table, in Markdown too if `is_markdown`, and returns how many sums were wrong. `unit` is,
/// for example, `nanoseconds`, and `place` is where the loops were compiled.
pub fn print(
    table: &Table,
    figures: &[Figures],
    unit: &str,
    place: &str,
    is_markdown: bool,
) -> usize {
    println!("\n{unit} per {}, {place}, and ours divided by theirs:", table.item);
    for (number, side) in table.sides.iter().enumerate() {
        println!("    {}  {}, {}", letter(number), side.way, side.reader.name);
    }
    let rows = rows(table, figures);
    print!("{}", aligned(&rows));
    if is_markdown {
        println!("\n{}", in_markdown(&rows));
    }
    figures.iter().map(|figures| figures.wrong().count()).sum()
}

// The head of the table, its lines, and the mean and the worst of the ratios of each group of tasks.
fn rows(table: &Table, figures: &[Figures]) -> Vec<Vec<String>> {
    let (pairs, sides) = (table.pairs(), 0..table.sides.len());
    let names = pairs.iter().map(|(ours, theirs)| format!("{}/{}", letter(*ours), letter(*theirs)));
    let letters = sides.clone().map(|side| letter(side).to_string());
    let mut rows = vec![[String::from("list")].into_iter().chain(letters).chain(names).collect()];
    for (task, figures) in table.tasks.iter().zip(figures) {
        let wrong: String = figures.wrong().map(letter).collect();
        let wrong = if wrong.is_empty() { wrong } else { format!(" WRONG ANSWERS: {wrong}") };
        let ratios = pairs.iter().map(|pair| shown(figures.ratio(*pair), 2));
        let cells = sides.clone().map(|side| shown(figures.of(side), 1)).chain(ratios);
        rows.push([format!("{}{wrong}", task.line)].into_iter().chain(cells).collect());
    }
    let worst = |ratios: &[f64]| ratios.iter().copied().reduce(f64::max);
    for group in groups(&table.tasks) {
        let is_in = |(task, _): &(&Rc<Task>, _)| task.groups.contains(group);
        let figures: Vec<_> = table.tasks.iter().zip(figures).filter(is_in).collect();
        for (name, figure) in [("mean", &mean as &dyn Fn(&[f64]) -> _), ("worst", &worst)] {
            let ratios = |pair| -> Vec<f64> {
                figures.iter().filter_map(|(_, it)| it.ratio(pair)).collect()
            };
            let cells = pairs.iter().map(|pair| shown(figure(&ratios(*pair)), 2));
            let empty = sides.clone().map(|_| String::new());
            rows.push([format!("{name}, {group}")].into_iter().chain(empty).chain(cells).collect());
        }
    }
    rows
}

// The groups of tasks, each once.
fn groups(tasks: &[Rc<Task>]) -> Vec<&String> {
    let mut groups: Vec<&String> = Vec::new();
    for group in tasks.iter().flat_map(|task| &task.groups) {
        if !groups.contains(&group) {
            groups.push(group);
        }
    }
    groups
}

fn shown(figure: Option<f64>, places: usize) -> String {
    figure.map(|figure| format!("{figure:.places$}")).unwrap_or_default()
}

// The letter of a side.
fn letter(side: usize) -> char {
    ('A'..).nth(side).unwrap_or('?')
}

// The rows as text. The first cells are as wide as the widest of them.
fn aligned(rows: &[Vec<String>]) -> String {
    let width = rows.iter().map(|row| row[0].len()).max().unwrap_or_default();
    let row = |row: &Vec<String>| {
        let cells: String = row[1..].iter().map(|cell| format!("{cell:>7}")).collect();
        format!("{:width$}{cells}\n", row[0])
    };
    rows.iter().map(row).collect()
}

// The rows in Markdown. The first is the head.
fn in_markdown(rows: &[Vec<String>]) -> String {
    let row = |row: &Vec<String>| format!("| {} |\n", row.join(" | "));
    let mut lines: Vec<String> = rows.iter().map(row).collect();
    lines.insert(1, format!("|{}\n", "---|".repeat(rows[0].len())));
    lines.concat()
}

#[cfg(test)]
mod tests {
    use super::{aligned, in_markdown, rows};
    use crate::input::Input;
    use crate::measure::Figures;
    use crate::table::{Author, Reader, Table, Task, tables};
    use std::rc::Rc;

    fn table() -> Table {
        let task = |line: &str| {
            let (line, groups) = (line.to_string(), vec![String::from("real")]);
            let input = Input::of_text(String::new(), 0, 0);
            Rc::new(Task { kind: "real", line, groups, words: Vec::new(), input })
        };
        let reader = |author| Reader::new(author, "", ["", "", "@any"]);
        let readers = [reader(Author::Ours), reader(Author::Other)];
        tables(&[["slice", "real", "parse", "@any"]], &readers, &[task("one"), task("other")])
            .remove(0)
    }

    fn figures(ours: f64, theirs: Option<f64>) -> Figures {
        let mut figures = Figures::new(1, 2);
        figures.layouts[0].push(vec![Some(ours), theirs]);
        figures
    }

    #[test]
    fn ratios_and_means_in_both_forms() {
        let mut all = [figures(1.0, Some(2.0)), figures(4.0, Some(2.0))];
        all[1].is_wrong[0] = true;
        let rows = rows(&table(), &all);
        assert_eq!(rows[0], ["list", "A", "B", "A/B"]);
        assert_eq!(rows[1], ["one", "1.0", "2.0", "0.50"]);
        assert_eq!(rows[2], ["other WRONG ANSWERS: A", "4.0", "2.0", "2.00"]);
        assert_eq!(rows[3..], [["mean, real", "", "", "1.00"], ["worst, real", "", "", "2.00"]]);
        assert_eq!(super::rows(&table(), &[figures(1.0, None)])[1], ["one", "1.0", "", ""]);
        assert_eq!(aligned(&rows[3..4]), "mean, real                 1.00\n");
        let markdown = "| list | A | B | A/B |\n|---|---|---|---|\n| one | 1.0 | 2.0 | 0.50 |\n";
        assert_eq!(in_markdown(&rows[..2]), markdown);
    }
}
