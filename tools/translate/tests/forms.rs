//! What becomes of each form of `forms.txt`: it is refused for a reason, or taken, with its Rust or its C.

use crate::{c, joined, package, repository, rust, with_text};
use std::path::Path;
use torkettle_translate::facade::check_other;
use torkettle_translate::modules::{CRATES, Package};
use torkettle_translate::source::{Done, Source};
use torkettle_translate::translate;

// Puts characters in place of what stands for them.
fn shown(text: &str) -> String {
    let text = text.replace('⏎', "\n").replace("<CR>", "\r").replace("<NBSP>", "\u{A0}");
    text.replace("<LRM>", "\u{200E}").replace("<BOM>", "\u{FEFF}")
}

// What becomes of a form in its place.
fn made((facade, modules): &mut (Source, Package), place: &str, form: &str) -> Done<String> {
    let source = |text: &str| Source::new(Path::new("a.rs"), text.into());
    if let Some(number) = CRATES.iter().position(|it| *it == place) {
        return rust(&source(""), &package(place, form)?, number);
    }
    match place {
        "C" | "checked" => c(form, place == "checked"),
        "facade" => translate(&source(form), modules).map(|_| String::new()),
        "other" => check_other(&source(form)).map(|()| String::new()),
        _ => {
            let file = Path::new("crates").join(place.replacen('/', "/src/", 1));
            let number = modules.modules.iter().position(|it| it.source.path == file);
            added(facade, modules, number.expect(place), form)
        }
    }
}

// What becomes of a form in front of a source of the repository, or in it.
fn added(facade: &Source, modules: &mut Package, number: usize, form: &str) -> Done<String> {
    let before = &modules.modules[number].source.text;
    let text = match form.split_once('⇒') {
        Some((old, new)) => before.replacen(old, new, 1),
        None => format!("{form}\n{before}"),
    };
    assert_ne!(text, *before, "{form}");
    let rust = with_text(modules, number, text, |modules| rust(facade, modules, number))?;
    Ok(rust.lines().take(form.lines().count()).collect::<Vec<_>>().join("\n"))
}

// Says whether a form has become what the table says.
fn is_right(row: &str, made: &Done<String>) -> bool {
    let [place, verdict, form] = row.split('\t').map(shown).collect::<Vec<_>>().try_into().unwrap();
    match (made, verdict.strip_prefix("= ")) {
        (Ok(_), Some("taken")) => true,
        (Ok(rust), Some("same")) => *rust == form,
        (Ok(c), Some(parts)) if ["C", "checked"].contains(&place.as_str()) => {
            let c = joined(c);
            parts.lines().all(|part| c.contains(part))
        }
        (Ok(rust), Some(expected)) => rust.trim_end() == expected,
        (Err(fault), None) => {
            let line = fault.line.unwrap_or_default();
            let is_in_form = (1..=form.lines().count()).contains(&line) || form.contains('⇒');
            is_in_form && format!("{line}: {}", fault.reason).contains(&verdict)
        }
        _ => false,
    }
}

#[test]
fn each_form_is_refused_or_keeps_its_meaning() {
    let (mut repository, mut forms, mut wrong) = (repository(), 0, 0);
    for row in include_str!("forms.txt").lines().filter(|row| !row.starts_with('#')) {
        forms += 1;
        let [place, _, form] = row.split('\t').collect::<Vec<_>>().try_into().expect(row);
        let place = place.split(' ').next_back().unwrap();
        let made = made(&mut repository, place, &shown(form));
        if !is_right(row, &made) {
            println!("{row}\nbecomes {made:?}");
            wrong += 1;
        }
    }
    assert!(forms > 330 && wrong == 0, "{wrong} of {forms} forms have become something else");
}
