//! Conditions in each place of the proved sources.

use crate::{repository, with_text};
use torkettle_translate::modules::{Module, Package};
use torkettle_translate::tree::Node;
use torkettle_translate::{conditions, facade};

// The functions of a module: where a condition of each can stand, and whether users can call it.
fn functions(module: &Module, exported: &[&str]) -> Vec<(usize, bool)> {
    let is_inner = ["atoi_core", "atoi_fast", "atoi_lanes"].contains(&module.crate_name);
    let members = module.items.iter().flat_map(Node::members).map(|member| (member, false));
    let all = module.items.iter().map(|item| (item, true)).chain(members);
    let found = all.filter(|(it, _)| it.kind == "function").map(|(it, is_free)| {
        let end = it.get("block").map_or(it.span.end - 1, |body| body.span.start);
        let is_exported = !is_inner || exported.contains(&it.name());
        (end, !is_free || it.is_public() && is_exported)
    });
    found.collect()
}

// A condition that nothing tests, planted on each function in turn. Of those that users cannot call, the proofs
// of the callers show it.
#[test]
fn each_planted_condition_is_refused_where_users_call() {
    let (facade, mut package) = repository();
    let exports = facade::exports(&facade).unwrap();
    let exported: Vec<&str> = exports.iter().map(|export| export.name.as_str()).collect();
    let (mut refused, mut taken) = (0, 0);
    for number in 0..package.modules.len() {
        let source = package.modules[number].source.clone();
        let functions = functions(&package.modules[number], &exported);
        let lines = source.text.lines().map(|line| line.trim_start().trim_start_matches("pub "));
        let lines = lines.map(|line| line.trim_start_matches("pub(crate) "));
        assert_eq!(lines.filter(|line| line.starts_with("fn ")).count(), functions.len());
        for (end, is_callable) in functions {
            let (head, tail) = source.text.split_at(end);
            let text = format!("{head} requires {{ 0 ≡ 1 }} {tail}");
            let line = 1 + head.matches('\n').count();
            let tests = |package: &Package| conditions::tests(package, &exported);
            let fault = with_text(&mut package, number, text, tests).err();
            let place = fault.map(|fault| (fault.file, fault.line));
            let expected = is_callable.then(|| (source.path.clone(), Some(line)));
            assert_eq!(place, expected, "line {line} of {}", source.path.display());
            *if is_callable { &mut refused } else { &mut taken } += 1;
        }
    }
    println!("{refused} conditions refused, {taken} of functions that users cannot call");
    assert!(refused > 100 && taken > 50);
}
