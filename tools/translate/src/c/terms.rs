//! Terms as expressions of C. Casts say where C would widen a small number, and parentheses where a reader asks.

use super::ir::{Done, Form, Id, Integer, Kind, PLAIN, Term, Type};
use super::lower;
use super::print::{Printer, explained};
use super::text::{self, AND, ATOM, CHOICE, EQUALITY, OR, SHIFT, SUM, Text, UNARY};
use super::types::declared;
use crate::source::Fault;
use crate::tree::{is_comparison, is_shift};

// The functions for what C has no operator for.
const PRELUDE: &str = include_str!("../../../../c/interface/prelude.h");

/// Prints a term.
pub fn print(printer: &mut Printer, term: &Term) -> Done<Text> {
    let world = printer.world;
    let parts = term.parts.iter().filter(|it| !world.is_zero(&it.of));
    let texts = parts.map(|part| print(printer, part)).collect::<Done<Vec<Text>>>()?;
    Ok(match &term.kind {
        Kind::Number { value, hexadecimal } => number(*value, *hexadecimal, &term.of)
            .ok_or_else(|| refuse(printer, term, "a number"))?,
        Kind::Byte(byte) => character(*byte),
        Kind::Boolean(value) => Text::atom(value.to_string()),
        Kind::Text(bytes) => {
            let is_plain = |it: char| matches!(it, ' '..='~') && !"\"\\?".contains(it);
            let text = String::from_utf8(bytes.clone()).ok().filter(|it| it.chars().all(is_plain));
            let text = text.ok_or_else(|| refuse(printer, term, "a text"))?;
            Text::atom(format!("TK_TEXT(\"{text}\")"))
        }
        Kind::Local(local) => Text::atom(printer.locals[*local].name.clone()),
        Kind::Constant(id) => constant(printer, *id)?,
        Kind::Call(callee) => {
            let name = printer.names.get(callee).cloned();
            call(name.ok_or_else(|| refuse(printer, term, "a call"))?, &texts)
        }
        Kind::Small(name) => {
            let own = term.parts[0].of.integer().or(term.of.integer());
            let name = own.map_or(String::new(), |own| format!("tk_{}_{name}", own.name()));
            if name.is_empty() || !PRELUDE.contains(&format!(" {name}(")) {
                return Err(refuse(printer, term, "this operation"));
            }
            call(name, &texts)
        }
        Kind::Binary(operator) => binary(printer, operator, term, texts)?,
        Kind::Not => Text::new(format!("!{}", texts[0].at(UNARY)), UNARY),
        Kind::Cast => cast(printer, &term.parts[0], &texts[0], &term.of)?,
        Kind::Make(variant) => {
            printer.name(&term.of)?;
            let fields: Vec<String> = texts.into_iter().map(|it| it.text).collect();
            Text::atom(printer.made(&term.of, *variant, &fields)?)
        }
        // Of two slices that are there already, one is chosen without a branch.
        Kind::Choice
            if term.of == Type::slice(Type::BYTE, false)
                && term.parts[1..].iter().all(|it| matches!(it.kind, Kind::Local(_))) =>
        {
            call("TK_EITHER".into(), &texts)
        }
        Kind::Choice => {
            let [test, then, other] = [texts[0].at(OR), texts[1].at(OR), texts[2].at(CHOICE)];
            Text::new(format!("{test} ? {then} : {other}"), CHOICE)
        }
        Kind::Address => Text::new(format!("&{}", texts[0].at(UNARY)), UNARY),
        Kind::Follow => Text::new(format!("*{}", texts[0].at(UNARY)), UNARY),
        _ => part(printer, term, &texts)?,
    })
}

// Prints a part of a value.
fn part(printer: &mut Printer, term: &Term, texts: &[Text]) -> Done<Text> {
    let Some(first) = term.parts.first() else {
        return Err(refuse(printer, term, "this operation"));
    };
    let own = texts[0].at(ATOM);
    let argument = |at: usize| texts[at].text.as_str();
    Ok(Text::atom(match (&term.kind, first.of.target()) {
        (Kind::Field(variant, field), _) => {
            let name = printer.field(&first.of, *variant, *field)?;
            printer.name(&first.of)?;
            match first.kind {
                Kind::Follow => format!("{}->{name}", print(printer, &first.parts[0])?.at(ATOM)),
                _ => format!("{own}.{name}"),
            }
        }
        (Kind::Is(variant), of) => return printer.test(of, *variant, &own),
        (Kind::At | Kind::Element, Type::Of(Form::Array { length }, _)) => {
            format!("{own}[tk_index({}, {length})]", argument(1))
        }
        (Kind::Element, _) => format!("{own}.at[{}]", argument(1)),
        (Kind::At, _) => format!("{own}.at[tk_index({}, {own}.len)]", argument(1)),
        (Kind::Last, _) => {
            return Ok(Text::new(format!("{own}.at + ({own}.len - {})", argument(1)), SUM));
        }
        (Kind::Part(name), _) => {
            return Ok(call(format!("{}_{name}", printer.name(&first.of)?), texts));
        }
        _ => return Err(refuse(printer, term, "this operation")),
    }))
}

pub fn refuse(printer: &Printer, term: &Term, what: &str) -> Fault {
    printer.world.fault(printer.id, term.span, format!("C: {what} has no rule"))
}

fn call(name: String, texts: &[Text]) -> Text {
    let arguments: Vec<&str> = texts.iter().map(|it| it.text.as_str()).collect();
    Text::atom(format!("{name}({})", arguments.join(", ")))
}

fn number(value: u128, hexadecimal: usize, of: &Type) -> Option<Text> {
    let integer = of.integer()?;
    let digits = match hexadecimal {
        0 => value.to_string(),
        width => format!("0x{value:0width$X}"),
    };
    Some(Text::atom(match (integer.bits(), integer.is_signed()) {
        (128, _) => {
            let (name, high) = (integer.name(), value >> 64);
            let low = number(u128::from(value as u64), 0, &Type::Integer(Integer("u64")))?.text;
            match high {
                0 => format!("tk_{name}_of({low})"),
                _ => format!("tk_{name}_make(UINT64_C({high}), {low})"),
            }
        }
        _ if value <= 0x7FFF_FFFF => digits,
        (32, false) => format!("{digits}u"),
        (64, false) => format!("UINT64_C({digits})"),
        _ => return None,
    }))
}

fn character(byte: u8) -> Text {
    Text::atom(match byte {
        b'\n' => "'\\n'".into(),
        b'\r' => "'\\r'".into(),
        b' '..=b'~' if !b"'\\".contains(&byte) => format!("'{}'", char::from(byte)),
        _ => byte.to_string(),
    })
}

// A number is a macro, and other constants are variables. Two modules may have the same constant.
fn constant(printer: &mut Printer, id: Id) -> Done<Text> {
    let world = printer.world;
    let value = lower::constant(world, id)?;
    let name = text::snake(world.name(id));
    let (mut of, mut lengths) = (&value.of, String::new());
    while let Type::Of(Form::Array { length }, parts) = of {
        lengths += &format!("[{length}]");
        of = &parts[0];
    }
    let (name, text) = match value.of {
        Type::Integer(_) | Type::Boolean => {
            let name = format!("TK_{}", name.to_uppercase());
            let text = format!("#define {name} {}\n", print(printer, &value)?.text);
            (name, text)
        }
        _ => {
            let (name, initial) = (format!("tk_{name}"), initializer(printer, &value)?);
            let declared = declared(&printer.name(of)?, &name);
            let text = format!("static const {declared}{lengths} = {initial};\n");
            (name, explained(world, id) + &text)
        }
    };
    match printer.known.insert(name.clone(), text.clone()) {
        None => printer.constants.push(text),
        Some(other) if other == text => {}
        Some(_) => return Err(world.fault(id, value.span, "C: two constants of one name")),
    }
    Ok(Text::atom(name))
}

/// Prints the value of a constant or an array, between braces.
pub fn initializer(printer: &mut Printer, value: &Term) -> Done<String> {
    match value.kind {
        Kind::Make(PLAIN) | Kind::Elements => {
            let parts = value.parts.iter().map(|it| initializer(printer, it));
            let parts = parts.collect::<Done<Vec<String>>>()?;
            Ok(match parts.iter().map(|it| it.len() + 2).sum::<usize>() {
                0..=90 => format!("{{{}}}", parts.join(", ")),
                _ => format!("{{\n    {},\n}}", parts.join(",\n    ")),
            })
        }
        _ => Ok(print(printer, value)?.text),
    }
}

fn cast(printer: &Printer, inner: &Term, text: &Text, of: &Type) -> Done<Text> {
    let to = of.integer().ok_or_else(|| refuse(printer, inner, "a cast to this type"))?;
    let (from, is_signed, bits) = match inner.of {
        Type::Integer(from) => (from.name(), from.is_signed(), from.bits()),
        Type::Boolean => ("bool", false, 1),
        _ => return Err(refuse(printer, inner, "a cast of this type")),
    };
    let value = &text.text;
    Ok(match (bits, to.bits()) {
        _ if inner.of == *of => Text::new(value, text.level),
        (1, 64) if to.name() == "u64" => Text::atom(format!("tk_bit({value})")),
        (128, 128) => Text::atom(format!("tk_{from}_as_{}({value})", to.name())),
        (_, 128) if is_signed => {
            return Err(refuse(printer, inner, "a signed number of 128 bits"));
        }
        (_, 128) => Text::atom(format!("tk_{}_of({value})", to.name())),
        (128, _) => {
            let low = Text::atom(format!("tk_{from}_low({value})"));
            if to.name() == "u64" { low } else { cast_to(to, &low) }
        }
        _ => cast_to(to, text),
    })
}

fn cast_to(to: Integer, text: &Text) -> Text {
    Text::atom(format!("TK_CAST({}, {})", to.type_name(), text.text))
}

// Operators, their levels, and the names of the functions that stand for them.
pub const OPERATORS: [(&str, u8, &str); 18] = [
    ("||", OR, ""),
    ("&&", AND, ""),
    ("==", EQUALITY, "equal"),
    ("!=", EQUALITY, "equal"),
    ("<", 10, "less"),
    (">", 10, "less"),
    ("<=", 10, "less"),
    (">=", 10, "less"),
    ("|", 6, "or"),
    ("^", 7, "xor"),
    ("&", 8, "and"),
    ("<<", SHIFT, "shift_left"),
    (">>", SHIFT, "shift_right"),
    ("+", SUM, "add"),
    ("-", SUM, "sub"),
    ("*", 13, "mul"),
    ("/", 13, "div"),
    ("%", 13, "rem"),
];

// Returns the level of an operator, and its function.
fn known(operator: &str) -> (u8, &'static str) {
    let known = OPERATORS.iter().find(|it| it.0 == operator);
    known.map_or((0, ""), |(_, level, function)| (*level, function))
}

fn binary(printer: &mut Printer, operator: &str, term: &Term, mut texts: Vec<Text>) -> Done<Text> {
    let own = match term.parts[0].of {
        Type::Integer(own) if own.bits() == 128 => {
            return Ok(wide(own, operator, texts));
        }
        Type::Integer(own) if !is_comparison(operator) => own,
        Type::Integer(_) | Type::Boolean => return Ok(joined(operator, &texts)),
        _ => return Err(refuse(printer, term, "a comparison of these")),
    };
    let refusals = [
        // A product or a shift of 16 bits may be more than an `int`.
        (own.bits() < 32 && matches!(operator, "*" | "<<"), "this operation on so few bits"),
        (own.is_signed() && is_shift(operator), "a shift of a signed number"),
    ];
    if let Some((_, what)) = refusals.into_iter().find(|(is_refused, _)| *is_refused) {
        return Err(refuse(printer, term, what));
    }
    // A literal would be an `int`.
    if let (true, Kind::Number { value, .. }) = (is_shift(operator), &term.parts[0].kind) {
        let is_long = own.bits() == 64;
        texts[0].text = if is_long { format!("UINT64_C({value})") } else { format!("{value}u") };
    }
    // A function asserts what is proved of the operands.
    if printer.is_checked && !own.is_signed() {
        return Ok(call(format!("tk_{}_{}", own.name(), known(operator).1), &texts));
    }
    // C computes with `int` where a type has fewer bits.
    let text = joined(operator, &texts);
    Ok(if own.bits() < 32 { cast_to(own, &text) } else { text })
}

// An operator on 128 bits, as a call: not all compilers have such numbers.
fn wide(own: Integer, operator: &str, mut texts: Vec<Text>) -> Text {
    if matches!(operator, ">" | "<=") {
        texts.reverse();
    }
    let call = call(format!("tk_{}_{}", own.name(), known(operator).1), &texts);
    match operator {
        "!=" | "<=" | ">=" => Text::new(format!("!{}", call.text), UNARY),
        _ => call,
    }
}

// Joins operands, with parentheses wherever compilers and readers ask for them.
fn joined(sign: &str, texts: &[Text]) -> Text {
    let level = known(sign).0;
    let is_bits = matches!(sign, "<<" | ">>" | "&" | "|" | "^");
    let side = |text: &Text, least: u8, is_left: bool| {
        let is_same = is_left && text.level == level && level != SHIFT;
        let is_unclear =
            is_bits && text.level < UNARY && !is_same || sign == "||" && text.level == AND;
        if is_unclear { format!("({})", text.text) } else { text.at(least) }
    };
    let (left, right) = (side(&texts[0], level, true), side(&texts[1], level + 1, false));
    Text::new(format!("{left} {sign} {right}"), level)
}
