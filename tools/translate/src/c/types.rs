//! The types of C: their names, and the structs that stand for tuples, `Option`, `Result`, structs and enums.

use super::ir::{Done, Form, NONE, Type};
use super::print::{Printer, explained};
use super::text::{self, EQUALITY, Text, UNARY};
use super::world::{Variant, World};
use crate::source::Fault;

/// How C has the values of a variant.
struct Shape {
    /// The member that says of which variant a value is, and what it says, if there are others.
    tag: Option<(String, String)>,
    /// The function that makes one.
    maker: String,
    /// What holds each field. Nothing does if it has no bytes.
    fields: Vec<Option<Member>>,
}

/// The name of a member of a struct, and its type.
type Member = (String, Type);

// The names of the fields of tuples.
const ORDINALS: [&str; 2] = ["first", "second"];

/// Returns a name for a type that can be part of other names.
pub fn short(world: &World, of: &Type) -> String {
    let (form, parts) = match of {
        Type::Integer(integer) => return integer.name().into(),
        Type::Boolean => return "bool".into(),
        Type::Of(form, parts) => (form, parts.iter().filter(|part| !world.is_zero(part))),
        _ => return "unknown".into(),
    };
    let names: Vec<String> = parts.map(|it| short(world, it)).collect();
    let joined = names.join("_");
    match form {
        Form::Slice { is_mutable: false } if joined == "u8" => "bytes".into(),
        Form::Slice { is_mutable: false } => format!("slice_{joined}"),
        Form::Slice { is_mutable: true } => format!("room_{joined}"),
        Form::Option => format!("option_{joined}"),
        Form::Result if names[1..] == ["error"] => format!("result_{}", names[0]),
        Form::Result => format!("result_{joined}"),
        Form::Tuple if names.len() == 2 => format!("pair_{joined}"),
        Form::Array { .. } | Form::Pointer | Form::Tuple => "unknown".into(),
        Form::Item(id) => match world.name(*id) {
            "AtoiSimdError" => "error".into(),
            name => text::snake(name),
        },
    }
}

impl Printer<'_> {
    /// Returns a type as C names it, and defines it before.
    pub fn name(&mut self, of: &Type) -> Done<String> {
        Ok(match of {
            Type::Integer(integer) => integer.type_name(),
            Type::Boolean => "bool".into(),
            Type::Of(Form::Array { .. }, parts) => format!("const {} *", self.name(&parts[0])?),
            Type::Of(Form::Pointer, parts) => match &parts[0] {
                Type::Of(Form::Array { .. }, parts) => format!("{} *", self.name(&parts[0])?),
                target => format!("{} *", self.name(target)?),
            },
            Type::Parameter(_) | Type::Variable { .. } => return Err(self.unknown(of)),
            of if self.world.is_zero(of) => return Err(self.unknown(of)),
            _ => {
                let name = format!("tk_{}", short(self.world, of));
                match self.known.insert(name.clone(), format!("{of:?}")) {
                    Some(other) if other == format!("{of:?}") => {}
                    Some(_) => return Err(self.unknown(of)),
                    None => {
                        let text = self.definition(of, &name)?;
                        self.definitions.push(text);
                    }
                }
                name
            }
        })
    }

    fn unknown(&self, of: &Type) -> Fault {
        let reason = format!("no type, or two of one name, for {of:?}");
        self.world.fault_of(self.id, reason)
    }

    fn definition(&mut self, of: &Type, name: &str) -> Done<String> {
        let shapes = self.shapes(of)?;
        let members = self.members(&shapes)?;
        let (mut lines, mut before) = (String::new(), String::new());
        if let Type::Of(Form::Item(id), _) = of {
            before = explained(self.world, *id);
        }
        let tags: Vec<_> = shapes.iter().filter_map(|it| it.tag.as_ref()).collect();
        match tags.first() {
            Some((member, _)) if member == "tag" => {
                let tags: Vec<String> = tags.iter().map(|(_, tag)| format!("    {tag}")).collect();
                let (tags, name) = (tags.join(",\n"), format!("{name}_tag"));
                before += &format!("typedef enum {name} {{\n{tags}\n}} {name};\n\n");
                lines += &format!("    {name} tag;\n");
            }
            Some((member, _)) => lines += &format!("    bool {member};\n"),
            None => {}
        }
        for (name, of) in &members {
            lines += &format!("    {};\n", declared(&self.name(of)?, name));
        }
        let mut text = format!("{before}typedef struct {name} {{\n{lines}}} {name};\n");
        for shape in &shapes {
            text += &self.maker(name, shape, &members)?;
        }
        if of.is_slice() {
            text += &format!("\nTK_PARTS({name})\n");
        }
        Ok(text)
    }

    // Returns how C has the values of each variant of a type.
    fn shapes(&self, of: &Type) -> Done<Vec<Shape>> {
        let variants = self.world.variants(of)?;
        let kind = short(self.world, of);
        let shape = |(number, variant): (usize, &Variant)| {
            let name = text::snake(&variant.name);
            let (tag, maker) = match of {
                Type::Of(Form::Option | Form::Result, _) => {
                    let tag = (format!("is_{}", variants[0].name), (number == 0).to_string());
                    (Some(tag), format!("tk_{name}_{}", kind.split_once('_').map_or("", |it| it.1)))
                }
                _ if variants.len() > 1 => {
                    let tag = ("tag".to_string(), format!("TK_{kind}_{name}").to_uppercase());
                    (Some(tag), format!("tk_{kind}_{name}"))
                }
                of if of.is_slice() => (None, format!("tk_{kind}_{name}")),
                _ => (None, format!("tk_{name}_{kind}")),
            };
            let fields = (0..variant.fields.len())
                .map(|at| self.member(&variant.fields, at, variants.len() == 1));
            Ok(Shape { tag, maker, fields: fields.collect::<Done<_>>()? })
        };
        variants.iter().enumerate().map(shape).collect()
    }

    // Returns the name and the type of a field in C. What has no name is called by its type, or by its place in the
    // only variant.
    fn member(&self, fields: &[(String, Type)], at: usize, is_only: bool) -> Done<Option<Member>> {
        let (name, of) = &fields[at];
        if self.world.is_zero(of) {
            return Ok(None);
        }
        let same = fields[..at].iter().filter(|it| it.1 == *of).count();
        let name = match name.parse::<usize>() {
            Err(_) => text::local(name),
            Ok(_) if is_only => ORDINALS.get(at).ok_or_else(|| self.unknown(of))?.to_string(),
            Ok(_) if same == 0 => short(self.world, of),
            Ok(_) => format!("{}_{}", short(self.world, of), same + 1),
        };
        Ok(Some((name, of.clone())))
    }

    // Returns the members for the fields of all variants, which share those of one name.
    fn members(&self, shapes: &[Shape]) -> Done<Vec<Member>> {
        let mut members: Vec<Member> = Vec::new();
        for (name, of) in shapes.iter().flat_map(|it| it.fields.iter().flatten()) {
            match members.iter().find(|it| it.0 == *name) {
                None => members.push((name.clone(), of.clone())),
                Some((_, other)) if other == of => {}
                Some(_) => return Err(self.unknown(of)),
            }
        }
        Ok(members)
    }

    fn shape(&self, of: &Type, variant: usize) -> Done<Shape> {
        self.shapes(of)?.into_iter().nth(variant).ok_or_else(|| self.unknown(of))
    }

    /// Returns the name of a field of a value of a variant.
    pub fn field(&self, of: &Type, variant: usize, field: usize) -> Done<String> {
        let found = self.shape(of, variant)?.fields.into_iter().nth(field).flatten();
        found.map(|(name, _)| name).ok_or_else(|| self.unknown(of))
    }

    /// Returns the test whether a value is of a variant.
    pub fn test(&self, of: &Type, variant: usize, value: &str) -> Done<Text> {
        let (member, tag) = self.shape(of, variant)?.tag.ok_or_else(|| self.unknown(of))?;
        Ok(match tag.as_str() {
            "true" => Text::atom(format!("{value}.{member}")),
            "false" => Text::new(format!("!{value}.{member}"), UNARY),
            tag => Text::new(format!("{value}.{member} == {tag}"), EQUALITY),
        })
    }

    /// Returns a value of a variant, by its function.
    pub fn made(&self, of: &Type, variant: usize, fields: &[String]) -> Done<String> {
        Ok(format!("{}({})", self.shape(of, variant)?.maker, fields.join(", ")))
    }

    // Returns the text of the function that makes values of a variant. It sets all members.
    fn maker(&mut self, name: &str, shape: &Shape, members: &[Member]) -> Done<String> {
        let own: Vec<&Member> = shape.fields.iter().flatten().collect();
        let parameters = own.iter().map(|(name, of)| Ok(declared(&self.name(of)?, name)));
        let parameters = parameters.collect::<Done<Vec<String>>>()?;
        let mut values: Vec<String> = shape.tag.iter().map(|it| it.1.clone()).collect();
        for member @ (name, of) in members {
            values.push(if own.contains(&member) { name.clone() } else { self.zero(of)? });
        }
        let parameters = if parameters.is_empty() { "void".into() } else { parameters.join(", ") };
        let head = text::wrapped(&format!("TK_CONSTEXPR {name} {}({parameters})", shape.maker));
        let line = text::wrapped(&format!("    return TK_MAKE({name}, {});", values.join(", ")));
        Ok(format!("\n{head}\n{{\n{line}\n}}\n"))
    }

    // Returns a value for a member that is not used: `None`, or one of the first variant.
    fn zero(&self, of: &Type) -> Done<String> {
        Ok(match of {
            Type::Integer(it) if it.bits() == 128 => format!("tk_{}_of(0)", it.name()),
            Type::Integer(_) => "0".into(),
            Type::Boolean => "false".into(),
            Type::Of(Form::Array { .. } | Form::Pointer, _) => "NULL".into(),
            _ => {
                let variant = if let Type::Of(Form::Option, _) = of { NONE } else { 0 };
                let shape = self.shape(of, variant)?;
                let values = shape.fields.iter().flatten().map(|it| self.zero(&it.1));
                format!("{}({})", shape.maker, values.collect::<Done<Vec<_>>>()?.join(", "))
            }
        })
    }
}

/// Returns a declaration of a name.
pub fn declared(of: &str, name: &str) -> String {
    if of.ends_with('*') { format!("{of}{name}") } else { format!("{of} {name}") }
}
