//! The typed form between the trees and C. Control flow and effects are statements, and `lower` puts terms into the
//! order of Rust.

pub use crate::resolve::Id;
pub use crate::source::Done;
use crate::source::Span;
use std::collections::BTreeMap;

/// A type of integers, by its name in Rust.
#[derive(Clone, Copy, Debug, PartialEq, Eq, PartialOrd, Ord)]
pub struct Integer(pub &'static str);

/// A type. A shared reference is the type of what it refers to, as nothing changes while it lives.
#[derive(Clone, Debug, PartialEq, Eq, PartialOrd, Ord)]
pub enum Type {
    Integer(Integer),
    Boolean,
    // A type that is made of others.
    Of(Form, Vec<Type>),
    // A generic parameter that stands for itself.
    Parameter(String),
    // A type that is not known yet.
    Variable { number: usize, is_integer: bool },
}

#[derive(Clone, Copy, Debug, PartialEq, Eq, PartialOrd, Ord)]
pub enum Form {
    // Without parts, also `PhantomData`.
    Tuple,
    // `&[T]`, `&mut [T]` or `&str`.
    Slice { is_mutable: bool },
    Array { length: u128 },
    // `&mut T`.
    Pointer,
    Option,
    Result,
    // A struct or an enum.
    Item(Id),
}

/// The types that generic parameters stand for.
pub type Bindings = BTreeMap<String, Type>;

/// A function or another item, and what generic parameters stand for in it.
#[derive(Clone, Debug, PartialEq, Eq, PartialOrd, Ord)]
pub struct Instance {
    pub id: Id,
    pub bindings: Bindings,
}

/// A function for what those of its parameters stand for that matter.
#[derive(Clone, Debug)]
pub struct Function {
    pub key: Instance,
    pub locals: Vec<Local>,
    /// The constants of other parameters, by the parameter and their place in its `impl`, and their variables. They and
    /// the constants of its generics are its first parameters.
    pub constants: BTreeMap<(String, Id), usize>,
    pub parameters: Vec<usize>,
    pub result: Type,
    pub body: Term,
}

#[derive(Clone, Debug)]
pub struct Local {
    pub name: String,
    pub of: Type,
    pub is_mutable: bool,
}

/// An expression or a statement: what it does with its parts.
#[derive(Clone, Debug)]
pub struct Term {
    pub kind: Kind,
    pub parts: Vec<Term>,
    pub of: Type,
    pub span: Span,
}

#[derive(Clone, Debug, PartialEq, Eq)]
pub enum Kind {
    // Statements, which have the type of an empty tuple.
    Block,
    Comment(Vec<String>),
    // A variable gets its value.
    Declare(usize),
    Assign,
    // Its condition, and what runs if it holds, or else.
    If,
    While,
    Return,
    Break,
    // A number, and with how many hexadecimal digits it is written, or 0.
    Number { value: u128, hexadecimal: usize },
    Byte(u8),
    Boolean(bool),
    Text(Vec<u8>),
    // The elements of an array.
    Elements,
    Local(usize),
    Constant(Id),
    Call(Instance),
    Binary(&'static str),
    Not,
    // A function of the prelude, by its name behind that of the type of integers.
    Small(String),
    At,
    // An element of which it was tested that it is there.
    Element,
    // A part of a slice, by the name of the function that makes it.
    Part(&'static str),
    // The last bytes of a slice.
    Last,
    Cast,
    // A value by the number of its variant, and its fields.
    Make(usize),
    // Whether a value is of a variant, and a field of one that is.
    Is(usize),
    Field(usize, usize),
    Choice,
    Address,
    Follow,
}

/// The number of the variant of a struct or a tuple.
pub const PLAIN: usize = 0;
/// Those of an option and a result.
pub const SOME: usize = 0;
pub const NONE: usize = 1;
pub const OK: usize = 0;
pub const ERR: usize = 1;
/// The fields of a slice.
pub const BYTES: usize = 0;
pub const LENGTH: usize = 1;

/// Comparisons, and what holds where they do not.
const OPPOSITES: [(&str, &str); 6] =
    [("==", "!="), ("!=", "=="), ("<", ">="), (">=", "<"), (">", "<="), ("<=", ">")];

impl Integer {
    pub fn bits(self) -> u32 {
        self.0[1..].parse().unwrap_or(64)
    }

    pub fn is_signed(self) -> bool {
        self.0.starts_with('i')
    }

    /// Returns its name in other names of C.
    pub fn name(self) -> &'static str {
        if self.0 == "usize" { "size" } else { self.0 }
    }

    /// Returns the type of C.
    pub fn type_name(self) -> String {
        match (self.bits(), self.is_signed()) {
            _ if self.0 == "usize" => "size_t".into(),
            (128, _) => format!("tk_{}", self.0),
            (bits, true) => format!("int{bits}_t"),
            (bits, false) => format!("uint{bits}_t"),
        }
    }
}

impl Type {
    pub const UNIT: Type = Type::Of(Form::Tuple, Vec::new());
    pub const SIZE: Type = Type::Integer(Integer("usize"));
    pub const BYTE: Type = Type::Integer(Integer("u8"));

    pub fn slice(element: Type, is_mutable: bool) -> Type {
        Type::Of(Form::Slice { is_mutable }, vec![element])
    }

    pub fn array(element: Type, length: u128) -> Type {
        Type::Of(Form::Array { length }, vec![element])
    }

    pub fn pointer(target: Type) -> Type {
        Type::Of(Form::Pointer, vec![target])
    }

    pub fn integer(&self) -> Option<Integer> {
        if let Type::Integer(integer) = self { Some(*integer) } else { None }
    }

    /// Returns the type that a pointer refers to, or the type itself.
    pub fn target(&self) -> &Type {
        if let Type::Of(Form::Pointer, parts) = self { &parts[0] } else { self }
    }

    pub fn is_slice(&self) -> bool {
        matches!(self, Type::Of(Form::Slice { .. }, _))
    }

    /// Says whether what has this type may change something.
    pub fn can_write(&self) -> bool {
        matches!(self, Type::Of(Form::Pointer | Form::Slice { is_mutable: true }, _))
    }

    /// Returns the type with parts that are made from its own.
    pub fn map(&self, make: &mut dyn FnMut(&Type) -> Type) -> Type {
        match self {
            Type::Of(form, parts) => Type::Of(*form, parts.iter().map(make).collect()),
            other => other.clone(),
        }
    }

    /// Replaces parameters by what they stand for.
    pub fn with(&self, bindings: &Bindings) -> Type {
        match self {
            Type::Parameter(name) => bindings.get(name).unwrap_or(self).clone(),
            _ => self.map(&mut |part| part.with(bindings)),
        }
    }

    /// Returns the first parameter in a type.
    pub fn parameter(&self) -> Option<&str> {
        match self {
            Type::Parameter(name) => Some(name),
            Type::Of(_, parts) => parts.iter().find_map(Type::parameter),
            _ => None,
        }
    }
}

impl Term {
    /// Returns what all terms in this one are, and then itself.
    pub fn kinds(&self) -> Vec<&Kind> {
        self.parts.iter().flat_map(Term::kinds).chain([&self.kind]).collect()
    }

    /// Says whether nothing runs behind this statement.
    pub fn leaves(&self) -> bool {
        matches!(self.kind, Kind::Return | Kind::Break)
    }

    /// Says whether this term or one in it fulfils a condition.
    pub fn any(&self, is: &dyn Fn(&Term) -> bool) -> bool {
        is(self) || self.parts.iter().any(|part| part.any(is))
    }

    /// Says whether its parts are those of a tuple.
    pub fn is_tuple(&self) -> bool {
        self.kind == Kind::Make(PLAIN) && matches!(self.of, Type::Of(Form::Tuple, _))
    }

    /// Says whether it is `Some` or `Ok` of a value if a condition holds, or else the other. Its parts can be read more
    /// than once.
    pub fn is_maybe(&self) -> bool {
        let kinds: Vec<&Kind> = self.parts.iter().map(|it| &it.kind).collect();
        self.kind == Kind::Choice
            && kinds[1..] == [&Kind::Make(SOME), &Kind::Make(NONE)]
            && matches!(self.of, Type::Of(Form::Option | Form::Result, _))
            && !self.any(&|it| matches!(it.kind, Kind::Call(_)))
    }

    /// Says whether it can be read more than once at no cost.
    pub fn is_path(&self) -> bool {
        match self.kind {
            Kind::Local(_) | Kind::Number { .. } | Kind::Constant(_) => true,
            Kind::Byte(_) | Kind::Boolean(_) => true,
            Kind::Field(..) | Kind::Follow => self.parts[0].is_path(),
            _ => false,
        }
    }

    /// Says whether evaluating it changes something.
    pub fn has_effect(&self) -> bool {
        let writes = |it: &Term| it.parts.iter().any(|part| part.of.can_write());
        self.any(&|it| matches!(it.kind, Kind::Call(_)) && writes(it))
    }

    /// Returns the number that this is.
    pub fn number(&self) -> Option<u128> {
        if let Kind::Number { value, .. } = self.kind { Some(value) } else { None }
    }

    /// Returns the opposite of a condition.
    pub fn negated(mut self) -> Term {
        let span = self.span;
        let opposite = OPPOSITES.iter().find(|it| self.kind == Kind::Binary(it.0));
        self.kind = match (&self.kind, opposite) {
            (Kind::Boolean(value), _) => Kind::Boolean(!value),
            (_, Some((_, opposite))) => Kind::Binary(opposite),
            _ => return Term { kind: Kind::Not, parts: vec![self], of: Type::Boolean, span },
        };
        self
    }
}
