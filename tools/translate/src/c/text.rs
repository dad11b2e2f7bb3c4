//! Names, comments and long lines of C.

// What is a keyword or a macro in C or C++.
const RESERVED: &str = "alignas alignof and asm auto bool break case catch char class const constexpr continue default \
    delete do double else enum explicit export extern false final float for friend goto if inline int long mutable \
    namespace new noexcept not nullptr operator or override private protected public register requires restrict return \
    short signed sizeof static struct switch template this throw true try typedef typename union unsigned using \
    virtual void volatile while xor errno far near small min max minor major linux unix";

const WIDTH: usize = 120;

/// An expression, and how tightly its operator binds.
pub struct Text {
    pub text: String,
    pub level: u8,
}

// The levels of operators.
pub const ATOM: u8 = 15;
pub const UNARY: u8 = 14;
pub const SUM: u8 = 12;
pub const SHIFT: u8 = 11;
pub const EQUALITY: u8 = 9;
pub const AND: u8 = 5;
pub const OR: u8 = 4;
pub const CHOICE: u8 = 3;

impl Text {
    pub fn new(text: impl Into<String>, level: u8) -> Text {
        Text { text: text.into(), level }
    }

    pub fn atom(text: impl Into<String>) -> Text {
        Text::new(text, ATOM)
    }

    /// Returns the text, between parentheses if it binds less tightly.
    pub fn at(&self, level: u8) -> String {
        if self.level >= level { self.text.clone() } else { format!("({})", self.text) }
    }
}

/// Returns a name of C for one of Rust.
pub fn local(name: &str) -> String {
    let name = snake(name.trim_start_matches('_'));
    if RESERVED.split_whitespace().any(|it| it == name) { format!("{name}_") } else { name }
}

/// Returns `a_name` for `AName` and `A_NAME`.
pub fn snake(name: &str) -> String {
    let mut made = String::new();
    let mut after_lower = false;
    for character in name.chars() {
        if character.is_ascii_uppercase() && after_lower {
            made.push('_');
        }
        after_lower = character.is_ascii_lowercase() || character.is_ascii_digit();
        made.push(character.to_ascii_lowercase());
    }
    made
}

/// Returns a comment of C with the first paragraph of one of the source. Compilers may read what is not ASCII in another
/// encoding.
pub fn comment(lines: Vec<&str>, indent: &str) -> String {
    let lines = lines.into_iter().map(|it| it.trim_start_matches('/').trim());
    let lines = lines.take_while(|it| !it.is_empty());
    let lines = lines.map(|it| it.replace("*/", "* /").replace("/*", "/ *").replace('¾', ".75"));
    let lines: Vec<String> = lines.map(|it| it.replace(|it: char| !it.is_ascii(), "?")).collect();
    match lines.as_slice() {
        [] => String::new(),
        [only] => format!("{indent}/* {only} */\n"),
        _ => {
            let body: String = lines.iter().map(|it| format!("{indent} * {it}\n")).collect();
            format!("{indent}/*\n{body}{indent} */\n")
        }
    }
}

/// Breaks a long line behind commas and before `&&` and `||`, outermost ones first. What follows stands below what it
/// belongs to.
pub fn wrapped(line: &str) -> String {
    if line.len() <= WIDTH {
        return line.to_string();
    }
    let outermost = breaks(line).into_iter().min_by_key(|(depth, at, _)| (*depth, WIDTH - at));
    let open = || line.find('(').filter(|open| *open < WIDTH).map(|open| (0, open + 1, 8));
    let Some((_, at, indent)) = outermost.or_else(open) else { return line.to_string() };
    let rest = format!("{}{}", " ".repeat(indent), line[at..].trim_start());
    format!("{}\n{}", &line[..at], wrapped(&rest))
}

// Returns where a line can be broken: in how many parentheses, at which place, and where the rest begins.
fn breaks(line: &str) -> Vec<(usize, usize, usize)> {
    let start = line.len() - line.trim_start().len();
    let (mut opened, mut found) = (Vec::new(), Vec::new());
    let mut is_text = false;
    for (at, byte) in line.bytes().enumerate().take(WIDTH + 1).skip(start) {
        match byte {
            b'"' => is_text = !is_text,
            _ if is_text => {}
            b'(' => opened.push(at + 1),
            b')' => drop(opened.pop()),
            b' ' => {
                let signs = ["&& ", "|| ", "? ", ": "];
                if line[..at].ends_with(',')
                    || signs.iter().any(|it| line[at + 1..].starts_with(it))
                {
                    found.push((opened.len(), at, opened.last().copied().unwrap_or(start + 4)));
                }
            }
            _ => {}
        }
    }
    found
}
