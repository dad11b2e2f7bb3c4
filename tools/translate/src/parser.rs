//! Reads the tree of a source by the rules of the grammar. What they do not take is refused, at the last token that
//! they reach.

use crate::lexer::{
    bytes, check_characters, clause_length, ghost_name_length, number, skip_space, token,
};
use crate::notation::{Form, RULES};
use crate::source::{Done, Source, Span};
use crate::std_names::{has, is_capital};
use crate::tree::Node;

// Words that are no names: those of Rust, also for later use, and those of Rattle.
const KEYWORDS: &str = "_ as async await break const continue crate dyn else enum extern false fn for if \
    impl in let loop match mod move mut pub ref return self Self static struct super trait true type unsafe \
    use where while abstract become box do final gen macro override priv raw safe try typeof union unsized \
    virtual yield auto default ensures ghost requires";

/// Reads all of a source by a rule, and returns the parts of its node.
pub fn parse(source: &Source, rule: &str) -> Done<Vec<Node>> {
    check_characters(source)?;
    let at = place(source, 0);
    let mut parser = Parser { source, at, is_plain: false, furthest: at, nodes: Vec::new() };
    if parser.form(&RULES[rule]) {
        return Ok(parser.nodes.remove(0).parts);
    }
    let Place { start, token, .. } = parser.furthest;
    let found = match token.lines().next() {
        None => "the end of the file".into(),
        Some(line) => format!("`{line}`"),
    };
    Err(source.fault(Span { start, end: start }, format!("{found} is not known here")))
}

/// Where what was read ends, and the next token.
#[derive(Clone, Copy)]
struct Place<'a> {
    end: usize,
    start: usize,
    token: &'a str,
}

fn place(source: &Source, end: usize) -> Place<'_> {
    let rest = skip_space(&source.text[end..]);
    Place { end, start: source.text.len() - rest.len(), token: token(rest) }
}

struct Parser<'a> {
    source: &'a Source,
    at: Place<'a>,
    // Whether `NAME {` is a name before a block, and no struct.
    is_plain: bool,
    // The last place that was reached.
    furthest: Place<'a>,
    // The nodes that were made, and are no parts of others yet.
    nodes: Vec<Node>,
}

impl<'a> Parser<'a> {
    // Reads by a form. Returns whether it fits.
    fn form(&mut self, form: &'static Form) -> bool {
        let Form { sign, text, parts } = form;
        match sign {
            'a' => self.form(&RULES[text]),
            '=' => {
                let (start, first) = (self.at.start, self.nodes.len());
                self.form(&parts[0]) && self.make(text, start, first)
            }
            'A' => self.token_of(text),
            '\'' | '@' | '^' => self.sign(*sign, text),
            '/' => parts.iter().any(|form| self.attempt(form)),
            '&' => self.looks(&parts[0]),
            '!' => !self.looks(&parts[0]),
            '?' | '*' | ',' => {
                let goes_on = |it: &mut Self| *sign == '*' || *sign == ',' && it.sign('\'', ",");
                while self.attempt(&parts[0]) && goes_on(self) {}
                true
            }
            _ => self.sequence(parts),
        }
    }

    // Reads something, or goes back.
    fn attempt(&mut self, form: &'static Form) -> bool {
        let (at, count) = (self.at, self.nodes.len());
        let fits = self.form(form);
        if !fits {
            self.at = at;
            self.nodes.truncate(count);
        }
        fits
    }

    // Says whether something comes next.
    fn looks(&mut self, form: &'static Form) -> bool {
        let (at, furthest, count) = (self.at, self.furthest, self.nodes.len());
        let fits = self.form(form);
        self.nodes.truncate(count);
        (self.at, self.furthest) = (at, furthest);
        fits
    }

    // Brackets end what has no structs.
    fn sequence(&mut self, forms: &'static [Form]) -> bool {
        let (before, start) = (self.is_plain, self.nodes.len());
        let fits = forms.iter().all(|form| {
            let fits = if form.sign == '<' { self.put_into(form, start) } else { self.form(form) };
            self.is_plain &= !["(", "[", "{"].contains(&form.text);
            fits
        });
        self.is_plain = before;
        fits
    }

    // Puts the nodes from `start` on into the one that follows, and that into the next one. Returns whether it fits.
    fn put_into(&mut self, form: &'static Form, start: usize) -> bool {
        while self.attempt(&form.parts[0]) {
            let node = self.nodes.pop();
            let first = self.nodes.split_off(start);
            self.nodes.extend(node.map(|node| node.begun_with(first)));
            if form.text == "<!" {
                return true;
            }
        }
        form.text == "<<"
    }

    fn sign(&mut self, sign: char, text: &'static str) -> bool {
        let token = self.at.token;
        let fits = token == text || sign == '^' && token == text.repeat(2);
        fits && self.take(text.len(), if sign == '@' { "sign" } else { "" })
    }

    // Takes a token, and makes a node of it if this has a name.
    fn take(&mut self, length: usize, rule: &'static str) -> bool {
        let (start, first) = (self.at.start, self.nodes.len());
        self.at = place(self.source, start + length);
        if self.at.start > self.furthest.start {
            self.furthest = self.at;
        }
        rule.is_empty() || self.make(rule, start, first)
    }

    // Makes a node of what was read from `start` on, with the nodes from `first` on as its parts.
    fn make(&mut self, rule: &'static str, start: usize, first: usize) -> bool {
        let span = Span { start, end: self.at.end.max(start) };
        let parts = self.nodes.split_off(first);
        self.nodes.push(Node::new(self.source, rule, span, parts));
        true
    }

    // Reads a token by the name of its kind, or what else has such a name.
    fn token_of(&mut self, name: &'static str) -> bool {
        let Place { start, token: text, .. } = self.at;
        let is_one = |bytes: Vec<u8>| bytes.len() == 1;
        let is_letter = |it: char| it.is_ascii_alphabetic() || it == '_';
        let is_word = text.starts_with(is_letter) && !text.ends_with(['"', '\'']);
        // A quote or `#` is behind a name only in raw texts and names, and in texts of C.
        let is_raw = || self.source.text[start + text.len()..].starts_with(['"', '#']);
        let (fits, rule) = match name {
            "COMMENTS" => return self.comments(),
            "PLAIN" => {
                self.is_plain = true;
                return true;
            }
            "STRUCTS" => return !self.is_plain,
            "CAPITAL" => return is_capital(text),
            "END" => return text.is_empty(),
            "CLAUSE" if text == "{" => return self.clause(),
            "GHOST_NAME" => {
                let length = ghost_name_length(&self.source.text[start..]);
                return length > 0 && self.take(length, "ghost_name");
            }
            "NAME" => (is_word && !has(KEYWORDS, text) && !is_raw(), "name"),
            "WORD" => (is_word, "word"),
            "LIFETIME" => (text.starts_with('\'') && text.len() > 1, ""),
            "INTEGER" => (number(text).is_some(), "integer"),
            "BYTE" => (text.starts_with("b'") && bytes(text).is_some_and(is_one), "byte"),
            "TEXT" => (text.ends_with('"') && bytes(text).is_some(), "text"),
            "DOC" => (text.starts_with("///"), "doc"),
            _ => (false, ""),
        };
        fits && self.take(text.len(), rule)
    }

    // Reads a clause. What is not known in it is the last that was reached.
    fn clause(&mut self) -> bool {
        let start = self.at.start;
        match clause_length(&self.source.text[start..]) {
            Ok(length) => self.take(length, "clause"),
            Err((offset, token)) => {
                self.furthest = Place { end: start, start: start + offset, token };
                false
            }
        }
    }

    // Makes a node of what is before the next token if there are comments.
    fn comments(&mut self) -> bool {
        let Place { end, start, .. } = self.at;
        let node = Node::new(self.source, "comments", Span { start: end, end: start }, Vec::new());
        self.nodes.extend(Some(node).filter(|node| !node.comments().is_empty()));
        true
    }
}
