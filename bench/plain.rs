// The same work in plain Rust, to measure against.
use std::cmp::Ordering;

#[derive(Clone, PartialEq, Eq, PartialOrd, Ord)]
pub enum Value {
    Int(i64),
    Text(String),
}

#[derive(Clone, PartialEq, Eq, PartialOrd, Ord)]
pub struct Tuple {
    pub rel: u32,
    pub vals: Vec<Value>,
}

#[derive(Clone, PartialEq, Eq)]
pub struct Stmt {
    pub path: Vec<u32>,
    pub minus: bool,
    pub tuple: Tuple,
}

/// By path, shorter ones first, then by tuple, then plus before minus.
pub fn cmp_stmt(a: &Stmt, b: &Stmt) -> Ordering {
    (a.path.len().cmp(&b.path.len()))
        .then_with(|| a.path.cmp(&b.path))
        .then_with(|| a.tuple.cmp(&b.tuple))
        .then_with(|| a.minus.cmp(&b.minus))
}

fn clash(a: &Stmt, b: &Stmt) -> bool {
    match (a.minus, b.minus) {
        (false, false) => {
            a.tuple.rel == b.tuple.rel && a.tuple.vals[0] == b.tuple.vals[0] && a.tuple != b.tuple
        }
        (true, true) => false,
        _ => a.tuple == b.tuple,
    }
}

/// A base: a sorted list of statements, and how many different tuples they have.
#[derive(Default)]
pub struct Base {
    stmts: Vec<Stmt>,
    tuples: usize,
}

impl Base {
    /// Adds a statement where none of its path clashes with it and no limit is passed.
    pub fn insert(&mut self, stmt: Stmt) -> bool {
        if self.stmts.iter().any(|x| x.path == stmt.path && clash(x, &stmt)) {
            return false;
        }
        let is_new = !self.stmts.iter().any(|x| x.tuple == stmt.tuple);
        let tuples = self.tuples + usize::from(is_new);
        if tuples > 4_000 || self.stmts.len() >= 20_000 {
            return false;
        }
        match self.stmts.binary_search_by(|x| cmp_stmt(x, &stmt)) {
            Ok(_) => false,
            Err(at) => {
                self.stmts.insert(at, stmt);
                self.tuples = tuples;
                true
            }
        }
    }

    pub fn len(&self) -> usize {
        self.stmts.len()
    }
}

/// How many semicolons, quotes and line feeds stand outside texts: one look at each byte, and no memory.
pub fn scan(bytes: &[u8]) -> (usize, usize, usize) {
    let (mut ends, mut quotes, mut lines, mut in_text) = (0, 0, 0, false);
    for &byte in bytes {
        if byte == b'\'' {
            quotes += 1;
            in_text = !in_text;
        } else if !in_text {
            ends += usize::from(byte == b';');
            lines += usize::from(byte == b'\n');
        }
    }
    (ends, quotes, lines)
}

pub enum Token {
    Word(String),
    Number(String),
    Text(String),
    Mark(u8),
}

/// Cuts a script into commands, and calls `each` with a list of owned tokens for each of them.
pub fn read(bytes: &[u8], mut each: impl FnMut(&[Token])) {
    let (mut at, mut tokens) = (0, Vec::new());
    while at < bytes.len() {
        let rest = &bytes[at..];
        let len = match rest[0] {
            b'\'' => 1 + length_while(&rest[1..], |b| b != b'\'') + 1,
            b if b.is_ascii_alphabetic() => length_while(rest, |b| b.is_ascii_alphanumeric()),
            b if b.is_ascii_digit() => length_while(rest, |b| b.is_ascii_digit()),
            _ => 1,
        };
        let owned = |part: &[u8]| String::from_utf8(part.to_vec()).expect("a text");
        match rest[0] {
            b';' => {
                each(&tokens);
                tokens = Vec::new();
            }
            b' ' | b'\n' => {}
            b'\'' => tokens.push(Token::Text(owned(&rest[1..len - 1]))),
            b if b.is_ascii_alphabetic() => tokens.push(Token::Word(owned(&rest[..len]))),
            b if b.is_ascii_digit() => tokens.push(Token::Number(owned(&rest[..len]))),
            b => tokens.push(Token::Mark(b)),
        }
        at += len;
    }
}

fn length_while(bytes: &[u8], holds: impl Fn(u8) -> bool) -> usize {
    bytes.iter().position(|&b| !holds(b)).unwrap_or(bytes.len())
}

/// A number that depends on every token, so that none is left out.
pub fn weight(token: &Token) -> usize {
    match token {
        Token::Word(text) | Token::Number(text) | Token::Text(text) => text.len(),
        Token::Mark(byte) => usize::from(*byte),
    }
}
