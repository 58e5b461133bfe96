//! A file of Rattle as tokens, with the spaces and comments between them.
use super::{Outcome, refuse};

#[derive(Clone, Copy, PartialEq)]
pub enum Kind {
    Word,
    /// A literal, an operator, a lifetime or a closing bracket.
    Other,
    /// An opening bracket.
    Open,
    Space,
    Newline,
    /// `// ..`
    Comment,
    /// `/// ..`
    Doc,
    /// `//! ..`
    InnerDoc,
}
use Kind::*;

/// What becomes of a token.
#[derive(Clone, Copy, PartialEq)]
pub enum State {
    Stays,
    /// It is left out. If its line has nothing else, the line becomes a comment.
    Gone,
    /// It belongs to a contract, which becomes docs of its function.
    Contract,
}

pub struct Token {
    pub kind: Kind,
    pub text: String,
    pub line: usize,
    /// The place of the bracket that belongs to this one. Other tokens have `usize::MAX`.
    pub mate: usize,
    pub state: State,
    /// What is written before the token, and behind it.
    pub before: String,
    pub after: String,
}

/// Operators of more than one character.
const OPERATORS: &[&str] = &["..=", "->", "=>", "::", "..", "==", "!=", "<=", ">=", "&&", "||", "+=", "-=", "*="];

/// Returns the kind of the token that begins at a place, and where it ends.
fn token_at(chars: &[char], at: usize, line: usize) -> Outcome<(Kind, usize)> {
    let is_word = |c: char| c == '_' || c.is_alphanumeric();
    let past = |from: usize, f: &dyn Fn(char) -> bool| (from..chars.len()).find(|&n| !f(chars[n])).unwrap_or(chars.len());
    let (c, next) = (chars[at], chars.get(at + 1).copied().unwrap_or(' '));
    Ok(match c {
        '\n' => (Newline, at + 1),
        ' ' => (Space, past(at, &|c| c == ' ')),
        '/' if next == '/' => {
            let kind = match chars.get(at + 2) {
                Some('/') => Doc,
                Some('!') => InnerDoc,
                _ => Comment,
            };
            (kind, past(at, &|c| c != '\n'))
        }
        '\t' | '\r' => return refuse(line, "a tab, or a carriage return at the end of a line"),
        '/' if next == '*' => return refuse(line, "a comment in `/* */`"),
        '"' => (Other, end_of_text(chars, at, line)?),
        '\'' if next == '\\' || chars.get(at + 2) == Some(&'\'') => return refuse(line, "a character as a literal"),
        '\'' => (Other, past(at + 1, &is_word)),
        '(' | '[' | '{' => (Open, at + 1),
        c if c.is_ascii_digit() => (Other, past(at, &is_word)),
        c if is_word(c) => match past(at, &is_word) {
            end if matches!(chars.get(end), Some('"' | '#')) => return refuse(line, "a literal with a prefix"),
            end => (Word, end),
        },
        _ => {
            let rest: String = chars[at..chars.len().min(at + 3)].iter().collect();
            (Other, at + OPERATORS.iter().find(|it| rest.starts_with(**it)).map_or(1, |it| it.len()))
        }
    })
}

/// Returns where the text in `"` that begins at a place ends.
fn end_of_text(chars: &[char], at: usize, line: usize) -> Outcome<usize> {
    let mut end = at + 1;
    while chars.get(end).is_some_and(|&c| c != '"') {
        if chars[end] == '\n' {
            return refuse(line, "a text over several lines");
        }
        end += if chars[end] == '\\' { 2 } else { 1 };
    }
    Ok((end + 1).min(chars.len()))
}

/// Splits a text into tokens.
pub fn tokens(text: &str) -> Outcome<Vec<Token>> {
    let chars: Vec<char> = text.chars().collect();
    let (mut out, mut open, mut at, mut line) = (Vec::<Token>::new(), Vec::<usize>::new(), 0, 1);
    while at < chars.len() {
        let (kind, end) = token_at(&chars, at, line)?;
        let mut mate = usize::MAX;
        if kind == Open {
            open.push(out.len());
        } else if ")]}".contains(chars[at]) {
            let Some(from) = open.pop() else {
                return refuse(line, "a bracket that closes nothing");
            };
            if !matches!((out[from].text.as_str(), chars[at]), ("(", ')') | ("[", ']') | ("{", '}')) {
                return refuse(line, "a bracket of another kind");
            }
            (out[from].mate, mate) = (out.len(), from);
        }
        let text = chars[at..end].iter().collect();
        out.push(Token { kind, text, line, mate, state: State::Stays, before: String::new(), after: String::new() });
        at = end;
        line += usize::from(kind == Newline);
    }
    match open.pop() {
        Some(from) => refuse(out[from].line, "a bracket that is not closed"),
        None => Ok(out),
    }
}
