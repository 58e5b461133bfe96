//! Writes each line of a file. A line that lost all that it had is a comment, or docs of its function if it belongs to a contract.
use super::FOLD_END;
use super::file::File;
use super::tokens::Kind::{Newline, Space};
use super::tokens::{State, Token};

impl File<'_> {
    pub fn written(&self) -> String {
        // Within a contract: the indent of its first line.
        let (mut out, mut contract) = (String::new(), None);
        for line in self.all.split(|it| it.kind == Newline) {
            let raw: String = line.iter().map(|it| it.text.as_str()).collect();
            let (indent, text) = raw.split_at(raw.len() - raw.trim_start().len());
            let first = line.iter().find(|it| it.kind != Space && it.state != State::Stays);
            if first.is_none() || line.iter().any(|it| it.kind != Space && it.state == State::Stays || !it.before.is_empty()) {
                out += what_is_left(line).trim_end();
            } else if first.is_some_and(|it| it.state == State::Contract) {
                let first = contract.take().unwrap_or(indent.to_string());
                match text {
                    "```" => out += &format!("{first}#![doc = {FOLD_END:?}]"),
                    _ => out += &format!("{first}//! {}{text}", indent.strip_prefix(&first).unwrap_or("")),
                }
                contract = (text != "```").then_some(first);
            } else {
                out += &format!("{indent}// {}", text.trim_start_matches('/').trim_start());
            }
            out.push('\n');
        }
        out.pop();
        out
    }
}

/// What is left of a line, without the spaces around what was taken out.
fn what_is_left(line: &[Token]) -> String {
    let (mut out, mut cut) = (String::new(), false);
    for it in line {
        if it.kind == Space && cut && (out.trim().is_empty() || out.ends_with([' ', '(', '[', '{', '<'])) {
            continue;
        }
        if it.state == State::Stays && cut && matches!(it.text.as_str(), "," | ";" | ")" | ">" | "]") {
            out.truncate(out.trim_end().len());
        }
        out += &it.before;
        if it.state == State::Stays {
            out += &it.text;
            out += &it.after;
        }
        cut = it.state != State::Stays && it.before.is_empty() || it.kind == Space && cut;
    }
    out
}
