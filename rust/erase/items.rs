//! What is erased by the kind of its item: contracts, laws, ghost items, `impl Model` and `impl Drop`.
use super::file::File;
use super::tokens::Kind::{Comment, Open, Word};
use super::tokens::State;
use super::{DROP_STATEMENTS, FOLD_END, Outcome, TRAITS, fold};

/// An item: its first token, its keyword, its body's bracket or its `;`, and its end.
pub struct Item {
    pub start: usize,
    word: usize,
    body: usize,
    end: usize,
}

impl File<'_> {
    /// The last bracket of a clause of a contract, if one begins at this place.
    fn clause(&self, at: usize) -> Option<usize> {
        let open = self.past(self.past(self.next(at), "*"), "◌");
        (matches!(self.text(at), "ensures" | "requires") && self.text(open) == "{").then(|| self.all[open].mate)
    }

    /// Reads the items of a range.
    pub fn items(&self, from: usize, to: usize) -> Outcome<Vec<Item>> {
        let (mut out, mut at) = (Vec::new(), self.code_from(from));
        while at < to {
            let item = self.item(at, to)?;
            at = self.code_from(item.end);
            out.push(item);
        }
        Ok(out)
    }

    fn item(&self, start: usize, to: usize) -> Outcome<Item> {
        let mut at = start;
        while self.text(at) == "#" {
            match self.past(self.past(self.next(at), "!"), "[…]") {
                next if next == self.next(at) => return self.refuse(at, "an attribute without its bracket"),
                next => at = next,
            }
        }
        let mut word = self.past(self.past(at, "pub (…)"), "pub");
        if self.past(word, "const fn") > word {
            word = self.next(word);
        }
        let may_have_body = match self.text(word) {
            "struct" | "enum" | "trait" | "impl" | "fn" => true,
            "use" | "mod" | "const" | "type" | "ghost" => false,
            _ => return self.refuse(word, "an item of a kind that is not known"),
        };
        let mut body = self.next(word);
        while !(self.text(body) == ";" || may_have_body && self.text(body) == "{") {
            if body >= to {
                return self.refuse(word, "an item without its end");
            }
            let is_open = self.all[body].kind == Open;
            body = self.next(self.clause(body).unwrap_or(if is_open { self.all[body].mate } else { body }));
        }
        let end = if self.text(body) == "{" { self.all[body].mate + 1 } else { body + 1 };
        Ok(Item { start, word, body, end })
    }

    /// Reads the items in the body of one.
    fn inner(&self, item: &Item) -> Outcome<Vec<Item>> {
        if self.text(item.body) == ";" { Ok(Vec::new()) } else { self.items(item.body + 1, self.all[item.body].mate) }
    }

    /// Erases items one by one. Returns the lines of the laws among them, which only a trait has.
    pub fn erase_items(&mut self, items: Vec<Item>, of_trait: bool) -> Outcome<String> {
        let mut laws = Vec::new();
        for item in items {
            match self.text(item.word) {
                "ghost" => laws.extend(self.ghost(&item)?.filter(|_| of_trait)),
                "trait" => {
                    let laws = self.erase_items(self.inner(&item)?, true)?;
                    if !laws.is_empty() {
                        self.write_docs(item.start, "Laws", &laws);
                    }
                }
                "impl" => self.implementation(&item)?,
                "fn" => {
                    let says = (item.start..item.word).any(|at| self.is_code(at) && matches!(self.text(at), "inline" | "cold"));
                    // A rule may have said it before.
                    if self.text(item.body) == "{" && !says && !self.all[item.start].before.contains("inline") {
                        self.all[item.start].before.push_str("#[inline] ");
                    }
                    self.contract(&item)?;
                }
                _ => {}
            }
        }
        Ok(laws.join("\n"))
    }

    /// Takes a ghost item out. Returns its lines if it is `ghost NAME: ..`, which in a trait is a law.
    fn ghost(&mut self, item: &Item) -> Outcome<Option<String>> {
        let name = self.next(item.word);
        let mark = self.text(self.next(name));
        let is_law = self.all[name].kind == Word && mark == ":";
        if self.text(name) != "use" && !is_law && !(self.all[name].kind == Word && mark == "=") {
            return self.refuse(name, "a ghost item of a form that is not known");
        }
        let lines = is_law.then(|| self.lines(self.comments_above(item.start, Comment), item.end));
        self.take(item.start, item.end);
        Ok(lines)
    }

    /// Writes lines as docs before an item, on its line.
    fn write_docs(&mut self, start: usize, title: &str, lines: &str) {
        let docs = format!("#[doc = {:?}] ", format!("{}\n{lines}\n{FOLD_END}", fold(title)));
        self.all[start].before.insert_str(0, &docs);
    }

    /// Makes the contract of a function its docs. The `{` of the body moves before the clauses, so that they are docs in the body, at
    /// their own lines.
    fn contract(&mut self, item: &Item) -> Outcome<()> {
        let Some(at) = (item.word..item.body).find(|&at| self.is_code(at) && self.clause(at).is_some()) else { return Ok(()) };
        let (first, mut next, mut count) = (self.comments_above(at, Comment), at, 0);
        while next < item.body {
            match self.clause(next).filter(|_| self.begins_line(next)) {
                Some(last) => (next, count) = (self.next(last), count + 1),
                None => return self.refuse(next, "a clause of a form that is not known"),
            }
        }
        let head = self.previous(first).unwrap_or(item.word);
        let title = format!("Proved: {count} clause{}", if count == 1 { "" } else { "s" });
        if self.text(item.body) == ";" {
            let lines = self.lines(first, item.body);
            self.write_docs(item.start, &title, &lines);
            self.set(first, item.body + 1, State::Gone);
            self.all[head].after = ";".into();
        } else if self.begins_line(item.body) {
            self.all[head].after = format!(" {{ #![doc = {:?}]", fold(&title));
            self.set(first, item.body + 1, State::Contract);
            self.all[item.body].text = "```".into();
        } else {
            return self.refuse(item.body, "a body on the line of a clause");
        }
        Ok(())
    }

    /// The trait of an `impl`, if it has one: the word before its `for`, and before what is in angles there.
    fn trait_of(&self, item: &Item) -> Option<usize> {
        let of = (item.word..item.body).find(|&at| self.is_code(at) && self.text(at) == "for" && self.text(self.next(at)) != "<")?;
        let (mut at, mut depth) = (of, 0);
        loop {
            at = self.previous(at)?;
            match self.text(at) {
                ">" => depth += 1,
                "<" => depth -= 1,
                _ if depth == 0 => return Some(at),
                _ => {}
            }
        }
    }

    /// Erases an `impl`. One of `Model`, which is ghost alone, or of `Drop`, which may only do what the drops of the fields do, goes whole.
    fn implementation(&mut self, item: &Item) -> Outcome<()> {
        let inner = self.inner(item)?;
        let Some(at) = self.trait_of(item) else { return self.erase_items(inner, false).map(drop) };
        let name = self.text(at).to_string();
        let is_ghost = |it: &Item| self.text(it.word) == "ghost";
        match name.as_str() {
            "Model" | "Drop" if item.start < item.word => return self.refuse(item.start, "an attribute of an item that is taken out"),
            "Model" if inner.iter().all(is_ghost) => {}
            "Drop" => {
                let functions: Vec<&Item> = inner.iter().filter(|it| !is_ghost(it)).collect();
                for it in functions {
                    self.only_takes_apart(it)?;
                }
            }
            name if !self.names.contains(&format!("trait {name}")) && !self.knows("trait", TRAITS, name) => {
                return self.refuse(at, "a trait that is not known");
            }
            _ => return self.erase_items(inner, false).map(drop),
        }
        self.take(item.start, item.end);
        Ok(())
    }

    /// Refuses a `drop` that does more than the drops of the fields do.
    fn only_takes_apart(&mut self, item: &Item) -> Outcome<()> {
        let mut at = self.next(item.body);
        while at < self.all[item.body].mate {
            let known = DROP_STATEMENTS.iter().find_map(|it| self.matched(at, &it.split(' ').collect::<Vec<_>>()).map(|found| (it, found.end)));
            match known {
                Some((it, end)) if self.text(end) == ";" => {
                    self.used.insert(format!("statement {it}"));
                    at = self.next(end);
                }
                _ => return self.refuse(at, "a `Drop` that does more than take apart"),
            }
        }
        Ok(())
    }
}
