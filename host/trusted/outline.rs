//! The outline of a source file: the definitions, types, constants and contracts that it has, and on which lines.
//!
//! It goes by the layout that both languages are written in: a line at the left begins something or goes on with it, a line further in belongs to
//! it. What it does not know is a fault, so that nothing is passed over.

use std::ops::Range;

#[derive(Clone, Copy, PartialEq)]
pub enum Kind {
    /// What stands around others: a module with parameters, an `impl`.
    Around,
    /// Types whose constructors are named in them.
    Data,
    Enum,
    /// A function of the code. What follows its contract is left out.
    Function,
    Other,
}

pub struct Item {
    pub kind: Kind,
    /// Its own name, then those of its constructors; where others may have the same name, with its type's: `Answer.Refused`.
    pub names: Vec<String>,
    /// With the comment above it.
    pub lines: Range<usize>,
    /// Where its body begins: a function's code, a definition's clauses, a theorem's proof.
    pub body: Option<usize>,
    pub around: Option<usize>,
    inset: usize,
}

/// What a line at the left is.
enum Line {
    Use,
    Begins(Kind, String),
    /// A comment, an attribute or a fixity, which belongs to what follows.
    Before,
    /// A clause, a body or an end.
    Onward,
}

pub struct Language {
    pub comment: &'static str,
    /// How a line begins on which a clause may have a name before its brace.
    pub clauses: &'static [&'static str],
    /// How much further in each level stands.
    step: usize,
    line: fn(&str) -> Line,
}

pub fn language_of(file: &str) -> Language {
    if file.ends_with(".rt") {
        Language { comment: "//", clauses: &["requires", "ensures"], step: 4, line: rattle_line }
    } else {
        Language { comment: "--", clauses: &[], step: 2, line: antt_line }
    }
}

fn without<'a>(code: &'a str, words: &[&str]) -> &'a str {
    words.iter().fold(code, |rest, word| rest.strip_prefix(word).unwrap_or(rest))
}

/// The name that code begins with.
fn first_name(code: &str) -> String {
    code.chars().take_while(|c| c.is_alphanumeric() || *c == '_').collect()
}

fn rattle_line(code: &str) -> Line {
    let item = without(code, &["pub ", "ghost ", "extern \"C\" "]);
    let (word, rest) = item.split_once(' ').unwrap_or((item, ""));
    match word {
        "use" => Line::Use,
        // What a module publishes as a whole is not known by name.
        "mod" if code == item => Line::Use,
        // A fact that an `impl` gives of its trait
        _ if code.starts_with("ghost ") && rest.starts_with("= ") => Line::Begins(Kind::Other, first_name(item)),
        _ if word == "impl" || word.starts_with("impl<") => Line::Begins(Kind::Around, first_name(rest.split_once(" for ").map_or(rest, |(_, of)| of))),
        "enum" => Line::Begins(Kind::Enum, first_name(rest)),
        "fn" => Line::Begins(Kind::Function, first_name(rest)),
        "struct" | "const" => Line::Begins(Kind::Other, first_name(rest)),
        // Of the whole file
        _ if code.starts_with("#![") => Line::Use,
        _ if code.starts_with("//") || code.starts_with("#[") => Line::Before,
        _ => Line::Onward,
    }
}

fn antt_line(code: &str) -> Line {
    let words: Vec<&str> = without(code, &["abbrev ", "unfoldable ", "pub "]).split_whitespace().collect();
    match words[..] {
        ["use" | "mod", ..] => Line::Use,
        ["module", ..] => Line::Begins(Kind::Around, String::new()),
        ["data", name, ..] => Line::Begins(Kind::Data, name.to_string()),
        ["record" | "ruleset", name, ..] | [name, ":", ..] => Line::Begins(Kind::Other, name.to_string()),
        ["--" | "infix" | "infixl" | "infixr", ..] => Line::Before,
        _ => Line::Onward,
    }
}

/// An outline as far as it has come.
struct Outline {
    language: Language,
    items: Vec<Item>,
    /// What stands around the line at hand, from outside in.
    around: Vec<usize>,
    /// Where the comment above the next item begins.
    before: Option<usize>,
    /// Whether the line above is no part of an item.
    gap: bool,
    /// Whether the names of a `use` go on.
    in_use: bool,
}

impl Outline {
    fn line(&mut self, at: usize, line: &str) -> Result<(), String> {
        let code = line.trim_start();
        if self.in_use {
            self.in_use = !code.contains('}');
            return Ok(());
        }
        if code.is_empty() {
            (self.before, self.gap) = (None, true);
            return Ok(());
        }
        let inset = line.len() - code.len();
        while self.around.last().is_some_and(|&outer| inset <= self.items[outer].inset) {
            self.around.pop();
        }
        let left = self.around.last().map_or(0, |&outer| self.items[outer].inset + self.language.step);
        if inset > left {
            return self.further_in(at, inset, code);
        }
        match (self.language.line)(code) {
            Line::Use => (self.before, self.gap, self.in_use) = (None, true, code.contains('{') && !code.contains('}')),
            Line::Before => _ = self.before.get_or_insert(at),
            Line::Begins(kind, name) => self.begin(at, inset, code, kind, name),
            Line::Onward => return self.onward(at, inset, code),
        }
        Ok(())
    }

    fn begin(&mut self, at: usize, inset: usize, code: &str, kind: Kind, name: String) {
        let around = self.around.last().copied();
        let outer = around.map_or("", |outer| &self.items[outer].names[0]);
        let name = if outer.is_empty() { name } else { format!("{outer}.{name}") };
        let body = (kind == Kind::Function && code.ends_with(" {")).then_some(at + 1);
        let lines = self.before.take().unwrap_or(at)..at + 1;
        if kind == Kind::Around {
            self.around.push(self.items.len());
        }
        self.items.push(Item { kind, names: vec![name], lines, body, around, inset });
        self.gap = false;
    }

    /// A line that goes on with the last item, from where it began.
    fn onward(&mut self, at: usize, inset: usize, code: &str) -> Result<(), String> {
        self.before = None;
        match self.items.last_mut() {
            // The end of an `impl`
            Some(item) if inset < item.inset && code == "}" => Ok(()),
            Some(item) if inset == item.inset && !self.gap => {
                item.lines.end = at + 1;
                let begins = match item.kind {
                    Kind::Function if code.ends_with(" {") => Some(at + 1),
                    Kind::Function if code != "{" => None,
                    _ => Some(at),
                };
                item.body = item.body.or(begins);
                Ok(())
            }
            _ => Err(format!("line {}: no definition: {code}", at + 1)),
        }
    }

    fn further_in(&mut self, at: usize, inset: usize, code: &str) -> Result<(), String> {
        let Some(item) = self.items.last_mut() else { return Err(format!("line {}: no definition: {code}", at + 1)) };
        (item.lines.end, self.gap) = (at + 1, false);
        if inset != item.inset + self.language.step || code.starts_with(self.language.comment) {
            return Ok(());
        }
        match item.kind {
            Kind::Enum => item.names.push(format!("{}.{}", item.names[0], first_name(code))),
            Kind::Data => item.names.extend(code.split_whitespace().take_while(|word| *word != ":").map(str::to_string)),
            _ => (),
        }
        Ok(())
    }
}

/// What each `use` of a file says, with `pub` before it where the file hands it on, and whatever the lines that it stands on.
pub fn uses_of(text: &str) -> Vec<String> {
    let mut uses: Vec<String> = Vec::new();
    let mut goes_on = false;
    for line in text.lines().map(str::trim) {
        match ["use ", "pub use ", "ghost use "].iter().find(|word| line.starts_with(**word)) {
            Some(_) => uses.push(without(line, &["ghost "]).to_string()),
            None if goes_on => uses.last_mut().expect("a use goes on").push_str(&format!(" {line}")),
            None => continue,
        }
        let said = uses.last().expect("a use");
        goes_on = said.contains('{') && !said.contains('}');
    }
    uses.iter().map(|said| said.trim_end_matches(';').replace("{ ", "{").replace(", }", "}")).collect()
}

/// The items of a file, in their order.
pub fn items_of(file: &str, text: &str) -> Result<Vec<Item>, String> {
    let language = language_of(file);
    let mut outline = Outline { language, items: Vec::new(), around: Vec::new(), before: None, gap: true, in_use: false };
    for (at, line) in text.lines().enumerate() {
        outline.line(at, line)?;
    }
    for item in &mut outline.items {
        if let (Kind::Function, Some(body)) = (item.kind, item.body) {
            item.lines.end = body;
        }
    }
    Ok(outline.items)
}
