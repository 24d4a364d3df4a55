//! Follows names: from an item to every item that it names, across the files of all crates.

use crate::outline::{items_of, language_of, uses_of, Item, Kind, Language};
use std::collections::{BTreeMap, BTreeSet};
use std::ops::Range;
use std::path::PathBuf;
use std::rc::Rc;

pub type Result<T> = std::result::Result<T, String>;

/// The toolchain's libraries, by the first parts of a module's name.
const LIBRARIES: [&str; 7] = ["Prim", "Rattle.std", "borrow", "lib", "mathlib", "mir", "native"];

/// Names with a capital letter that no `use` brings.
const BUILT_IN: [&str; 2] = ["Type", "Unit"];

/// Variables that a contract does not bind.
const GIVEN: [&str; 2] = ["result", "self"];

/// What code has of std without a `use`.
const PRELUDE: [&str; 8] = ["Option", "Some", "None", "Result", "Ok", "Err", "From", "Default"];

/// Stands for the `::` of the code while lines are cut into words.
const INSIDE: char = '\u{1f}';

/// What a name in a file stands for.
#[derive(Clone)]
enum Meaning {
    Name { file: String, name: String },
    /// A file; with a prefix, the constructors of one of its types.
    File { file: String, prefix: String },
    Library { module: String, name: String },
}

impl Meaning {
    /// The module of a `use`: `Rattle.tree.specs.Row` is tree/specs/Row.antt, `Rattle.tree.specs.declared.types.Row` a type of tree/src/types.rt.
    fn of_module(module: &str) -> Result<Meaning> {
        if LIBRARIES.iter().any(|library| module.strip_prefix(library).is_some_and(|rest| rest.is_empty() || rest.starts_with('.'))) {
            return Ok(Meaning::Library { module: module.to_string(), name: String::new() });
        }
        let Some((crate_name, rest)) = module.strip_prefix("Rattle.").and_then(|path| path.split_once('.')) else {
            return Err(format!("no such module: {module}"));
        };
        let (file, prefix) = match rest.split('.').collect::<Vec<_>>()[..] {
            ["specs", "declared", ref path @ .., name, "TheVariants"] => (source_file(path), format!("{name}.")),
            ["specs", "declared", ref path @ .., _] => (source_file(path), String::new()),
            ref path => (format!("{}.antt", path.join("/")), String::new()),
        };
        Ok(Meaning::File { file: format!("{crate_name}/{file}"), prefix })
    }

    /// The path of a `use` of the code, in a file of a crate that has these modules.
    fn of_path(file: &str, modules: &BTreeSet<String>, path: &[&str]) -> Result<Meaning> {
        let own = file.split('/').next().unwrap_or("");
        let (file, name) = match path {
            ["std", module @ .., name] => return Ok(Meaning::Library { module: [&["std"], module].concat().join("::"), name: name.to_string() }),
            ["crate", module @ .., name] => (format!("{own}/{}", source_file(module)), name),
            [module, name] if modules.contains(*module) => (format!("{own}/src/{module}.rt"), name),
            [other, name] => (format!("{other}/src/lib.rt"), name),
            _ => return Err(format!("no such form of use: {}", path.join("::"))),
        };
        Ok(Meaning::Name { file, name: name.to_string() })
    }

    /// What a name stands for inside what this is: in a file or a library, or beside a type. Inside a definition it is a field, whose type is reached with it.
    fn inner(&self, inner: &str) -> Meaning {
        match self {
            Meaning::Name { file, name } if is_type(name) => Meaning::Name { file: file.clone(), name: format!("{name}.{inner}") },
            Meaning::File { file, prefix } => match inner.split_once('.') {
                Some((first, inner)) => self.inner(first).inner(inner),
                None => Meaning::Name { file: file.clone(), name: format!("{prefix}{inner}") },
            },
            Meaning::Library { module, name } if name.is_empty() => Meaning::Library { module: module.clone(), name: inner.to_string() },
            _ => self.clone(),
        }
    }
}

/// The file of a module of the code.
fn source_file(path: &[&str]) -> String {
    if path.is_empty() { "src/lib.rt".to_string() } else { format!("src/{}.rt", path.join("/")) }
}

/// Whether a name is that of a type. A constructor is none, though it has a capital letter too.
fn is_type(name: &str) -> bool {
    !name.contains('.') && name.starts_with(|c: char| c.is_ascii_uppercase())
}

pub struct File {
    pub lines: Vec<String>,
    pub items: Vec<Item>,
    scope: BTreeMap<String, Vec<Meaning>>,
    /// What the file hands on to those that use it, beside its own items.
    published: BTreeMap<String, Meaning>,
}

/// The names that a `use` brings, with what they stand for.
fn brought(file: &str, modules: &BTreeSet<String>, code: &str) -> Result<Vec<(String, Meaning)>> {
    let renamed = |name: &str| name.split_once(" as ").map_or((name.to_string(), name.to_string()), |(name, word)| (name.to_string(), word.to_string()));
    if file.ends_with(".rt") && code.contains("::") {
        let (path, names) = match code.strip_suffix('}').and_then(|code| code.split_once("::{")) {
            Some((path, names)) => (path, names.split(", ").map(renamed).collect()),
            None => code.rsplit_once("::").map(|(path, name)| (path, vec![renamed(name)])).unwrap_or((code, Vec::new())),
        };
        let inside = |name: &str| Meaning::of_path(file, modules, &path.split("::").chain([name]).collect::<Vec<_>>());
        return names.into_iter().map(|(name, word)| Ok((word, inside(&name)?))).collect();
    }
    if let Some((module, names)) = code.strip_suffix('}').and_then(|code| code.split_once(".{")) {
        let module = Meaning::of_module(module)?;
        return Ok(names.split(", ").map(renamed).map(|(name, word)| (word, module.inner(&name))).collect());
    }
    match code.split_once(" as ") {
        Some((module, word)) => Ok(vec![(word.to_string(), Meaning::of_module(module)?)]),
        None => Err(format!("no such form of use: {code}")),
    }
}

impl File {
    fn parse(file: &str, text: &str) -> Result<File> {
        let (lines, items) = (text.lines().map(str::to_string).collect(), items_of(file, text)?);
        let own = items.iter().filter(|item| !matches!(item.kind, Kind::Around | Kind::Function)).flat_map(|item| item.names.clone());
        let own: Vec<String> = own.collect();
        let mut parsed = File { lines, items, scope: BTreeMap::new(), published: BTreeMap::new() };
        for name in own {
            parsed.know(&name, Meaning::Name { file: file.to_string(), name: name.clone() });
        }
        let modules = text.lines().filter_map(|line| Some(line.strip_prefix("mod ")?.strip_suffix(';')?.to_string())).collect();
        for said in uses_of(text) {
            let code = said.trim_start_matches("pub ").trim_start_matches("use ");
            for (word, meaning) in brought(file, &modules, code)? {
                if said.starts_with("pub ") {
                    parsed.published.insert(word.clone(), meaning.clone());
                }
                parsed.know(&word, meaning);
            }
        }
        Ok(parsed)
    }

    /// Knows a name. An operator is known by its parts too: `◌gives◌` by `gives`.
    fn know(&mut self, word: &str, meaning: Meaning) {
        let parts = word.split('◌').filter(|part| !part.is_empty() && *part != word);
        for word in parts.chain([word]) {
            self.scope.entry(word.to_string()).or_default().push(meaning.clone());
        }
    }

    /// All that a word may stand for. In the code it may begin with the name of another crate.
    fn meanings(&self, word: &str) -> Vec<Meaning> {
        let known = |word: &str| self.scope.get(word).cloned().unwrap_or_default();
        let dotted = word.replace(INSIDE, ".");
        let Some((first, inner)) = dotted.split_once('.').filter(|_| !self.scope.contains_key(&dotted)) else { return known(&dotted) };
        let found: Vec<Meaning> = known(first).iter().map(|meaning| meaning.inner(inner)).collect();
        if found.is_empty() && word.contains(INSIDE) {
            return vec![Meaning::Name { file: format!("{first}/src/lib.rt"), name: inner.to_string() }];
        }
        found
    }
}

fn is_in_name(c: char) -> bool {
    c.is_alphanumeric() || c == INSIDE || "_-'.".contains(c)
}

/// The name that a word begins with, before its first dot.
fn first_part(word: &str) -> &str {
    word.split('.').next().unwrap_or(word)
}

/// Whether a word may stand for itself, in lines that have these words. What has a capital letter is a type or stands in another file, and has to be
/// found. So has what has a dot, unless a variable stands before it, which is bound somewhere and so stands there by itself, too.
fn may_be_variable(word: &str, words: &BTreeSet<String>) -> bool {
    if !word.chars().all(is_in_name) || BUILT_IN.contains(&word) {
        return true;
    }
    let first = first_part(word);
    if word.contains(INSIDE) || first.len() > 1 && first.starts_with(|c: char| c.is_ascii_uppercase()) {
        return false;
    }
    first == word || words.contains(first) || GIVEN.contains(&first)
}

/// A line without its comment, and a clause without its name; an attribute is for the compiler.
fn outside(line: &str, language: &Language) -> String {
    if line.trim_start().starts_with("#[") {
        return String::new();
    }
    let code = format!(" {line}").split(&format!(" {}", language.comment)).next().unwrap_or("").replace("::", &INSIDE.to_string());
    match language.clauses.iter().find(|word| code.trim_start().starts_with(**word)).and(code.split_once('{')) {
        Some((_, clause)) => clause.to_string(),
        None => code,
    }
}

/// The words of some lines that may be names. Fields of what stands in brackets are left out: their types are reached with the record.
fn words(lines: &[String], language: &Language) -> BTreeSet<String> {
    let code: String = lines.iter().map(|line| outside(line, language) + "\n").collect();
    let spaced = code.split(|c: char| c.is_whitespace() || "(){},;⌜⌝«»".contains(c));
    // Signs may be part of a name, as in `[]`, or stand beside one, as in `head:`. So both the word and the names in it are taken.
    let names = spaced.flat_map(|word| word.split(|c: char| !is_in_name(c)).chain((!word.contains(['.', INSIDE])).then_some(word)));
    let trimmed = names.map(|word| word.trim_end_matches('.')).filter(|word| !word.is_empty() && !word.starts_with('.'));
    trimmed.map(str::to_string).collect()
}

/// What has been read and what has been reached so far.
pub struct Reader {
    crates: PathBuf,
    files: BTreeMap<String, Rc<File>>,
    /// By file, the lines of each item that is reached.
    pub reached: BTreeMap<String, BTreeMap<usize, Range<usize>>>,
    pub libraries: BTreeMap<String, BTreeSet<String>>,
}

impl Reader {
    pub fn new(crates: &str) -> Reader {
        Reader { crates: PathBuf::from(crates), files: BTreeMap::new(), reached: BTreeMap::new(), libraries: BTreeMap::new() }
    }

    pub fn load(&mut self, file: &str) -> Result<Rc<File>> {
        if !self.files.contains_key(file) {
            let text = std::fs::read_to_string(self.crates.join(file)).map_err(|fault| format!("{file}: {fault}"))?;
            let parsed = File::parse(file, &text).map_err(|fault| format!("{file}: {fault}"))?;
            self.files.insert(file.to_string(), Rc::new(parsed));
        }
        Ok(self.files[file].clone())
    }

    /// The file that has the item of a name, and its place there. What a file hands on is found where it stands.
    pub fn find(&mut self, file: &str, name: &str) -> Result<(String, usize)> {
        let source = self.load(file)?;
        let has = |item: &Item| item.kind != Kind::Around && item.names.iter().any(|own| own == name);
        if let Some(at) = source.items.iter().position(has) {
            return Ok((file.to_string(), at));
        }
        let handed_on = match name.split_once('.') {
            Some((first, inner)) => source.published.get(first).map(|meaning| meaning.inner(inner)),
            None => source.published.get(name).cloned(),
        };
        match handed_on {
            Some(Meaning::Name { file, name }) => self.find(&file, &name),
            _ => Err(format!("{file} has no {name}")),
        }
    }

    /// Every function that a crate publishes: those that its lib.rt hands on, and those for C.
    pub fn functions_of(&mut self, crate_name: &str) -> Result<Vec<(String, usize)>> {
        let library = format!("{crate_name}/src/lib.rt");
        let mut items = BTreeSet::new();
        for name in self.load(&library)?.published.keys() {
            items.insert(self.find(&library, name)?);
        }
        for entry in std::fs::read_dir(self.crates.join(crate_name).join("src")).map_err(|fault| format!("{crate_name}: {fault}"))? {
            let file = format!("{crate_name}/src/{}", entry.map_err(|fault| fault.to_string())?.file_name().to_string_lossy());
            let source = self.load(&file)?;
            let begins = |at: usize, word: &str| source.lines[source.items[at].lines.clone()].iter().any(|line| line.starts_with(word));
            let published = |&at: &usize| begins(at, "pub extern \"C\" fn ") || file == library && begins(at, "pub fn ");
            items.extend((0..source.items.len()).filter(published).map(|at| (file.clone(), at)));
        }
        let mut functions = Vec::new();
        for (file, at) in items {
            functions.extend((self.load(&file)?.items[at].kind == Kind::Function).then_some((file, at)));
        }
        if functions.is_empty() { Err(format!("{crate_name} publishes no function")) } else { Ok(functions) }
    }

    /// Fails where a `use` of a file brings what is not there, whether it is needed or not.
    fn check_uses(&mut self, file: &str) -> Result<()> {
        for meaning in self.load(file)?.scope.values().flatten() {
            match meaning {
                Meaning::Name { file, name } => _ = self.find(file, name)?,
                Meaning::File { file, .. } => _ = self.load(file)?,
                Meaning::Library { .. } => (),
            }
        }
        Ok(())
    }

    /// Reaches an item, of which these lines count, and all that they name.
    pub fn follow(&mut self, file: &str, at: usize, lines: Range<usize>) -> Result<()> {
        if !self.reached.contains_key(file) {
            self.check_uses(file).map_err(|fault| format!("{file}: {fault}"))?;
        }
        let items = self.reached.entry(file.to_string()).or_default();
        if items.contains_key(&at) {
            return Ok(());
        }
        items.insert(at, lines.clone());
        let source = self.load(file)?;
        let item = &source.items[at];
        if let Some(around) = item.around {
            self.follow(file, around, source.items[around].lines.clone())?;
        }
        let language = language_of(file);
        let there = words(&source.lines[lines.clone()], &language);
        // What stands around binds variables too.
        let mut near = there.clone();
        let mut around = item.around;
        while let Some(outer) = around.map(|outer| &source.items[outer]) {
            near.extend(words(&source.lines[outer.lines.clone()], &language));
            around = outer.around;
        }
        for word in there {
            let meanings = source.meanings(&word);
            let own = item.names.iter().any(|name| name.rsplit('.').next() == Some(&word));
            if meanings.is_empty() && !own && file.ends_with(".rt") && PRELUDE.contains(&word.as_str()) {
                self.libraries.entry("std::prelude".to_string()).or_default().insert(word);
                continue;
            }
            if meanings.is_empty() && !own && !may_be_variable(&word, &near) {
                return Err(format!("{file}: nothing is known of {}", word.replace(INSIDE, "::")));
            }
            // A variable may have the name under which a file is used: then what cannot be found there is its field.
            let is_field = word.contains('.') && near.contains(first_part(&word));
            for meaning in meanings {
                if !is_field || self.is_there(&meaning) {
                    self.follow_meaning(meaning).map_err(|fault| format!("{file}: {fault}"))?;
                }
            }
        }
        Ok(())
    }

    fn is_there(&mut self, meaning: &Meaning) -> bool {
        match meaning {
            Meaning::Name { file, name } => self.find(file, name).is_ok(),
            _ => true,
        }
    }

    fn follow_meaning(&mut self, meaning: Meaning) -> Result<()> {
        match meaning {
            Meaning::Library { module, name } => _ = self.libraries.entry(module).or_default().insert(name),
            Meaning::File { .. } => (),
            Meaning::Name { file, name } => {
                let (file, at) = self.find(&file, &name)?;
                let item = &self.load(&file)?.items[at];
                // Nothing that is believed can name a function of the code, but it may name a definition that is called as one.
                if item.kind != Kind::Function {
                    self.follow(&file, at, item.lines.clone())?;
                }
            }
        }
        Ok(())
    }
}
