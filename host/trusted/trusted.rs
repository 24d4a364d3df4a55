//! What has to be believed, as a list in Markdown: from the public contracts every name is followed to the definition or the type that it stands
//! for, and the files that have these are listed with their sizes.
//!
//! trusted CRATES [ROOT..]
//!   CRATES  the folder of the crates
//!   ROOT    where to start instead of at ROOTS: a crate, for each function that it publishes, or FILE:NAME, for a definition or a theorem

mod follow;
mod outline;

use follow::{Reader, Result};
use outline::Kind;
use std::collections::{BTreeMap, BTreeSet};
use std::process::ExitCode;

/// The public contracts: what each is, and where it stands.
const ROOTS: [(&str, &str); 17] = [
    ("the calls that only read", "tree_lookups"),
    ("the calls that only read", "queries"),
    ("opening a store", "opening"),
    ("the calls that write", "updates"),
    ("the calls for C", "firmware"),
    ("bursts of starts and ends on lent slices", "burst"),
    ("the registers of a block on lent bytes", "registers"),
    ("lists of calls, bursts and accesses to the block for C", "firmware/proofs/ExportedLists.antt:exported_list"),
    ("packets of commands for C, one after the other", "firmware/proofs/PacketLaws.antt:exported_packets"),
    ("a piece of the command stream on lent slices", "pieces"),
    ("the command program", "command/specs/Stream.antt:output"),
    ("any pieces of the stream", "command/proofs/AnyPieces.antt:any_pieces"),
    ("a run of the program", "turns/specs/Turns.antt:Served"),
    ("a run that an error ends", "turns/specs/Turns.antt:CutShort"),
    ("demand 3, of calls", "store/proofs/Main.antt:demand_3"),
    ("demand 3, of calls, bursts and accesses to the block", "demand/proofs/Main.antt:demand_3_of_steps"),
    ("the table of trials", "trials_proved/proofs/Table.antt:table"),
];

const HEAD: &str = "# What has to be believed

The public contracts, and the definitions that they rest on. `host/trusted/run` writes this list, and the gate compares it. From the contracts every
name is followed to the definition or the type that it stands for, and on from there. Paths are below `crates/`. What is assumed beside this
stands at the end of `docs/TRACE.md`.

A contract counts with its comment, its signature and its clauses, a theorem with its statement, a type of the code with its declaration. A
specification file counts with all its lines. Of these, \"reached\" are the lines of definitions that some contract rests on, each with the comment
above it. Definitions that are not reached stand there for contracts of inner functions or for proofs. A variable that has the name of a
definition counts as that definition, so the list may have too much, but not too little.
";

/// Items of one file: how many lines they have, and their names.
#[derive(Default)]
struct Part {
    lines: usize,
    names: Vec<String>,
}

impl Part {
    fn add(&mut self, lines: usize, kind: Kind, name: &str) {
        self.lines += lines;
        // What stands around others is named by them.
        self.names.extend((kind != Kind::Around).then(|| quoted(name)));
    }
}

/// A table with its title, and what its lines add up to.
struct Table {
    text: String,
    lines: usize,
}

impl Table {
    fn new(title: &str, columns: &[&str]) -> Table {
        Table { text: format!("\n## {title}\n\n| {} |\n|{}\n", columns.join(" | "), "---|".repeat(columns.len())), lines: 0 }
    }

    fn row(&mut self, lines: usize, cells: &[&str]) {
        self.text += &format!("| {} |\n", cells.join(" | "));
        self.lines += lines;
    }
}

/// A name as Markdown has it, in a table where a bar would end the cell.
fn quoted(name: &str) -> String {
    format!("`{}`", name.replace('|', "\\|"))
}

fn is_specification(file: &str) -> bool {
    file.contains("/specs/")
}

/// Follows the contracts; the table has them, and the set says which items they are. A definition among them is counted with its file.
fn contracts(reader: &mut Reader, roots: &[(&str, &str)]) -> Result<(Table, BTreeSet<(String, usize)>)> {
    let mut table = Table::new("Contracts and claims", &["what", "file", "names", "lines"]);
    let mut all = BTreeSet::new();
    for (what, root) in roots {
        let items = match root.split_once(':') {
            Some((file, name)) => vec![reader.find(file, name)?],
            None => reader.functions_of(root)?,
        };
        let mut parts: BTreeMap<String, Part> = BTreeMap::new();
        for (file, at) in items {
            let item = &reader.load(&file)?.items[at];
            let proof = item.body.filter(|_| file.contains("/proofs/"));
            let lines = item.lines.start..proof.unwrap_or(item.lines.end);
            reader.follow(&file, at, lines.clone())?;
            parts.entry(file.clone()).or_default().add(lines.len(), item.kind, &item.names[0]);
            all.insert((file, at));
        }
        for (file, part) in parts {
            let lines = if is_specification(&file) { 0 } else { part.lines };
            let cell = if lines == 0 { "below".to_string() } else { lines.to_string() };
            table.row(lines, &[what, &quoted(&file), &part.names.join(", "), &cell]);
        }
    }
    Ok((table, all))
}

/// The specification files, and how many of their lines are of definitions that are reached, and of others.
fn specifications(reader: &mut Reader) -> Result<(Table, usize, usize)> {
    let mut table = Table::new("Specification files", &["file", "lines", "reached", "not reached"]);
    let (mut reached, mut others) = (0, 0);
    for (file, items) in reader.reached.clone().into_iter().filter(|(file, _)| is_specification(file)) {
        let source = reader.load(&file)?;
        let (mut there, mut rest) = (Part::default(), Part::default());
        for (at, item) in source.items.iter().enumerate() {
            let part = if items.contains_key(&at) { &mut there } else { &mut rest };
            part.add(item.lines.len(), item.kind, &item.names[0]);
        }
        let lines = source.lines.len();
        table.row(lines, &[&quoted(&file), &lines.to_string(), &there.lines.to_string(), &rest.names.join(", ")]);
        (reached, others) = (reached + there.lines, others + rest.lines);
    }
    Ok((table, reached, others))
}

/// What is reached elsewhere: types of the code, and what a statement needs of its own file.
fn elsewhere(reader: &mut Reader, roots: &BTreeSet<(String, usize)>) -> Result<Table> {
    let mut table = Table::new("Types of the code, and definitions beside a theorem", &["file", "names", "lines"]);
    for (file, items) in reader.reached.clone().into_iter().filter(|(file, _)| !is_specification(file)) {
        let source = reader.load(&file)?;
        let mut part = Part::default();
        for (at, lines) in items.into_iter().filter(|(at, _)| !roots.contains(&(file.clone(), *at))) {
            part.add(lines.len(), source.items[at].kind, &source.items[at].names[0]);
        }
        if part.lines > 0 {
            table.row(part.lines, &[&quoted(&file), &part.names.join(", "), &part.lines.to_string()]);
        }
    }
    Ok(table)
}

/// What is believed with the toolchain.
fn libraries(reader: &Reader) -> Table {
    let mut table = Table::new("Libraries of the toolchain", &["module", "names"]);
    for (module, names) in &reader.libraries {
        table.row(0, &[&quoted(module), &names.iter().map(|name| quoted(name)).collect::<Vec<_>>().join(", ")]);
    }
    table
}

/// A number with a comma where it has thousands.
fn said(number: usize) -> String {
    if number < 1000 { number.to_string() } else { format!("{},{:03}", number / 1000, number % 1000) }
}

fn list(crates: &str, roots: &[(&str, &str)]) -> Result<String> {
    let mut reader = Reader::new(crates);
    let (contracts, roots) = contracts(&mut reader, roots)?;
    let (specifications, reached, others) = specifications(&mut reader)?;
    let elsewhere = elsewhere(&mut reader, &roots)?;
    let files = reader.reached.keys().filter(|file| is_specification(file)).count();
    let sum = format!(
        "\n{files} specification files have **{} lines**: {} are reached, {} are of definitions that are not, {} are `use`, files' own comments \
         and empty\nlines. Beside them are {} lines of types and definitions elsewhere, and {} of contracts and claims: {} in all.\n",
        said(specifications.lines),
        said(reached),
        said(others),
        said(specifications.lines - reached - others),
        said(elsewhere.lines),
        said(contracts.lines),
        said(specifications.lines + elsewhere.lines + contracts.lines),
    );
    let tables = [contracts, specifications, elsewhere, libraries(&reader)].map(|table| table.text);
    Ok(format!("{HEAD}{sum}{}", tables.concat()))
}

fn main() -> ExitCode {
    let arguments: Vec<String> = std::env::args().collect();
    let Some(crates) = arguments.get(1) else {
        eprintln!("use: trusted CRATES [ROOT..]");
        return ExitCode::from(2);
    };
    let named: Vec<(&str, &str)> = arguments[2..].iter().map(|root| (root.as_str(), root.as_str())).collect();
    match list(crates, if named.is_empty() { &ROOTS } else { &named }) {
        Ok(text) => {
            print!("{text}");
            ExitCode::SUCCESS
        }
        Err(fault) => {
            eprintln!("trusted: {fault}");
            ExitCode::FAILURE
        }
    }
}
