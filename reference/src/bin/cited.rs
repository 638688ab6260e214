//! Sees that what the documents cite exists: `cited TOP`, where TOP is the
//! project's folder. Reads README.md and docs/*.md there.
//!
//! A citation is a text between backquotes: `crate::function`, `File.name`, a
//! path, or a name alone; or `crate/edit` anywhere, with further edits of that
//! crate behind a comma. In a table a name alone belongs to a file or crate
//! that its row names before it.

use std::collections::{BTreeMap, BTreeSet};
use std::fs;
use std::path::{Path, PathBuf};
use std::process::ExitCode;

type Names = BTreeSet<String>;

/// What there is to cite.
#[derive(Default)]
struct Tree {
    /// Every file and folder, from the top, without a slash at its end.
    paths: Names,
    /// The names that each file declares.
    files: BTreeMap<String, Names>,
    crates: Names,
    /// `crate/edit`.
    edits: Names,
    /// Names of the crates' files and folders, without what follows a dot.
    stems: Names,
    /// Targets of the Makefile, scripts, programs, and words of the toolchain.
    words: Names,
}

/// What a name alone belongs to: one of these parts of paths. Where there is
/// none it may be anywhere.
type Context = Vec<String>;

fn main() -> ExitCode {
    let top = std::env::args().nth(1).unwrap_or_else(|| ".".to_string());
    let tree = Tree::of(Path::new(&top));
    let mut documents = vec!["README.md".to_string()];
    documents.extend(tree.paths.iter().filter(|path| path.starts_with("docs/") && path.ends_with(".md")).cloned());
    let (mut seen, mut wrong) = (0, 0);
    for document in documents {
        let Ok(text) = fs::read_to_string(Path::new(&top).join(&document)) else { continue };
        for (number, line) in (1..).zip(text.lines()).filter(|(_, line)| !line.starts_with("    ")) {
            for citation in tree.citations(line) {
                seen += 1;
                if let Some(complaint) = tree.complaint(&citation) {
                    println!("{document}:{number}: {complaint}");
                    wrong += 1;
                }
            }
        }
    }
    println!("{seen} citations, {wrong} of something that is not there");
    if wrong == 0 {
        ExitCode::SUCCESS
    } else {
        ExitCode::FAILURE
    }
}

// ---- citations of a line

enum Citation {
    Quoted(String, Context),
    Edit(String),
}

fn is_module(word: &str) -> bool {
    word.starts_with(|letter: char| letter.is_ascii_uppercase())
}

fn is_edit(word: &str) -> bool {
    word.contains('_') && word.bytes().all(|byte| byte.is_ascii_lowercase() || byte.is_ascii_digit() || byte == b'_')
}

/// `crate/edit`, and the words with an underscore that follow behind commas.
fn edits(text: &str) -> Vec<String> {
    let mut all: Vec<String> = Vec::new();
    let mut of: Option<String> = None;
    for piece in text.split([',', ';', '(', ')', ':']) {
        // A sentence may lead up to an edit, or follow it.
        for word in piece.split_whitespace() {
            let word = word.trim_end_matches('.');
            match word.split_once('/') {
                Some((first, edit)) if is_edit(edit) || edit == "*" => {
                    all.push(word.to_string());
                    of = Some(first.to_string());
                }
                _ if is_edit(word) => all.extend(of.iter().map(|first| format!("{first}/{word}"))),
                _ => (),
            }
        }
    }
    all
}

// ---- what there is

impl Tree {
    fn of(top: &Path) -> Tree {
        let mut tree = Tree::default();
        tree.walk(top, top);
        for path in &tree.paths {
            let parts: Vec<&str> = path.split('/').collect();
            let stem = parts.last().and_then(|file| file.split('.').next()).unwrap_or_default().to_string();
            match parts[..] {
                ["crates", _] => tree.crates.insert(stem),
                ["crates", name, "must-fail", _] | ["tried", name, _] => tree.edits.insert(format!("{name}/{stem}")),
                ["reference", "src", "bin", _] | ["scripts", _] => tree.words.insert(stem),
                ["crates", _, .., _] => tree.stems.insert(stem),
                _ => false,
            };
        }
        let makefile = fs::read_to_string(top.join("Makefile")).unwrap_or_default();
        tree.words
            .extend(makefile.lines().filter_map(|line| line.split_once(':')).map(|(target, _)| target.to_string()));
        tree.words.extend(TOOLS.split_whitespace().map(str::to_string));
        tree
    }

    fn walk(&mut self, top: &Path, folder: &Path) {
        let Ok(entries) = fs::read_dir(folder) else { return };
        for path in entries.flatten().map(|entry| entry.path()) {
            let name = path.file_name().unwrap_or_default().to_string_lossy().into_owned();
            if name == "target" || name.starts_with('.') {
                continue;
            }
            let from_top = path.strip_prefix(top).unwrap_or(&path).to_string_lossy().into_owned();
            if path.is_dir() {
                self.walk(top, &path);
            } else if let Some(names) = declared(&path) {
                self.files.insert(from_top.clone(), names);
            }
            self.paths.insert(from_top);
        }
    }

    fn citations(&self, line: &str) -> Vec<Citation> {
        let in_table = line.starts_with('|');
        let mut all = Vec::new();
        let mut context = Context::new();
        // A bar in a table ends a cell; every second piece of one stands between backquotes.
        for cell in line.split(|letter| in_table && letter == '|') {
            for (at, piece) in cell.split('`').enumerate() {
                if at % 2 == 0 {
                    all.extend(edits(piece).into_iter().map(Citation::Edit));
                    continue;
                }
                all.push(Citation::Quoted(piece.to_string(), context.clone()));
                if in_table {
                    context.extend(self.leads_to(piece));
                }
            }
        }
        all
    }

    /// The file or crate that names alone behind this one may belong to.
    fn leads_to(&self, quoted: &str) -> Option<String> {
        if let Some((first, _)) = quoted.split_once("::") {
            return Some(format!("crates/{first}/src/"));
        }
        if quoted.contains("/specs/") || quoted.contains("/proofs/") {
            return Some(format!("/{quoted}.antt"));
        }
        // A file, or what a file declares.
        let first = quoted.split('.').next().filter(|first| is_module(first))?;
        let file = format!("/{first}.antt");
        if self.files.keys().any(|path| path.ends_with(&file)) {
            return Some(file);
        }
        self.files.iter().find(|(_, names)| names.contains(first)).map(|(path, _)| path.clone())
    }

    fn complaint(&self, citation: &Citation) -> Option<String> {
        match citation {
            Citation::Edit(edit) => (!self.has_edit(edit)).then(|| format!("no edit {edit}")),
            Citation::Quoted(text, context) => {
                let holds = match text {
                    _ if text.contains(' ') => self.holds_command(text),
                    _ if text.contains("::") => self.has_function(text),
                    _ if text.contains('/') => self.has_path(text),
                    _ if text.contains('.') && is_module(text) => self.has_member(text),
                    _ if is_name(text) => self.has_name(text, context),
                    // Signs of the notation, file names and numbers.
                    _ => true,
                };
                let of = if is_name(text) { context.join(" ") } else { String::new() };
                (!holds).then(|| format!("no `{text}` {of}"))
            }
        }
    }

    fn has_edit(&self, edit: &str) -> bool {
        match edit.split_once('*') {
            Some((start, _)) => self.edits.iter().any(|one| one.starts_with(start)),
            None => self.edits.contains(edit),
        }
    }

    /// `make TARGET` and `scripts/NAME WORDS`; other commands are not looked at.
    fn holds_command(&self, text: &str) -> bool {
        let mut words = text.split(' ');
        match (words.next(), words.next()) {
            (Some("make"), Some(target)) => self.words.contains(target),
            (Some(first), _) if first.starts_with("scripts/") => self.paths.contains(first),
            _ => true,
        }
    }

    /// `crate::name` or `crate::module::name`.
    fn has_function(&self, text: &str) -> bool {
        let parts: Vec<&str> = text.split("::").collect();
        let (first, last) = (parts[0], parts[parts.len() - 1].trim_end_matches("()"));
        if first == "crate" {
            return true;
        }
        let start = match parts.len() {
            3 => format!("crates/{first}/src/{}", parts[1]),
            _ => format!("crates/{first}/src/"),
        };
        self.declares(|path| path.starts_with(&start), last)
    }

    fn has_path(&self, text: &str) -> bool {
        let text = text.trim_end_matches('/');
        let edit = text
            .split_once('/')
            .is_some_and(|(first, edit)| self.crates.contains(first) && (is_edit(edit) || edit.contains('*')));
        if edit && self.has_edit(text) {
            return true;
        }
        // Some stand for any: `crates/CRATE/must-fail`, `crate/edit`.
        if text.split('/').any(|part| part == "CRATE" || part == "crate") {
            return true;
        }
        let from = ["", "crates/", "reference/"];
        from.iter().any(|from| ["", ".antt"].iter().any(|end| self.paths.contains(&format!("{from}{text}{end}"))))
    }

    /// `File.name`, `Record.field`, or `File.Record.field`.
    fn has_member(&self, text: &str) -> bool {
        let parts: Vec<&str> = text.split('.').collect();
        let rest = &parts[1..];
        let end = format!("/{}.antt", parts[0]);
        let holds = |(path, names): (&String, &Names)| {
            (path.ends_with(&end) || names.contains(parts[0])) && rest.iter().all(|part| names.contains(*part))
        };
        self.files.iter().any(holds)
            || self.paths.iter().any(|path| path.ends_with(&format!("/{text}")) || path == text)
    }

    fn has_name(&self, text: &str, context: &Context) -> bool {
        if self.crates.contains(text) {
            return true;
        }
        if !context.is_empty() {
            let of_the_row = |path: &str| context.iter().any(|of| path.contains(of.as_str()));
            return self.declares(of_the_row, text) || self.has_module(text) || self.words.contains(text);
        }
        self.words.contains(text)
            || self.stems.contains(text)
            || self.declares(|_| true, text)
            || self.edits.iter().any(|edit| edit.ends_with(&format!("/{text}")))
    }

    fn has_module(&self, name: &str) -> bool {
        self.paths.iter().any(|path| path.ends_with(&format!("/{name}.antt")))
    }

    fn declares(&self, of: impl Fn(&str) -> bool, name: &str) -> bool {
        self.files.iter().any(|(path, names)| of(path) && names.contains(name))
    }
}

fn is_name(text: &str) -> bool {
    text.starts_with(|letter: char| letter.is_ascii_alphabetic())
        && text.chars().all(|letter| letter.is_ascii_alphanumeric() || letter == '_' || letter == '-')
}

/// The names that a source file declares, fields and variants among them.
fn declared(path: &PathBuf) -> Option<Names> {
    let end = path.extension()?.to_str()?;
    if !["rt", "rs", "antt"].contains(&end) {
        return None;
    }
    let text = fs::read_to_string(path).ok()?;
    let mut names = Names::new();
    for line in text.lines() {
        let mut words = line.split_whitespace().skip_while(|word| MODIFIERS.contains(word));
        let (Some(first), second) = (words.next(), words.next()) else { continue };
        if KEYWORDS.contains(&first) {
            names.extend(second.map(name_of));
        } else if second == Some(":")
            || first.ends_with(':')
            || end != "antt" && first.ends_with(['(', ',', ')'])
            || first.contains('(')
        {
            names.insert(name_of(first));
        }
    }
    Some(names)
}

/// A declared name without what follows it: `name(u:`, `Name<T>`, `name,`.
fn name_of(word: &str) -> String {
    let end = word.find(|letter: char| !(letter.is_alphanumeric() || "_-'«»·".contains(letter))).unwrap_or(word.len());
    word[..end].trim_matches(['«', '»']).to_string()
}

const MODIFIERS: [&str; 5] = ["pub", "unfoldable", "abbrev", "ghost", "pub(crate)"];
const KEYWORDS: [&str; 9] = ["fn", "struct", "enum", "const", "type", "mod", "record", "data", "ensures"];

/// Words of the toolchain and of the language, which nothing here declares.
const TOOLS: &str = "rt cargo rustc valgrind callgrind_annotate abbrev unfoldable requires ensures usize n";
