//! The documents: each link leads somewhere, each named file exists, and each command has the named options.

use expected::files::root;
use std::collections::BTreeSet;
use std::fs;
use std::path::{Path, PathBuf};

/// Folders of the repository in which there are no documents.
const ASIDE: [&str; 3] = ["target", ".git", "crates"];

/// Notes of earlier changes name files and commands as they were called then.
const NOTES: &str = "docs/changes";

/// A document, by its place in the repository, and its text.
struct Document {
    place: PathBuf,
    text: String,
}

fn documents() -> Vec<Document> {
    let (mut found, mut folders) = (Vec::new(), vec![root().to_path_buf()]);
    while let Some(folder) = folders.pop() {
        for entry in fs::read_dir(&folder).expect("a folder").map(|entry| entry.expect("an entry").path()) {
            let name = entry.file_name().unwrap_or_default().to_string_lossy().into_owned();
            if entry.is_dir() && !entry.is_symlink() && !ASIDE.contains(&&*name) {
                folders.push(entry);
            } else if name.ends_with(".md") {
                let place = entry.strip_prefix(root()).expect("below the root").into();
                found.push(Document { place, text: fs::read_to_string(&entry).expect("a text") });
            }
        }
    }
    found
}

impl Document {
    /// What is between backquotes, and each line of a block of code.
    fn code(&self) -> Vec<&str> {
        let (mut code, mut fenced) = (Vec::new(), false);
        for line in self.text.lines() {
            if line.starts_with("```") {
                fenced = !fenced;
            } else if fenced || line.starts_with("    ") {
                code.push(line.trim());
            } else {
                code.extend(line.split('`').skip(1).step_by(2));
            }
        }
        code
    }

    /// The targets of its links. The text of a link may have backquotes, and so does not tell where it ends.
    fn links(&self) -> Vec<String> {
        let mut fenced = false;
        let prose = self.text.lines().filter(|line| {
            fenced ^= line.starts_with("```");
            !fenced && !line.starts_with("    ")
        });
        let prose = prose.collect::<Vec<_>>().join("\n");
        prose.split("](").skip(1).filter_map(|rest| Some(rest.split_once(')')?.0.to_owned())).collect()
    }

    /// The names by which links lead to its headings.
    fn anchors(&self) -> BTreeSet<String> {
        let headings = self.text.lines().filter(|line| line.starts_with('#'));
        headings.map(|line| anchor(line.trim_start_matches('#').trim())).collect()
    }

    fn is_note(&self) -> bool {
        self.place.starts_with(NOTES)
    }
}

fn anchor(heading: &str) -> String {
    let kept = heading.chars().filter(|letter| letter.is_alphanumeric() || " -_".contains(*letter));
    kept.map(|letter| if letter == ' ' { '-' } else { letter.to_ascii_lowercase() }).collect()
}

/// Why a link of a document leads nowhere, if so.
fn dead(link: &str, from: &Path, all: &[Document]) -> Option<String> {
    if link.starts_with("http") {
        return None;
    }
    let (path, heading) = link.split_once('#').map_or((link, None), |(path, heading)| (path, Some(heading)));
    let target = if path.is_empty() { from.into() } else { from.parent().unwrap_or(Path::new("")).join(path) };
    let Ok(target) = root().join(&target).canonicalize() else { return Some("there is no such file".into()) };
    let heading = heading?;
    let root = root().canonicalize().expect("the root");
    let document = all.iter().find(|document| root.join(&document.place) == target)?;
    (!document.anchors().contains(heading)).then(|| format!("{} has no such heading", document.place.display()))
}

#[test]
fn links() {
    let all = documents();
    let (mut count, mut wrong) = (0, Vec::new());
    for document in &all {
        for link in document.links() {
            count += 1;
            let why = dead(&link, &document.place, &all);
            wrong.extend(why.map(|why| format!("{}: {link}: {why}", document.place.display())));
        }
    }
    assert!(wrong.is_empty(), "{}", wrong.join("\n"));
    assert!(count > 100, "{count}");
    // What is wrong is found.
    for link in ["nowhere.md", "docs/REFERENCE.md#no-such-heading", "#no-such-heading"] {
        assert!(dead(link, Path::new("README.md"), &all).is_some(), "{link}");
    }
}

/// Whether a name in a document is that of a file that is not there: one below a folder of the root, without blanks. It may
/// also be beside the document.
fn is_missing(name: &str, from: &Path) -> bool {
    let allowed = |letter: char| letter.is_ascii_alphanumeric() || "_./-".contains(letter);
    let Some((first, _)) = name.split_once('/') else { return false };
    let is_ours = root().join(first).is_dir() && !first.is_empty() && first != "." && !ASIDE[..2].contains(&first);
    let beside = root().join(from).with_file_name(name);
    is_ours && name.chars().all(allowed) && !root().join(name).exists() && !beside.exists()
}

#[test]
fn files() {
    let (mut count, mut wrong) = (0, Vec::new());
    for document in documents().iter().filter(|document| !document.is_note()) {
        for name in document.code().into_iter().filter_map(|code| code.split_whitespace().next()) {
            count += usize::from(name.contains('/'));
            if is_missing(name, &document.place) {
                wrong.push(format!("{}: {name}", document.place.display()));
            }
        }
    }
    assert!(wrong.is_empty(), "{}", wrong.join("\n"));
    assert!(count > 100, "{count}");
    let missing = |name| is_missing(name, Path::new("examples/README.md"));
    assert!(missing("docs/nowhere.md") && missing("python/nowhere.py"));
    assert!(!missing("docs/REFERENCE.md") && !missing("python/shared.py") && !missing("and/or"));
}

/// The text in which a program's options have to be: its help, or the program itself. None where there is no such program.
fn options_of(words: &[&str]) -> Option<String> {
    let text = |place: String| fs::read_to_string(root().join(place)).ok();
    match *words.first()? {
        "cindrolf" | "./cindrolf" => match words.get(1) {
            Some(word) if word.starts_with('-') => text("rust/command/help/cindrolf.txt".into()),
            Some(word) => text(format!("rust/command/help/{word}.txt")),
            None => Some(String::new()),
        },
        program => text(program.trim_start_matches("./").into()),
    }
}

/// Whether this begins with a program of ours.
fn is_command(words: &[&str]) -> bool {
    match words {
        ["cindrolf" | "./cindrolf", word, ..] => {
            word.starts_with(|letter: char| letter == '-' || letter.is_ascii_lowercase())
        }
        ["./install" | "./test", ..] => true,
        // A file that is no program, as tests/boundary.c, has an ending. A folder is none, either.
        [first, ..] => {
            let ours = first.starts_with("tests/") || first.starts_with("tools/");
            ours && !first.contains('.') && !first.ends_with('/')
        }
        [] => false,
    }
}

/// What is wrong with a command: a subcommand or an option that there is not.
fn mistake(code: &str) -> Option<String> {
    let code = code.strip_prefix("$ ").unwrap_or(code);
    let ours = code.split(['|', '>', ';', '&', '#', '"']).next().unwrap_or_default();
    let words: Vec<&str> = ours.split_whitespace().collect();
    if !is_command(&words) {
        return None;
    }
    let Some(options) = options_of(&words) else { return Some(format!("there is no {}", words.join(" "))) };
    let is_option = |word: &&&str| word.starts_with('-') && word.len() > 1 && **word != "--";
    let given = words[1..].iter().filter(is_option).map(|word| word.trim_matches(|letter| "[],.".contains(letter)));
    let listed = |option: &str| ["-h", "--help", "--version"].contains(&option) || options.contains(option);
    given.filter(|option| !listed(option)).map(|option| format!("{option} is no option in: {code}")).next()
}

#[test]
fn commands() {
    let (mut count, mut wrong) = (0, Vec::new());
    for document in documents().iter().filter(|document| !document.is_note()) {
        for code in document.code() {
            count += usize::from(is_command(&code.split_whitespace().collect::<Vec<_>>()));
            wrong.extend(mistake(code).map(|why| format!("{}: {why}", document.place.display())));
        }
    }
    assert!(wrong.is_empty(), "{}", wrong.join("\n"));
    assert!(count > 60, "{count}");
    for code in ["cindrolf shwo run.db", "$ cindrolf chain run.db --att x", "tests/store --hours 1"] {
        assert!(mistake(code).is_some(), "{code}");
    }
}

// The reference has a line for each subcommand, the one of the overview, and no more of the manual.
#[test]
fn subcommands() {
    let read = |place: &str| fs::read_to_string(root().join(place)).expect(place);
    let (overview, reference) = (read("rust/command/help/cindrolf.txt"), read("docs/REFERENCE.md"));
    let lines = overview.lines().filter_map(|line| line.strip_prefix("  ").filter(|line| !line.starts_with(' ')));
    let lines = lines.map(|line| line.split_once("  ").expect("a name and what it does"));
    let expected: Vec<_> = lines.map(|(name, does)| format!("| `{name}` | {} |", does.trim())).collect();
    let (_, table) = reference.split_once("\n| Subcommand | Does |\n|---|---|\n").expect("the table of subcommands");
    let found: Vec<_> = table.lines().take_while(|line| line.starts_with('|')).collect();
    assert_eq!(found, expected);
}
