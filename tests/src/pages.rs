//! The pages of the repository against its files: every link and every path that they name; and the tables of
//! tests/README.md, which have every file of the tests.

use std::collections::BTreeSet;
use std::fs;
use std::path::{Path, PathBuf};

use crate::Outcome;

/// The endings by which a word in backticks is taken for a file of the repository; those that files elsewhere have
/// too, as headers of the C library, only behind a folder.
const ENDINGS: [&str; 6] = ["md", "rt", "antt", "rs", "svg", "edit"];
const BEHIND_A_FOLDER: [&str; 4] = ["c", "h", "txt", "toml"];

/// The pages that may name files that are gone: they tell what changed.
const OF_CHANGES: [&str; 2] = ["docs/CHANGES.md", "docs/PORT.md"];

/// The page of the tests, and the folder below it of which it names the files together.
const OF_TESTS: &str = "tests/README.md";
const TOGETHER: &str = "tests/wrong/edits";

/// The folder of the repository.
fn root() -> PathBuf {
    Path::new(env!("CARGO_MANIFEST_DIR")).join("..")
}

/// The text of a file of the repository.
pub fn text(name: &str) -> Result<String, String> {
    fs::read_to_string(root().join(name)).map_err(|fault| format!("{name}: {fault}"))
}

/// A block of code: the word behind its fence, and its text.
pub struct Block {
    pub kind: String,
    pub text: String,
}

/// A page: its name, the lines outside blocks of code, and these blocks.
pub struct Page {
    name: String,
    pub lines: Vec<String>,
    pub blocks: Vec<Block>,
}

impl Page {
    /// Reads a page.
    pub fn read(name: &str) -> Result<Page, String> {
        let mut page = Page { name: name.into(), lines: Vec::new(), blocks: Vec::new() };
        let mut is_inside = false;
        for line in text(name)?.lines() {
            match (line.strip_prefix("```"), is_inside) {
                (Some(kind), false) => page.blocks.push(Block { kind: kind.into(), text: String::new() }),
                (None, false) => page.lines.push(line.into()),
                (None, true) => page.blocks.iter_mut().last().into_iter().for_each(|b| b.text += &format!("{line}\n")),
                (Some(_), true) => {}
            }
            is_inside ^= line.starts_with("```");
        }
        Ok(page)
    }

    /// The folder of the page, from the top of the repository.
    fn folder(&self) -> &str {
        self.name.rsplit_once('/').map_or("", |(folder, _)| folder)
    }

    /// Where its links lead, but those to other places than files.
    fn links(&self) -> impl Iterator<Item = &str> {
        let targets =
            self.lines.iter().flat_map(|line| line.split("](").skip(1)).filter_map(|rest| rest.split(')').next());
        targets.filter(|target| !target.contains(':'))
    }

    /// The first words of what is in backticks, and of the lines of its blocks of commands.
    fn words(&self) -> impl Iterator<Item = &str> {
        let quoted = self.lines.iter().flat_map(|line| line.split('`').skip(1).step_by(2));
        let commands = self.blocks.iter().filter(|block| block.kind == "sh").flat_map(|block| block.text.lines());
        quoted.chain(commands).filter_map(|text| text.trim_start_matches("$ ").split_whitespace().next())
    }

    /// The part of a heading in a link to it: small letters, digits and marks, with hyphens for spaces.
    fn anchors(&self) -> BTreeSet<String> {
        let headings =
            self.lines.iter().filter(|line| line.starts_with('#')).map(|line| line.trim_start_matches('#').trim());
        let is_kept = |letter: &char| letter.is_alphanumeric() || "-_ ".contains(*letter);
        headings
            .map(|heading| heading.to_lowercase().chars().filter(is_kept).collect::<String>().replace(' ', "-"))
            .collect()
    }
}

/// Fails unless each link of a page leads to a file or folder, and to a heading of it if it names one. Hands back how
/// many there are.
fn all_linked(page: &Page) -> Result<usize, String> {
    let mut count = 0;
    for target in page.links() {
        let (path, anchor) = target.split_once('#').unwrap_or((target, ""));
        let name = if path.is_empty() { page.name.clone() } else { format!("{}/{path}", page.folder()) };
        let name = name.trim_start_matches('/');
        if !root().join(name).exists() || !anchor.is_empty() && !Page::read(name)?.anchors().contains(anchor) {
            return Err(format!("{} links to {target}, which is not there", page.name));
        }
        count += 1;
    }
    Ok(count)
}

/// Whether a part of a path stands for any name: one in capitals that is no page's, as NAME in NAME.c.
fn is_any(part: &str) -> bool {
    let (stem, ending) = part.split_once('.').unwrap_or((part, ""));
    ending != "md" && stem.len() > 1 && stem.bytes().all(|letter| letter.is_ascii_uppercase())
}

/// Whether a part of a path matches a name; a star stands for any letters.
fn matches(part: &str, name: &str) -> bool {
    let ending = part.split_once('.').map_or(String::new(), |(_, ending)| format!(".{ending}"));
    let pattern = if is_any(part) { format!("*{ending}") } else { part.into() };
    match pattern.split_once('*') {
        Some((start, end)) => name.len() >= start.len() + end.len() && name.starts_with(start) && name.ends_with(end),
        None => name == pattern,
    }
}

/// The files and the folders of the repository by their paths, but those that are made.
#[derive(Default)]
struct Tree {
    files: BTreeSet<String>,
    folders: BTreeSet<String>,
}

impl Tree {
    /// Takes in what is in a folder and below it; the folder is named with a slash behind it, the top by nothing.
    fn take(&mut self, folder: &str) -> Result<(), String> {
        let fault = |fault| format!("{folder}: {fault}");
        for entry in fs::read_dir(root().join(folder)).map_err(fault)? {
            let entry = entry.map_err(fault)?;
            let name = entry.file_name();
            let path = format!("{folder}{}", name.to_string_lossy());
            if !entry.file_type().map_err(fault)?.is_dir() {
                self.files.insert(path);
            } else if name != "target" && name != ".git" {
                self.take(&format!("{path}/"))?;
                self.folders.insert(path);
            }
        }
        Ok(())
    }

    /// Whether the last parts of a file's or a folder's path match those of this one.
    fn has(&self, path: &str) -> bool {
        let is_end = |other: &String| {
            let mut names = other.rsplit('/');
            path.rsplit('/').all(|part| names.next().is_some_and(|name| matches(part, name)))
        };
        self.files.iter().chain(&self.folders).any(is_end)
    }

    /// The path that a word is taken for, if it is: it has one of the endings, or begins with the name of a folder.
    fn path<'a>(&self, word: &'a str) -> Option<&'a str> {
        let path = word.trim_start_matches("./").trim_end_matches('/');
        let first = word.split('/').next().unwrap_or("");
        let ending = path.rsplit('/').next().unwrap_or("").split_once('.');
        let is_plain = path.bytes().all(|letter| letter.is_ascii_alphanumeric() || b"_.*/-".contains(&letter));
        let is_known =
            |ending: &str| ENDINGS.contains(&ending) || path.contains('/') && BEHIND_A_FOLDER.contains(&ending);
        let has_ending = ending.is_some_and(|(stem, ending)| !stem.is_empty() && is_known(ending));
        let is_below = word.contains('/') && (first == "." || self.has(first));
        let is_other = path.is_empty() || word.starts_with('/') || first == "target" || first != path && is_any(first);
        (is_plain && !is_other && (has_ending || is_below)).then_some(path)
    }

    /// Fails unless each path that a page names in backticks is there, or is the end of one that is. Hands back how
    /// many there are.
    fn all_named(&self, page: &Page) -> Result<usize, String> {
        let paths: Vec<&str> = page.words().filter_map(|word| self.path(word)).collect();
        match paths.iter().find(|path| !self.has(path)) {
            Some(path) => Err(format!("{} names {path}, which is not there", page.name)),
            None => Ok(paths.len()),
        }
    }

    /// Fails unless the tables of the tests' page have every file of the tests, each below a heading with its folder,
    /// and no other. Hands back how many there are.
    fn tests(&self) -> Result<usize, String> {
        let (page, mut folder, mut named) = (Page::read(OF_TESTS)?, "", BTreeSet::new());
        for line in &page.lines {
            match line.split('`').nth(1) {
                Some(name) if line.starts_with('#') => folder = name,
                Some(name) if line.starts_with("| `") && !folder.is_empty() => {
                    named.insert(format!("{folder}/{name}"));
                }
                _ => {}
            }
        }
        let is_tests = |path: &&String| path.starts_with("tests/") && !path.starts_with(TOGETHER) && *path != OF_TESTS;
        let files: BTreeSet<String> = self.files.iter().filter(is_tests).cloned().collect();
        match files.symmetric_difference(&named).next() {
            Some(name) if files.contains(name) => Err(format!("{OF_TESTS} does not name {name}")),
            Some(name) => Err(format!("{OF_TESTS} names {name}, which is not there")),
            None => Ok(files.len()),
        }
    }
}

/// Compares the pages with the files.
pub fn group(_seed: u64) -> Outcome {
    let mut tree = Tree::default();
    tree.take("")?;
    let names: Vec<&String> = tree.files.iter().filter(|name| name.ends_with(".md")).collect();
    let (mut links, mut paths) = (0, 0);
    for name in &names {
        let page = Page::read(name)?;
        links += all_linked(&page)?;
        paths += if OF_CHANGES.contains(&name.as_str()) { 0 } else { tree.all_named(&page)? };
    }
    Ok(format!(
        "{links} links and {paths} paths of {} pages lead to files; {OF_TESTS} names all {} files of the tests",
        names.len(),
        tree.tests()?
    ))
}
