//! Edits: what a file edits/CRATE/LABEL.edit says, and how it is applied to a copy of the crate.
//!
//! The form is that of rt's must-fail edits, with one line more, `at: PLACE`, for what must refuse the edit. An edit that changes the
//! shape of a function's code has replacements in the folder of its proof too, and so brings along a proof that speaks of its own code.

use std::collections::BTreeMap;
use std::fs;
use std::path::{Path, PathBuf};

/// One edit of one crate.
pub struct Edit {
    pub crate_name: String,
    pub label: String,
    /// What must refuse it: a function or a file of laws, by its path of modules below the crate.
    pub at: String,
    /// The replacements: a file, the text in it and the text for it.
    pairs: Vec<[String; 3]>,
}

/// Files and their texts.
pub type Texts = BTreeMap<PathBuf, String>;

impl Edit {
    /// Reads an edit. A `file:` line holds for the pairs after it; lines that begin with no such word are comments.
    fn read(crate_name: &str, label: &str, text: &str) -> Result<Edit, String> {
        let (mut places, mut file, mut old, mut pairs) = (Vec::new(), "", "", Vec::new());
        for line in text.lines() {
            match line.split_once(':').map(|(word, rest)| (word, rest.strip_prefix(' ').unwrap_or(rest))) {
                Some(("at", place)) => places.push(place.trim().to_string()),
                Some(("file", name)) => file = name,
                Some(("old", text)) => old = text,
                Some(("new", text)) => pairs.push([file, std::mem::take(&mut old), text].map(String::from)),
                _ => {}
            }
        }
        let [at] = <[String; 1]>::try_from(places).map_err(|_| "it has not one `at:` line")?;
        if pairs.is_empty() {
            return Err("it has no `old:` and `new:` pair".to_string());
        }
        Ok(Edit { crate_name: crate_name.to_string(), label: label.to_string(), at, pairs })
    }

    /// Whether the edit changes the program, and not only what is said of it.
    pub fn changes_code(&self) -> bool {
        self.pairs.iter().any(|[file, ..]| file.starts_with("src/"))
    }

    /// Whether the edit brings along the proof of its place.
    pub fn brings_proof(&self) -> bool {
        self.pairs.iter().any(|[file, ..]| self.is_own_proof(file))
    }

    /// Whether the edit changes the program and the proof of its place at most, and no definition.
    fn changes_code_alone(&self) -> bool {
        self.pairs.iter().all(|[file, ..]| file.starts_with("src/") || self.is_own_proof(file))
    }

    /// Whether a file stands in the folder of the place's proof.
    fn is_own_proof(&self, file: &str) -> bool {
        let folder = format!("proofs/{}/", self.at.replace("::", "/"));
        file.strip_prefix(folder.as_str()).is_some_and(|name| !name.contains('/'))
    }

    /// Applies the edit to a crate's folder, and hands back the texts that were there; where it does not fit, nothing is changed.
    pub fn apply(&self, folder: &Path) -> Result<Texts, String> {
        let (mut before, mut after) = (Texts::new(), Texts::new());
        for [file, old, new] in &self.pairs {
            let is_its = file.starts_with("src/") || file.starts_with("specs/") || self.is_own_proof(file);
            if !is_its || file.contains("..") {
                return Err(format!("`{file}` is no file under src/ or specs/, and none of the proof of {}", self.at));
            }
            let path = folder.join(file);
            if !before.contains_key(&path) {
                let text = fs::read_to_string(&path).map_err(|error| format!("{file}: {error}"))?;
                before.insert(path.clone(), text.clone());
                after.insert(path.clone(), text);
            }
            let text = &after[&path];
            if old.is_empty() || text.matches(old.as_str()).count() != 1 {
                return Err(format!("an `old:` text is not in {file}, or more than once: {old}"));
            }
            let text = text.replacen(old.as_str(), new, 1);
            after.insert(path, text);
        }
        write(&after).map(|()| before)
    }
}

/// The most edits that are tried together.
const TOGETHER: usize = 8;

/// Puts edits of one crate together in batches. Those of a batch change the program alone, each a function of its own; which places
/// are functions is told.
pub fn batches<'a>(edits: impl Iterator<Item = &'a Edit>, is_function: impl Fn(&Edit) -> bool) -> Vec<Vec<&'a Edit>> {
    let mut batches: Vec<Vec<&Edit>> = Vec::new();
    for edit in edits {
        let joins = |edit: &Edit| edit.changes_code_alone() && is_function(edit);
        let takes = |batch: &&mut Vec<&Edit>| {
            let fits = |other: &&Edit| other.at != edit.at && joins(other);
            batch.len() < TOGETHER && joins(edit) && batch.iter().all(fits)
        };
        match batches.iter_mut().find(takes) {
            Some(batch) => batch.push(edit),
            None => batches.push(vec![edit]),
        }
    }
    batches
}

/// Applies edits one after another, and hands back the texts that were there; where one does not fit, nothing is changed.
pub fn apply_all(edits: &[&Edit], folder: &Path) -> Result<Texts, String> {
    let mut before = Texts::new();
    for edit in edits {
        match edit.apply(folder) {
            Ok(texts) => texts.into_iter().for_each(|(path, text)| {
                before.entry(path).or_insert(text);
            }),
            Err(reason) => return write(&before).and(Err(reason)),
        }
    }
    Ok(before)
}

/// Writes texts to their files.
pub fn write(texts: &Texts) -> Result<(), String> {
    texts.iter().try_for_each(|(path, text)| fs::write(path, text).map_err(|error| error.to_string()))
}

/// Reads the edits whose CRATE/LABEL has one of the filters in it; all where there is no filter. They are in the order of their
/// places: what one edit has the prover check again is then mostly what the next one does.
pub fn read_all(folder: &Path, filters: &[String]) -> Result<Vec<Edit>, String> {
    let mut edits = Vec::new();
    for crate_folder in entries(folder)? {
        for path in entries(&crate_folder)? {
            let [crate_name, label] =
                [&crate_folder, &path].map(|path| path.file_stem().unwrap_or_default().to_string_lossy());
            let name = format!("{crate_name}/{label}");
            if filters.is_empty() || filters.iter().any(|filter| name.contains(filter)) {
                let text = fs::read_to_string(&path).map_err(|error| format!("{name}: {error}"))?;
                edits.push(Edit::read(&crate_name, &label, &text).map_err(|reason| format!("{name}: {reason}"))?);
            }
        }
    }
    edits.sort_by(|one: &Edit, two| one.at.cmp(&two.at));
    Ok(edits)
}

/// The paths in a folder, sorted.
fn entries(folder: &Path) -> Result<Vec<PathBuf>, String> {
    let listed = fs::read_dir(folder).map_err(|error| format!("{}: {error}", folder.display()))?;
    let mut paths: Vec<PathBuf> = listed.flatten().map(|entry| entry.path()).collect();
    paths.sort();
    Ok(paths)
}

#[cfg(test)]
mod tests {
    use super::*;

    #[test]
    fn proofs_that_are_brought() {
        let edit = |file: &str| {
            let text =
                format!("at: status::check\nfile: src/status.rt\nold: a\nnew: b\nfile: {file}\nold: c\nnew: d\n");
            Edit::read("shelf", "label", &text).unwrap()
        };
        let own = edit("proofs/status/check/Answers.antt");
        assert!(own.brings_proof() && own.changes_code_alone());
        for file in ["proofs/status/check_input/Answers.antt", "proofs/status/check/Laws/Own.antt", "specs/Lent.antt"] {
            assert!(!edit(file).brings_proof() && !edit(file).changes_code_alone());
        }
        assert!(edit("proofs/lent/Laws.antt").apply(Path::new("none")).is_err());
    }
}
