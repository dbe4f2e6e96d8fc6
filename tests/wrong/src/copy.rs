//! Copies of the crates outside the repository, and what rt says of them there.

use crate::judge;
use crate::names::Listed;
use std::fs::{self, File};
use std::path::{Path, PathBuf};
use std::process::Command;

/// A folder with a copy of crates.txt and crates/, and with what rt keeps in the crates' out/.
pub struct Copy(PathBuf);

impl Copy {
    /// Copies the crates of a repository.
    pub fn make(root: &Path, folder: PathBuf) -> Result<Copy, String> {
        fs::create_dir_all(&folder).map_err(|error| error.to_string())?;
        copy(&[root.join("crates.txt"), root.join("crates")], &folder)?;
        Ok(Copy(folder))
    }

    /// Makes a second copy, with all that rt keeps in this one.
    pub fn twin(&self, folder: PathBuf) -> Result<Copy, String> {
        copy(std::slice::from_ref(&self.0), &folder)?;
        Ok(Copy(folder))
    }

    /// The folder of a crate.
    pub fn crate_folder(&self, name: &str) -> PathBuf {
        self.0.join("crates").join(name)
    }

    /// What proves a place, below its crate's folder: the folder of a function's proof or a file of laws; nothing for a function that
    /// is proved without a word. The folder of a function in a cycle of calls has a plus before its name.
    pub fn proof_of(&self, crate_name: &str, at: &str) -> Option<String> {
        let path = at.replace("::", "/");
        let (folder, name) = path.split_at(path.rfind('/').map_or(0, |slash| slash + 1));
        let functions = [format!("proofs/{path}"), format!("proofs/{folder}+{name}")];
        let laws = format!("proofs/{path}.antt");
        let mut found = functions.into_iter().filter(|proof| !self.proof_files(crate_name, proof).is_empty());
        found.next().or_else(|| self.crate_folder(crate_name).join(&laws).is_file().then_some(laws))
    }

    /// The files in the folder of a function's proof.
    pub fn proof_files(&self, crate_name: &str, proof: &str) -> Vec<PathBuf> {
        let folder = self.crate_folder(crate_name).join(proof);
        let files = ["Invariants.antt", "Answers.antt", "Proof.antt"].map(|name| folder.join(name));
        files.into_iter().filter(|file| file.is_file()).collect()
    }

    /// What rt says of a crate as it stands, checked over what it kept of the check before.
    pub fn check(&self, name: &str) -> Result<String, String> {
        self.rt(name, &["check"])
    }

    /// Fails unless the crate as it stands is proved.
    pub fn must_be_proved(&self, name: &str) -> Result<(), String> {
        let log = self.check(name)?;
        let proved = judge::logic(&log).is_some_and(|logic| logic.starts_with("proved"));
        proved.then_some(()).ok_or_else(|| format!("{name}, unchanged, is not proved:\n{}", start_of(&log)))
    }

    /// What rt lists of the functions of a crate as it stands; it proves nothing for that.
    pub fn names(&self, name: &str) -> Result<Listed, String> {
        let folder = self.0.join("names");
        let file = folder.join("names.json");
        let log = self.rt(name, &["check", "--generated", &folder.to_string_lossy(), "--old-names"])?;
        let text = fs::read_to_string(&file).map_err(|_| "it does not reach the prover".to_string());
        let listed = text.and_then(|text| Listed::read(&text));
        let removed = fs::remove_dir_all(&folder);
        listed
            .map_err(|reason| format!("{reason}:\n{}", start_of(&log)))
            .and_then(|listed| removed.map(|()| listed).map_err(|error| format!("{}: {error}", folder.display())))
    }

    /// Runs rt in a crate's folder and hands back all that it prints, in its order.
    fn rt(&self, name: &str, words: &[&str]) -> Result<String, String> {
        let path = self.0.join(format!("said-{name}"));
        let file = File::create(&path).map_err(|error| error.to_string())?;
        let other = file.try_clone().map_err(|error| error.to_string())?;
        let mut command = Command::new("rt");
        command.args(words).current_dir(self.crate_folder(name)).stdout(file).stderr(other);
        command.status().map_err(|error| format!("rt: {error}"))?;
        fs::read(&path).map(|said| String::from_utf8_lossy(&said).into_owned()).map_err(|error| error.to_string())
    }
}

/// The first lines of a log that say something of a failure, each cut short.
pub fn start_of(log: &str) -> String {
    let dull = [": note: ", "rattle's own name", ": proved", "checked ", "rt: chose ", "so far: "];
    let told = log.lines().filter(|line| !dull.iter().any(|words| line.contains(words)));
    told.take(4).map(|line| format!("    {}\n", line.chars().take(300).collect::<String>())).collect()
}

/// Copies files and folders.
fn copy(from: &[PathBuf], to: &Path) -> Result<(), String> {
    let status = Command::new("cp").arg("-R").args(from).arg(to).status().map_err(|error| format!("cp: {error}"))?;
    status.success().then_some(()).ok_or_else(|| format!("cannot copy to {}", to.display()))
}
