//! Proposals: small edits of one source file that leave the shape of its code, for whoever looks for wrong programs. Which of
//! them make a wrong program, and which one that does the same, is not known here.

use std::fs;
use std::path::Path;

/// Comparisons, each beside what it is turned into.
const TURNED: [(&str, &str); 6] =
    [(" < ", " <= "), (" <= ", " < "), (" > ", " >= "), (" >= ", " > "), (" == ", " != "), (" != ", " == ")];

/// Names of one sort that can stand for each other: parameters of one function or fields of one struct, by their type.
type Names = Vec<(String, String)>;

/// Prints an edit for each change of each line in the functions of a file, named as crates/CRATE/src/FILE.
pub fn print(root: &Path, file: &str) -> Result<(), String> {
    let (folder, below) = file.split_once("/src/").ok_or(format!("{file} is not below a crate's src/"))?;
    let source = root.join(folder).join("src");
    let text = fs::read_to_string(source.join(below)).map_err(|error| format!("{file}: {error}"))?;
    let module: Vec<&str> =
        below.trim_end_matches(".rt").split('/').filter(|part| !["lib", "main"].contains(part)).collect();
    let structs = structs(&source)?;
    let (mut owner, mut function, mut names, mut inside) = (String::new(), String::new(), Names::new(), false);
    for (number, line) in text.lines().enumerate() {
        let start = line.trim_start();
        if let Some(rest) = line.strip_prefix("impl ") {
            owner = first_word(rest).to_string();
        } else if line == "}" {
            owner.clear();
        }
        if let Some((_, rest)) =
            start.split_once("fn ").filter(|(before, _)| before.is_empty() || before.starts_with("pub"))
        {
            (function, names, inside) = (first_word(rest).to_string(), Names::new(), false);
        }
        if !inside {
            names.extend(pairs(line));
            inside = start == "{" || start.ends_with(") {");
            continue;
        }
        if start.starts_with("//") || text.matches(line).count() != 1 {
            continue;
        }
        let at: Vec<&str> =
            module.iter().copied().chain([owner.as_str(), &function]).filter(|part| !part.is_empty()).collect();
        for changed in changes(line, &names, &structs) {
            println!("# line {}\nat: {}\nfile: src/{below}\nold: {line}\nnew: {changed}\n", number + 1, at.join("::"));
        }
    }
    Ok(())
}

/// The fields of each struct in the files of a folder.
fn structs(source: &Path) -> Result<Vec<Names>, String> {
    let mut structs = Vec::new();
    for entry in fs::read_dir(source).map_err(|error| error.to_string())?.flatten() {
        let text = fs::read_to_string(entry.path()).unwrap_or_default();
        for part in text.split("struct ").skip(1) {
            structs.push(part.lines().take_while(|line| *line != "}").flat_map(pairs).collect());
        }
    }
    Ok(structs)
}

/// The names that a line declares, `NAME: TYPE`, with their types.
fn pairs(line: &str) -> Names {
    let parts = line.split(['(', ',', ')']).filter_map(|part| part.split_once(": "));
    let named = parts.map(|(name, sort)| (name.trim().trim_start_matches("pub ").to_string(), sort.trim().to_string()));
    named.filter(|(name, _)| !name.is_empty() && name.chars().all(is_word)).collect()
}

/// The lines that one small change makes of a line.
fn changes(line: &str, names: &Names, structs: &[Names]) -> Vec<String> {
    let mut changed = Vec::new();
    let put = |start: usize, end: usize, new: &str| format!("{}{new}{}", &line[..start], &line[end..]);
    for (old, new) in TURNED {
        changed.extend(line.match_indices(old).map(|(start, _)| put(start, start + old.len(), new)));
    }
    for (start, word) in words(line) {
        let (end, field) = (start + word.len(), line[..start].ends_with('.'));
        if let Ok(number) = word.parse::<u64>() {
            changed.push(put(start, end, &(number + 1).to_string()));
            changed.extend(number.checked_sub(1).map(|less| put(start, end, &less.to_string())));
        } else if !line[end..].starts_with(['(', ':', '!']) {
            let sorts = if field { structs } else { std::slice::from_ref(names) };
            let own = sorts.iter().find_map(|sort| Some((sort, &sort.iter().find(|(name, _)| name == word)?.1)));
            let others = own
                .into_iter()
                .flat_map(|(sort, kind)| sort.iter().filter(move |other| other.1 == *kind && other.0 != word));
            changed.extend(others.map(|(other, _)| put(start, end, other)));
        }
    }
    for (comma, _) in line.match_indices(", ") {
        let part = |c: char| is_word(c) || c == '.';
        let left = line[..comma].trim_end_matches(part).len();
        let right = line.len() - line[comma + 2..].trim_start_matches(part).len();
        let (one, two) = (&line[left..comma], &line[comma + 2..right]);
        if !one.is_empty()
            && !two.is_empty()
            && one != two
            && line[..left].ends_with(['(', ' '])
            && line[right..].starts_with([',', ')'])
        {
            changed.push(put(left, right, &format!("{two}, {one}")));
        }
    }
    changed
}

/// The words of a line and where they start.
fn words(line: &str) -> impl Iterator<Item = (usize, &str)> {
    let pieces = line.split(|c: char| !is_word(c)).filter(|word| !word.is_empty());
    pieces.map(move |word| (word.as_ptr() as usize - line.as_ptr() as usize, word))
}

/// The name that a text begins with.
fn first_word(text: &str) -> &str {
    text.split(|c: char| !is_word(c)).next().unwrap_or_default()
}

/// Whether a character can stand in a name or a number.
fn is_word(c: char) -> bool {
    c.is_ascii_alphanumeric() || c == '_'
}
