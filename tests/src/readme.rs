//! README and the page of what is proved, against what they show: README's length, its example, its rows and figures of
//! speed and the numbers of its calls; and the statements that docs/PROVED.md shows.

use std::collections::BTreeSet;

use crate::pages::{text, Page};
use crate::Outcome;

/// The most bytes that README.md may have.
const MOST: usize = 10_240;

/// The headers with the calls that README names, and the page with statements.
const OF_CALLS: [&str; 2] = ["include/shelf.h", "include/stripe.h"];
const OF_PROOFS: &str = "docs/PROVED.md";

/// The lines of a section of a page, which begins with this heading.
fn section<'a>(page: &'a Page, heading: &'a str) -> impl Iterator<Item = &'a String> {
    page.lines.iter().skip_while(move |line| *line != heading).skip(1).take_while(|line| !line.starts_with('#'))
}

/// Fails unless README has one block of C, which is the example of the shelf, and then a block of text, what that
/// prints.
fn example(readme: &Page) -> Result<(), String> {
    let programs: Vec<usize> = (0..readme.blocks.len()).filter(|&at| readme.blocks[at].kind == "c").collect();
    let [at] = programs[..] else {
        return Err(format!("README.md has {} blocks of C, not one", programs.len()));
    };
    match &readme.blocks[at..] {
        [program, ..] if program.text != text("examples/shelf.c")? => {
            Err("README.md's C is not examples/shelf.c".into())
        }
        [_, printed, ..] if printed.kind == "text" && printed.text == text("examples/shelf.txt")? => Ok(()),
        _ => Err("README.md's C is not followed by a block of text that is examples/shelf.txt".into()),
    }
}

/// Fails unless each row of README's table of speed is one of the results. Hands back how many there are.
fn speed(readme: &Page) -> Result<usize, String> {
    let results = text("benchmarks/RESULTS.md")?;
    let results: BTreeSet<&str> = results.lines().collect();
    let rows: Vec<&String> = section(readme, "## Speed").filter(|line| line.starts_with('|')).collect();
    match rows.iter().find(|row| !results.contains(row.as_str())) {
        Some(row) => Err(format!("README.md's row of speed is not in benchmarks/RESULTS.md: {row}")),
        None if rows.len() < 3 => Err("README.md has no table of speed below ## Speed".into()),
        None => Ok(rows.len() - 2),
    }
}

/// Fails unless each span of figures that README's sentences on speed name, as 0.5 to 0.9, is in the results. Hands
/// back how many there are.
fn spans(readme: &Page) -> Result<usize, String> {
    let results = text("benchmarks/RESULTS.md")?.split_whitespace().collect::<Vec<&str>>().join(" ");
    let prose: Vec<&str> =
        section(readme, "## Speed").filter(|line| !line.starts_with('|')).flat_map(|line| line.split(' ')).collect();
    let is_figure = |word: &str| word.parse::<f64>().is_ok();
    let is_span = |words: &&[&str]| words[1] == "to" && is_figure(words[0]) && is_figure(words[2]);
    let spans: Vec<String> = prose.windows(3).filter(is_span).map(|words| words.join(" ")).collect();
    match spans.iter().find(|span| !results.contains(span.as_str())) {
        Some(span) => Err(format!("README.md says {span}, which benchmarks/RESULTS.md does not")),
        None => Ok(spans.len()),
    }
}

/// The numbers in a text.
fn numbers(text: &str) -> Vec<usize> {
    text.split(|letter: char| !letter.is_ascii_digit()).filter_map(|digits| digits.parse().ok()).collect()
}

/// The numbers that a call answers, 0 first, as the comment before its declaration has them.
fn answers(header: &str, call: &str) -> Option<Vec<usize>> {
    let before = header.split_once(&format!(" {call}("))?.0;
    let sentence = before.rsplit_once("Answers ")?.1.split('.').next()?;
    Some(numbers(sentence))
}

/// Fails unless README has a row for every call of the headers, with the numbers that they have. Hands back how many
/// there are.
fn calls(readme: &Page) -> Result<usize, String> {
    let header = OF_CALLS.iter().map(|name| text(name)).collect::<Result<String, String>>()?;
    let is_call = |line: &&str| line.starts_with("SHELF_ANSWER struct ") || line.starts_with("STRIPE_ANSWER uint32_t ");
    let declared = header.lines().filter(is_call).count();
    let rows: Vec<&String> = section(readme, "## Calls").filter(|line| line.starts_with("| `")).collect();
    for row in &rows {
        let name = row.split('`').nth(1).unwrap_or("");
        let shown = numbers(row.rsplit('|').nth(1).unwrap_or(""));
        if answers(&header, name).is_none_or(|due| due.first() != Some(&0) || due[1..] != shown) {
            return Err(format!("README.md gives {name} other numbers than its header"));
        }
    }
    if rows.len() != declared {
        return Err(format!("README.md has rows for {} calls, the headers declare {declared}", rows.len()));
    }
    Ok(declared)
}

/// Fails unless each statement that the page of what is proved shows stands so in the file named before it. Hands back
/// how many there are.
fn statements() -> Result<usize, String> {
    let (mut file, mut shown, mut count) = (String::new(), None::<String>, 0);
    for line in text(OF_PROOFS)?.lines() {
        match (shown.take(), line.starts_with("```")) {
            (None, true) => shown = Some(String::new()),
            (Some(block), false) => shown = Some(block + line + "\n"),
            (Some(block), true) if !text(&file)?.contains(&block) => {
                return Err(format!("{OF_PROOFS} shows what is not in {file}: {block}"));
            }
            (Some(_), true) => count += 1,
            (None, false) => {
                if let Some(name) = line.split('`').nth(1).filter(|_| line.ends_with("`:")) {
                    file = name.into();
                }
            }
        }
    }
    if count == 0 {
        return Err(format!("{OF_PROOFS} shows no statement"));
    }
    Ok(count)
}

/// Compares both pages with what they show.
pub fn group(_seed: u64) -> Outcome {
    let (readme, length) = (Page::read("README.md")?, text("README.md")?.len());
    if length > MOST {
        return Err(format!("README.md has {length} bytes, not {MOST} at most"));
    }
    example(&readme)?;
    Ok(format!(
        "{length} bytes; the example is examples/shelf.c, {} rows and {} spans of speed are in benchmarks/RESULTS.md, \
         the numbers of {} calls in the headers; {} statements of {OF_PROOFS} are in their files",
        speed(&readme)?,
        spans(&readme)?,
        calls(&readme)?,
        statements()?
    ))
}
