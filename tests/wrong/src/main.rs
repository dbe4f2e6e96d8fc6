//! The runner of wrong programs. Each file edits/CRATE/LABEL.edit makes a wrong program out of a crate; the prover must refuse it
//! at the place that the file names. The edits are tried in copies of the crates, over what rt kept there of the check before, several of
//! them together where each changes a function of its own, and undone.
//! Words: the repository, a folder to work in, and texts of which an edit's CRATE/LABEL must have one; without any, all edits
//! are tried. With `propose FILE` for those texts, edits of one source file are printed instead.

mod copy;
mod edit;
mod judge;
mod names;
mod propose;

use copy::Copy;
use edit::{Edit, Texts};
use judge::{Fit, Place, Verdict};
use names::Listed;
use std::collections::BTreeMap;
use std::path::Path;
use std::process::ExitCode;
use std::sync::Mutex;
use std::time::Instant;
use std::{env, fs, thread};

/// An edit that was tried: its verdict and the seconds that it took.
type Tried<'a> = (&'a Edit, Verdict, f64);

fn main() -> ExitCode {
    let words: Vec<String> = env::args().skip(1).collect();
    let done = match words.as_slice() {
        [root, _, verb, file] if verb == "propose" => propose::print(Path::new(root), file).map(|()| true),
        [root, work, filters @ ..] => run(Path::new(root), Path::new(work), filters),
        _ => Err("words: REPOSITORY FOLDER [FILTER..]".to_string()),
    };
    if let Err(reason) = &done {
        println!("wrong programs: FAILED: {reason}");
    }
    ExitCode::from(u8::from(done != Ok(true)))
}

/// Tries the edits that the filters let through and prints what came of them; whether all is well.
fn run(root: &Path, work: &Path, filters: &[String]) -> Result<bool, String> {
    let began = Instant::now();
    let edits = edit::read_all(&root.join("tests/wrong/edits"), filters)?;
    if edits.is_empty() {
        return Err("there is no edit to try".to_string());
    }
    let crates = by_count(&edits);
    let jobs = thread::available_parallelism().map_or(1, |jobs| jobs.get().min(2));
    let first = Copy::make(root, work.join("0"))?;
    crates.iter().try_for_each(|name| first.must_be_proved(name))?;
    let listed: Unchanged =
        crates.iter().map(|name| Ok((name.as_str(), first.names(name)?))).collect::<Result<_, String>>()?;
    let mut copies = vec![first];
    for number in 1..jobs.min(edits.len()) {
        copies.push(copies[0].twin(work.join(number.to_string()))?);
    }
    let warm = began.elapsed().as_secs_f64();
    let is_function = |edit: &Edit| listed[edit.crate_name.as_str()].of(&edit.crate_name, &edit.at).is_some();
    let queue =
        crates.iter().flat_map(|name| edit::batches(edits.iter().filter(|edit| edit.crate_name == *name), is_function));
    let tried = each(queue, &copies, |copy, batch| {
        let tried = try_batch(copy, &batch, &listed);
        (!filters.is_empty()).then(|| tried.iter().for_each(|tried| println!("{}", line(tried))));
        tried
    });
    let tried = tried.concat();
    let ends = each(copies.iter(), &copies, |_, copy| crates.iter().try_for_each(|name| copy.must_be_proved(name)));
    let well = report(&crates, &tried, began.elapsed().as_secs_f64(), warm);
    ends.into_iter().collect::<Result<(), _>>().map(|()| well)
}

/// The crates that have edits, those with the most first: they take the longest.
fn by_count(edits: &[Edit]) -> Vec<String> {
    let mut counts: BTreeMap<&str, usize> = BTreeMap::new();
    edits.iter().for_each(|edit| *counts.entry(&edit.crate_name).or_default() += 1);
    let mut crates: Vec<String> = counts.keys().map(|name| name.to_string()).collect();
    crates.sort_by_key(|name| std::cmp::Reverse(counts[name.as_str()]));
    crates
}

/// Has each copy's worker take the next item as soon as it is free; hands back what came of the items, in the order of their ends.
fn each<'a, T: Send, R: Send>(
    items: impl Iterator<Item = T> + Send,
    copies: &'a [Copy],
    work: impl Fn(&'a Copy, T) -> R + Sync,
) -> Vec<R> {
    let (queue, done) = (Mutex::new(items), Mutex::new(Vec::new()));
    thread::scope(|scope| {
        for copy in copies {
            scope.spawn(|| loop {
                let item = queue.lock().unwrap().next();
                let Some(item) = item else { break };
                let result = work(copy, item);
                done.lock().unwrap().push(result);
            });
        }
    });
    done.into_inner().unwrap()
}

/// What rt lists of each crate, unchanged.
type Unchanged<'a> = BTreeMap<&'a str, Listed>;

/// Tries a batch of edits of one crate together. Those that are not refused then as they must be are tried once more, alone.
fn try_batch<'a>(copy: &Copy, batch: &[&'a Edit], unchanged: &Unchanged) -> Vec<Tried<'a>> {
    let together = try_edits(copy, batch, unchanged);
    let again = |tried: Tried<'a>| match tried.1 {
        Verdict::Refused(_) => vec![tried],
        _ => try_edits(copy, &[tried.0], unchanged),
    };
    if batch.len() == 1 {
        together
    } else {
        together.into_iter().flat_map(again).collect()
    }
}

/// Applies edits of one crate, has rt check the crate, undoes the edits and judges each.
fn try_edits<'a>(copy: &Copy, edits: &[&'a Edit], unchanged: &Unchanged) -> Vec<Tried<'a>> {
    let (began, name) = (Instant::now(), &edits[0].crate_name);
    let judged = edit::apply_all(edits, &copy.crate_folder(name)).and_then(|mut before| {
        let judged = judge_applied(copy, edits, &unchanged[name.as_str()], &mut before);
        edit::write(&before).and(judged)
    });
    let verdicts = judged.unwrap_or_else(|reason| edits.iter().map(|_| Verdict::Fault(reason.clone())).collect());
    let seconds = began.elapsed().as_secs_f64() / edits.len() as f64;
    edits.iter().zip(verdicts).map(|(edit, verdict)| (*edit, verdict, seconds)).collect()
}

/// Judges a crate as edits have left it, each edit by what rt says of its place. Proofs that no edit brings are renamed to fit the code
/// first, and their texts put to those that are to be written back.
fn judge_applied<'a>(
    copy: &Copy,
    edits: &[&'a Edit],
    listed: &Listed,
    before: &mut Texts,
) -> Result<Vec<Verdict>, String> {
    let name = &edits[0].crate_name;
    let fit_of = |edit: &Edit| if edit.brings_proof() { Fit::Brought } else { Fit::Renamed };
    let place = |edit: &&'a Edit| Place { at: &edit.at, proof: copy.proof_of(name, &edit.at), fit: fit_of(edit) };
    let mut places: Vec<Place> = edits.iter().map(place).collect();
    if edits.iter().any(|edit| edit.changes_code()) {
        let edited = copy.names(name)?;
        for place in places.iter_mut().filter(|place| place.fit == Fit::Renamed) {
            if !fit(copy, name, place, listed, &edited, before)? {
                place.fit = Fit::Missing;
            }
        }
    }
    let log = copy.check(name)?;
    let verdicts = places.iter().map(|place| match judge::judge(&log, name, place, &places) {
        Verdict::Fault(reason) => Verdict::Fault(format!("{reason}:\n{}", copy::start_of(&log).trim_end())),
        verdict => verdict,
    });
    Ok(verdicts.collect())
}

/// Renames what the proof of a place cites of the unchanged code to what it is in the edited code; whether the two have one shape.
fn fit(
    copy: &Copy,
    name: &str,
    place: &Place,
    unchanged: &Listed,
    edited: &Listed,
    before: &mut Texts,
) -> Result<bool, String> {
    let [Some(own), Some(other)] = [unchanged, edited].map(|listed| listed.of(name, place.at)) else { return Ok(true) };
    let Some(renamed) = own.renamed(&other) else { return Ok(false) };
    for file in place.proof.iter().flat_map(|proof| copy.proof_files(name, proof)) {
        let proof = fs::read_to_string(&file).map_err(|error| error.to_string())?;
        let text = names::rename(&proof, &renamed);
        before.insert(file.clone(), proof);
        fs::write(&file, text).map_err(|error| error.to_string())?;
    }
    Ok(true)
}

/// What is printed of an edit.
fn line((edit, verdict, seconds): &Tried) -> String {
    let said = match verdict {
        Verdict::Refused(first) => format!("refused: {first}"),
        Verdict::Accepted => "ACCEPTED: the crate is proved with it".to_string(),
        Verdict::Fault(reason) => format!("FAULTY: {reason}"),
    };
    format!("{}/{} ({seconds:.1} s): {said}", edit.crate_name, edit.label)
}

/// Prints a line for each crate, each edit that is not refused and a last line; whether all are refused. A crate's seconds are
/// those of its edits, added up.
fn report(crates: &[String], tried: &[Tried], all: f64, warm: f64) -> bool {
    let refused = |tried: &&Tried| matches!(tried.1, Verdict::Refused(_));
    for name in crates {
        let own = || tried.iter().filter(|tried| tried.0.crate_name == *name);
        let seconds: f64 = own().map(|tried| tried.2).sum();
        println!("{name}: {} wrong programs refused, {seconds:.0} s", own().filter(refused).count());
    }
    tried.iter().filter(|tried| !refused(tried)).for_each(|tried| println!("{}", line(tried)));
    let count = tried.iter().filter(refused).count();
    let failed = tried.len() - count;
    println!("wrong programs: {count} refused, {failed} not, in {all:.0} s, {warm:.0} s of them to warm up");
    failed == 0
}
