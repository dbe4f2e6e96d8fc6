//! The judge: what the prover's log says of a wrong program.
//!
//! A program is refused as it must be where the log ends in `logic=not-proved`, the first error is at the place that the edit names, and a
//! fact fails there. The place of a function is what stands in the folder of its proof, and the goals that rt's `search` must prove for
//! want of an answer; that of a file of laws is the file. These are no failed facts, and faults of the edit where there is nothing else:
//!   - no `logic=` line: the compiler refused the program, and the prover never saw it;
//!   - an error that is a consequence (`declarations that depend on`), or a function without a proof because one that it calls has none;
//!   - an error of a proof that no longer fits the code: a name that is not there (`that can be named from here`, `is not in scope`), a
//!     position that is not there (`has no field`), or another number of variables in a loop (`this pattern needs a function`).
//!
//! All else in the named proof is a failed fact, in whatever words: two types that differ, a fact of another sort than the proof uses, or
//! a `search`, `omega` or `simp` that finds nothing. A goal that `search` does not prove is a failed fact where the function has no
//! answer that misses its goal: such an answer could be the one that is wanted.
//!
//! An edit that changes the shape of the code must bring the proof along, by replacements in the folder of its place: the proof of the
//! code as it stands speaks of other places. A proof that is brought must be well formed and fit all over: any misfit in it, and any error
//! that names no goal, is a fault, even beside a failed fact.

/// What is to be said of a wrong program.
#[derive(Clone, Debug, PartialEq)]
pub enum Verdict {
    /// The prover refuses it where it must; the start of the first failed fact.
    Refused(String),
    /// The crate is proved with it.
    Accepted,
    /// The edit does not do what it is for, and why.
    Fault(String),
}

/// What must refuse an edit: a function or a file of laws, the folder or the file that proves it, if it has one, and how that proof
/// comes to fit the edited code.
pub struct Place<'a> {
    pub at: &'a str,
    pub proof: Option<String>,
    pub fit: Fit,
}

/// How the proof of a place comes to fit the code that an edit leaves.
#[derive(Clone, Copy, Debug, PartialEq)]
pub enum Fit {
    /// The code has the same shape, and the names in the proof are made those of the edited code.
    Renamed,
    /// The edit brings the proof along.
    Brought,
    /// The code has another shape, and the edit brings no proof.
    Missing,
}

/// What a log has to say.
struct Said<'a> {
    /// The errors that are no consequences, in their order: the file below the crate, and the error with the lines that belong to it.
    errors: Vec<(&'a str, String)>,
    /// The goals that `search` did not prove: the function, by its path from the crate on, and what rt says.
    open: Vec<(&'a str, &'a str)>,
}

/// Words of an error that say that a proof no longer fits the code.
const MISFITS: [&str; 4] =
    ["that can be named from here", "is not in scope", "has no field `", "this pattern needs a function"];

/// The prover's verdict on the crate that a log is of: its last, since a library may be proved before.
pub fn logic(log: &str) -> Option<&str> {
    log.lines().rev().find_map(|line| line.strip_prefix("logic="))
}

/// Judges a log of edits tried together, by what it says of one of them: of which crate, the place of this edit and all places. Each edit
/// changes a function of its own, and its proof cites promises of other functions and not their code; so what is at the other places is
/// left out, and what is left is what a log of this edit alone would have.
pub fn judge(log: &str, crate_name: &str, own: &Place, all: &[Place]) -> Verdict {
    let Some(logic) = logic(log) else {
        return Verdict::Fault("it does not reach the prover".to_string());
    };
    if logic.starts_with("proved") {
        return Verdict::Accepted;
    }
    if !logic.starts_with("not-proved") {
        return Verdict::Fault(format!("the prover cannot tell: logic={logic}"));
    }
    let said = said(log);
    let is_others = |file: &str| all.iter().any(|place| place.at != own.at && place.has(file));
    let mut errors = said.errors.iter().filter(|(file, _)| !is_others(file)).peekable();
    if errors.peek().is_some_and(|(file, _)| !own.has(file)) {
        return Verdict::Fault(format!("the first error is not at {}", own.at));
    }
    let (misfits, facts): (Vec<_>, Vec<_>) =
        errors.filter(|(file, _)| own.has(file)).partition(|(_, error)| is_misfit(error, own.fit));
    let function = format!("{crate_name}::{}", own.at);
    let mut open = said.open.iter().filter(|(name, _)| *name == function);
    match (facts.first(), misfits.first(), open.next()) {
        (_, Some(_), _) if own.fit == Fit::Brought => {
            Verdict::Fault("the proof that it brings does not fit".to_string())
        }
        (Some(_), ..) | (_, None, Some(_)) if own.fit == Fit::Missing => {
            Verdict::Fault("it changes the shape of the code, and brings no proof".to_string())
        }
        (Some((_, fact)), ..) => Verdict::Refused(head(fact)),
        (None, Some(_), _) => Verdict::Fault("the proof does not fit the code".to_string()),
        (None, None, Some((_, goal))) => Verdict::Refused(head(goal)),
        (None, None, None) => Verdict::Fault(format!("there is no error at {}", own.at)),
    }
}

impl Place<'_> {
    /// Whether a file, named below the crate, proves the place.
    fn has(&self, file: &str) -> bool {
        self.proof.as_ref().is_some_and(|proof| {
            file.strip_prefix(proof.as_str()).is_some_and(|rest| rest.is_empty() || rest.starts_with('/'))
        })
    }
}

/// Reads a log. What stands at a function's goals comes right before the function's own line.
fn said(log: &str) -> Said<'_> {
    let mut said = Said { errors: Vec::new(), open: Vec::new() };
    let (mut goals, mut inside) = (Vec::new(), false);
    for line in log.lines() {
        if let Some((file, _)) =
            line.strip_prefix("./").filter(|line| line.contains(": error: ")).and_then(|line| line.split_once(':'))
        {
            inside = !follows(line);
            if inside {
                said.errors.push((file, line.to_string()));
            }
        } else if inside && line.starts_with("  ") {
            said.errors.last_mut().unwrap().1.extend(["\n", line]);
        } else {
            inside = false;
        }
        if line.starts_with("note: src/") && line.contains(" it is not proved that ") {
            goals.push(line);
        } else if let Some((function, _)) = line.strip_prefix("fn ").and_then(|line| line.split_once(": ")) {
            said.open.extend(goals.drain(..).map(|goal| (function, goal)));
        }
    }
    said
}

/// Whether an error only follows from another.
fn follows(error: &str) -> bool {
    let depends = ["declarations that depend on `", "declaration that depends on `"];
    depends.iter().any(|words| error.contains(words)) || error.contains("was not admitted")
}

/// Whether an error says that the proof does not fit the code, and not that a fact fails. In a proof that an edit brings, an error that
/// names no goal is one of the proof's own form.
fn is_misfit(error: &str, fit: Fit) -> bool {
    let names_none = !error.contains(": error: `");
    MISFITS.iter().any(|words| error.contains(words)) || (fit == Fit::Brought && names_none)
}

/// The start of an error or of what is said of a goal, from its place in the crate on.
fn head(error: &str) -> String {
    let line = error.lines().next().unwrap_or_default();
    line.trim_start_matches("./").trim_start_matches("note: ").chars().take(160).collect()
}

#[cfg(test)]
mod tests {
    use super::*;

    const FILE: &str = "proofs/status/read_rows/Answers.antt";
    const FOLDER: &str = "proofs/status/read_rows";
    const PROVED: &str = "logic=proved functions=148";
    const NOT: &str = "logic=not-proved";

    /// Judges a log with one error in the file that is named, and with the verdict given.
    fn judged(error: &str, logic: &str) -> Verdict {
        let log = format!("./{FILE}:45:5: note: large solution\n./{FILE}:45:5: error: {error}\n{logic}");
        alone(&log, &place("status::read_rows", Some(FOLDER)))
    }

    /// Judges a log of one edit.
    fn alone(log: &str, place: &Place) -> Verdict {
        judge(log, "shelf", place, std::slice::from_ref(place))
    }

    /// A place.
    fn place<'a>(at: &'a str, proof: Option<&str>) -> Place<'a> {
        Place { at, proof: proof.map(String::from), fit: Fit::Renamed }
    }

    #[test]
    fn facts_fail() {
        for error in [
            "`returns-3`: computed as far as they go, the two types differ only where one has `0` (expected) and the other has `16`",
            "`returns-3`: expected type `2 ≤ c.result`, but this has type `3 ≤ c.result`",
            "`cast-t5`: `search`: no proof of `Fits w8` was found",
            "`sub`: `omega`: the goal does not follow from what it read. All of that holds, and the goal fails, at `d` = 0",
            "`a`: `goal.a`: module `Goals` has no `a` that can be named from here\n./proofs/status/read_rows/Invariants.antt:2:1: error: `b`: no",
        ] {
            assert!(matches!(judged(error, NOT), Verdict::Refused(_)), "{error}");
        }
    }

    #[test]
    fn misfits_are_faults() {
        for error in [
            "`a`: `goal.a`: module `Rattle.shelf.proofs.read_rows.Goals` has no `a` that can be named from here",
            "`returns-2`: record `Lts.After-log-failed`\n  has no field `array-failed`",
            "`returns`: `value-emptyy` is not in scope; did you mean `value-empty`?",
            "`loop`: this pattern needs a function (or path) type to bind, but the signature at this point is `Type 0`",
            "3 declarations that depend on `few`, which was rejected, were not checked: a, b, c",
            "1 declaration that depends on `few`, which was not admitted, was not checked: a",
        ] {
            assert!(matches!(judged(error, NOT), Verdict::Fault(_)), "{error}");
        }
    }

    #[test]
    fn edits_that_change_the_shape() {
        let fact = format!("./{FILE}:45:5: error: `returns`: two types differ\n");
        let misfit = format!("./{FILE}:9:5: error: `b`: `goal.b`: `Goals` has no `b` that can be named from here\n");
        let open = "note: src/status.rt:10:1: it is not proved that what the function ensures holds (`returns`)\n\
            fn shelf::status::read_rows: `search` did not prove `returns`\n";
        let refused = |fit, said: &[&str]| {
            let own = Place { fit, ..place("status::read_rows", Some(FOLDER)) };
            matches!(alone(&[&said.concat(), NOT].concat(), &own), Verdict::Refused(_))
        };
        for fact in [fact.as_str(), open] {
            assert!(refused(Fit::Brought, &[fact]) && refused(Fit::Renamed, &[fact]));
            assert!(!refused(Fit::Missing, &[fact]) && !refused(Fit::Brought, &[&misfit, fact]));
        }
        assert!(refused(Fit::Renamed, &[&misfit, &fact]) && !refused(Fit::Brought, &[&misfit]));
        let form = format!("./{FILE}:9:5: error: this line was read as a continuation of the declaration above\n");
        assert!(!refused(Fit::Brought, &[&form]) && !refused(Fit::Brought, &[&form, &fact]));
    }

    #[test]
    fn other_logs() {
        assert_eq!(judged("", PROVED), Verdict::Accepted);
        assert!(matches!(judged("", "error[unknown-name]"), Verdict::Fault(_)));
        for file in ["proofs/x/Answers.antt", "proofs/status/read_rows_too/Answers.antt", "proofs/status.antt"] {
            let log = format!("./{file}:1:1: error: `returns`: two types differ\n./{FILE}:1:1: error: `a`: no\n{NOT}");
            assert!(matches!(alone(&log, &place("status::read_rows", Some(FOLDER))), Verdict::Fault(_)), "{file}");
        }
        let laws = format!("./proofs/lent/Laws.antt:9:1: error: `law`: two types differ\n{NOT}");
        assert!(matches!(alone(&laws, &place("lent::Laws", Some("proofs/lent/Laws.antt"))), Verdict::Refused(_)));
    }

    #[test]
    fn goals_without_an_answer() {
        let open = "note: src/lib.rt:10:1: it is not proved that what the function ensures holds when it returns (`returns`)\n\
            note: a goal may be false even if its line does not say so\n\
            fn shelf::either: no proof: expected answers in ./proofs/either/Answers.antt; `search` did not prove `returns`\n\
            fn shelf::both: no proof: it calls `shelf::either`, which is not proved\n";
        let log = format!("{open}{NOT}");
        assert!(matches!(alone(&log, &place("either", None)), Verdict::Refused(_)));
        assert!(matches!(alone(&log, &place("both", None)), Verdict::Fault(_)));
        let misses = format!(
            "./proofs/either/Answers.antt:2:1: error: `a`: `Goals` has no `a` that can be named from here\n{log}"
        );
        assert!(matches!(alone(&misses, &place("either", Some("proofs/either"))), Verdict::Fault(_)));
    }

    #[test]
    fn edits_tried_together() {
        let error = |file: &str, words: &str| format!("./{file}/Answers.antt:9:1: error: `returns`: {words}\n  more\n");
        let [x, caller, z] = ["proofs/x", "proofs/y", "proofs/z"];
        let all =
            [place("x", Some(x)), place("status::read_rows", Some(FOLDER)), place("z", Some(z)), place("w", None)];
        let follows = "1 declaration that depends on `x_met`, which was rejected, was not checked: a";
        let log = [
            &error(x, "two types differ"),
            &error(caller, follows),
            &error(FOLDER, "two types differ"),
            &error(z, follows),
            NOT,
        ]
        .concat();
        let refused = |place: &Place| matches!(judge(&log, "shelf", place, &all), Verdict::Refused(_));
        assert_eq!(all.each_ref().map(refused), [true, true, false, false]);
        assert!(matches!(judge(&log, "shelf", &all[0], &all[..1]), Verdict::Refused(_)));
        assert!(matches!(judge(&log, "shelf", &all[1], &all[1..2]), Verdict::Fault(_)));
    }
}
