//! Names: what rt lists of a function, by which its proof speaks of the code.
//!
//! A proof cites goals and places by names that rt makes of the code's text, as `returns-then-b-eq0` where the code has `if b == 0`.
//! rt lists beside each the name by its position, as `returns-2`, and how the places follow one another. Where the branches, loops and
//! calls of two programs follow one another alike, their code has one shape, and the proof of the one speaks of the other once its names
//! are renamed.

use std::collections::BTreeMap;

/// What rt lists of each function of a crate.
pub struct Listed(BTreeMap<String, Json>);

/// The names of one function.
#[derive(Debug, PartialEq)]
pub struct Names {
    /// Each goal's name by its position beside that by the code's text.
    goals: Vec<[String; 2]>,
    /// What each place is, by the kinds of its names, the place before it and what it calls.
    shape: Vec<String>,
    /// The names of the places by the code's text, in their order.
    places: Vec<String>,
}

impl Listed {
    /// Reads what rt writes to names.json.
    pub fn read(text: &str) -> Result<Listed, String> {
        match Reader(text).value() {
            Some(Json::Map(functions)) => Ok(Listed(functions)),
            _ => Err("rt lists no names".to_string()),
        }
    }

    /// The names of a function of a crate; none where rt lists no such function, as of a file of laws.
    pub fn of(&self, crate_name: &str, at: &str) -> Option<Names> {
        let path = format!("Rattle-{crate_name}-proofs.{}", at.replace("::", "."));
        let (folder, name) = path.rsplit_once('.')?;
        let recursive = || self.0.get(&format!("{folder}.+{name}.Lts-{name}"));
        let function = self.0.get(&format!("{path}.Lts")).or_else(recursive)?;
        let goals = function.at("needs").list().iter().filter_map(Json::pair).collect();
        let (mut shape, mut places) = (Vec::new(), Vec::new());
        for found in function.at("loops").list().iter().filter_map(|found| found.nth(0).pair()) {
            shape.push(kind(&found[0]));
            places.extend(found.into_iter().skip(1));
        }
        let before = function.at("places").list();
        for (place, name) in before.iter().zip(function.at("places_by_name").list()) {
            let parent = before.iter().position(|other| other.nth(0).text() == place.nth(1).text());
            shape.push(format!("{:?}", (kind(place.nth(0).text()), parent, place.nth(3).text())));
            places.extend([name.text().to_string(), small(name.text())]);
            places.extend(place.nth(2).pair().map(|[_, name]| name));
        }
        Some(Names { goals, shape, places })
    }
}

impl Names {
    /// What the names of this function are in another program, if its code has the same shape there and each name one other. A goal
    /// that only one of the two has stays out: its name is none of the other's.
    pub fn renamed(&self, other: &Names) -> Option<BTreeMap<String, String>> {
        let by_position = |position: &String| other.goals.iter().find(|[other, _]| other == position);
        let goals = self.goals.iter().filter_map(|[position, name]| Some((name, &by_position(position)?[1])));
        let mut renamed = BTreeMap::new();
        for (name, other_name) in goals.chain(self.places.iter().zip(&other.places)) {
            if renamed.insert(name.clone(), other_name.clone()).is_some_and(|known| known != *other_name) {
                return None;
            }
        }
        (self.shape == other.shape && self.places.len() == other.places.len()).then_some(renamed)
    }
}

/// A proof with its names renamed: a name itself, or that of a goal with one of its clauses.
pub fn rename(proof: &str, renamed: &BTreeMap<String, String>) -> String {
    let mut text = String::new();
    let mut rest = proof;
    while let Some(start) = rest.find(is_word) {
        let end = rest[start..].find(|c| !is_word(c)).map_or(rest.len(), |length| start + length);
        let word = &rest[start..end];
        let (goal, clause) = word.split_at(word.find("-clause-").unwrap_or(word.len()));
        text.push_str(&rest[..start]);
        match (renamed.get(word), renamed.get(goal)) {
            (Some(name), _) => text.push_str(name),
            (None, Some(name)) => text.extend([name, clause]),
            (None, None) => text.push_str(word),
        }
        rest = &rest[end..];
    }
    text + rest
}

/// What a place is by its name: the word that it begins with, as `Then` or `After`, and whether what is there is left unread.
fn kind(position: &str) -> String {
    let word = position.split('-').next().unwrap_or_default().trim_end_matches(|c: char| c.is_ascii_digit());
    format!("{word}{}", if position.ends_with("-unread") { " unread" } else { "" })
}

/// A name with a small first letter, as it stands in a name of two places that join, `then-x+else-y`.
fn small(name: &str) -> String {
    name.chars().take(1).flat_map(char::to_lowercase).chain(name.chars().skip(1)).collect()
}

/// Whether a character can stand in a name.
fn is_word(c: char) -> bool {
    c.is_alphanumeric() || ['_', '-', '\''].contains(&c)
}

/// A value of JSON; numbers and words are not told apart.
#[derive(Debug)]
enum Json {
    Text(String),
    List(Vec<Json>),
    Map(BTreeMap<String, Json>),
    Other,
}

impl Json {
    /// The value under a key.
    fn at(&self, key: &str) -> &Json {
        match self {
            Json::Map(values) => values.get(key).unwrap_or(&Json::Other),
            _ => &Json::Other,
        }
    }

    /// The values of a list.
    fn list(&self) -> &[Json] {
        match self {
            Json::List(values) => values,
            _ => &[],
        }
    }

    /// A value of a list.
    fn nth(&self, number: usize) -> &Json {
        self.list().get(number).unwrap_or(&Json::Other)
    }

    /// The text that the value is; none where it is no text.
    fn text(&self) -> &str {
        match self {
            Json::Text(text) => text,
            _ => "",
        }
    }

    /// The two texts of a list.
    fn pair(&self) -> Option<[String; 2]> {
        match self.list() {
            [Json::Text(one), Json::Text(two)] => Some([one.clone(), two.clone()]),
            _ => None,
        }
    }
}

/// What is left to read of a text.
struct Reader<'a>(&'a str);

impl Reader<'_> {
    /// Reads a value.
    fn value(&mut self) -> Option<Json> {
        match self.next()? {
            '"' => self.text().map(Json::Text),
            '[' => {
                let mut values = Vec::new();
                while !self.takes(']') {
                    values.push(self.value()?);
                    self.takes(',');
                }
                Some(Json::List(values))
            }
            '{' => {
                let mut values = BTreeMap::new();
                while !self.takes('}') {
                    let key = if self.takes('"') { self.text()? } else { return None };
                    if !self.takes(':') {
                        return None;
                    }
                    values.insert(key, self.value()?);
                    self.takes(',');
                }
                Some(Json::Map(values))
            }
            c if c.is_alphanumeric() || c == '-' => {
                self.0 = self.0.trim_start_matches(|c: char| c.is_alphanumeric() || ['-', '+', '.'].contains(&c));
                Some(Json::Other)
            }
            _ => None,
        }
    }

    /// Reads a text from behind its first quote.
    fn text(&mut self) -> Option<String> {
        let mut text = String::new();
        let mut rest = self.0.chars();
        loop {
            match rest.next()? {
                '"' => break,
                '\\' => match rest.next()? {
                    'n' => text.push('\n'),
                    't' => text.push('\t'),
                    'u' => {
                        let (digits, behind) = (rest.as_str().get(..4)?, rest.as_str().get(4..)?);
                        text.extend(char::from_u32(u32::from_str_radix(digits, 16).ok()?));
                        rest = behind.chars();
                    }
                    other => text.push(other),
                },
                other => text.push(other),
            }
        }
        self.0 = rest.as_str();
        Some(text)
    }

    /// Takes the next character that is no blank.
    fn next(&mut self) -> Option<char> {
        self.0 = self.0.trim_start();
        let first = self.0.chars().next()?;
        self.0 = &self.0[first.len_utf8()..];
        Some(first)
    }

    /// Takes a character where it is the next one that is no blank.
    fn takes(&mut self, wanted: char) -> bool {
        self.0 = self.0.trim_start();
        self.0.strip_prefix(wanted).map(|rest| self.0 = rest).is_some()
    }
}

#[cfg(test)]
mod tests {
    use super::*;

    /// What rt lists of a function `c::m::f` whose branch and goals have these names.
    fn listed(branch: &str, goals: &str, called: &str) -> Option<Names> {
        let text = format!(
            r#"{{"Rattle-c-proofs.m.f.Lts": {{"args": [1, -2.5e3, null], "needs": {goals}, "loops": [[["loop", "\u006coop-i"], ["i"]]],
            "places": [["Start", null, ["", ""], null, []],
                       ["Then1", "Start", ["if1", "if-{branch}"], {called}, []]],
            "places_by_name": ["Start", "Then-{branch}"]}}}}"#
        );
        Listed::read(&text).unwrap().of("c", "m::f")
    }

    const GOALS: &str = r#"[["returns", "returns-then-b-eq0"], ["returns-2", "returns"]]"#;
    const OTHERS: &str = r#"[["returns", "returns-then-b-eq1"], ["returns-2", "returns"]]"#;

    #[test]
    fn names_of_one_shape() {
        let base = listed("b-eq0", GOALS, "null").unwrap();
        let renamed = base.renamed(&listed("b-eq1", OTHERS, "null").unwrap()).unwrap();
        let proof = "returns-then-b-eq0-clause-value : goal.returns-then-b-eq0-clause-value\nreturns c = f c.if-b-eq0.true b-eq0 eq0";
        assert_eq!(
            rename(proof, &renamed),
            "returns-then-b-eq1-clause-value : goal.returns-then-b-eq1-clause-value\nreturns c = f c.if-b-eq1.true b-eq0 eq0"
        );
        assert_eq!(rename(proof, &base.renamed(&base).unwrap()), proof);
        assert_eq!(renamed["loop-i"], "loop-i");
    }

    #[test]
    fn names_of_other_shapes() {
        let base = listed("b-eq0", GOALS, "null").unwrap();
        assert_eq!(base.renamed(&listed("b-eq0", GOALS, r#""c::g""#).unwrap()), None);
        let fewer = listed("b-eq0", r#"[["returns-2", "last"], ["mul", "overflow_mul-b"]]"#, "null").unwrap();
        let renamed = base.renamed(&fewer).unwrap();
        assert_eq!((renamed.get("returns-then-b-eq0"), renamed["returns"].as_str()), (None, "last"));
        let twice = listed("b", r#"[["returns", "x"], ["returns-2", "x"]]"#, "null").unwrap();
        assert_eq!(twice.renamed(&listed("b", GOALS, "null").unwrap()), None);
        assert_eq!(Listed::read("{}").unwrap().of("c", "m::f"), None);
        assert!(Listed::read("{\"a\" 1}").is_err());
    }
}
