//! Readers of the published values in data/: field.txt with SnapRAID's tables, stripes.txt with stripes made by ISA-L.

const FIELD: &str = include_str!("../data/field.txt");
const STRIPES: &str = include_str!("../data/stripes.txt");

/// The products of one factor with 0 to 255.
pub struct Row {
    pub factor: u8,
    pub products: Vec<u8>,
}

/// The published tables of the field.
pub struct Tables {
    pub power: Vec<u8>,
    pub inverse: Vec<u8>,
    pub rows: Vec<Row>,
}

/// A stripe: d data blocks and P, with two parities Q too, of b bytes each. A published one has two.
pub struct Stripe {
    pub d: usize,
    pub parities: usize,
    pub b: usize,
    pub bytes: Vec<u8>,
}

impl Stripe {
    /// The same data with one parity: the stripe without Q.
    pub fn without_q(&self) -> Stripe {
        let Stripe { d, b, .. } = *self;
        Stripe { d, parities: 1, b, bytes: self.bytes[..(d + 1) * b].to_vec() }
    }
}

/// The lines of a file that are not comments.
fn lines(text: &'static str) -> impl Iterator<Item = &'static str> {
    text.lines().filter(|line| !line.starts_with('#') && !line.trim().is_empty())
}

/// A decimal number, or a failure that names the word.
fn number<T: std::str::FromStr>(word: &str) -> Result<T, String> {
    word.parse().map_err(|_| format!("the published data has {word} where a number is due"))
}

/// Exactly 256 bytes written in decimal.
fn table(words: &[&str]) -> Result<Vec<u8>, String> {
    if words.len() != 256 {
        return Err(format!("a published table has {} entries, not 256", words.len()));
    }
    words.iter().map(|word| number(word)).collect()
}

impl Tables {
    /// Reads field.txt, which has each table once and at least one row of products.
    pub fn read() -> Result<Tables, String> {
        let (mut power, mut inverse, mut rows) = (Vec::new(), Vec::new(), Vec::new());
        for line in lines(FIELD) {
            let words: Vec<&str> = line.split_whitespace().collect();
            match words[0] {
                "power" => power = table(&words[1..])?,
                "inverse" => inverse = table(&words[1..])?,
                "row" => rows.push(Row { factor: number(words[1])?, products: table(&words[2..])? }),
                other => return Err(format!("field.txt has a line {other}")),
            }
        }
        if power.is_empty() || inverse.is_empty() || rows.is_empty() {
            return Err("field.txt lacks a table".into());
        }
        Ok(Tables { power, inverse, rows })
    }
}

/// The bytes that a word of hexadecimal digits stands for.
fn hexadecimal(word: &str) -> Result<Vec<u8>, String> {
    let pairs = word.as_bytes().chunks(2);
    pairs
        .map(|pair| {
            std::str::from_utf8(pair).ok().filter(|p| p.len() == 2).and_then(|p| u8::from_str_radix(p, 16).ok())
        })
        .collect::<Option<Vec<u8>>>()
        .ok_or_else(|| format!("stripes.txt has {word} where hexadecimal bytes are due"))
}

/// Reads a line of stripes.txt: d, b, then d + 2 blocks.
fn stripe(line: &str) -> Result<Stripe, String> {
    let words: Vec<&str> = line.split_whitespace().collect();
    let (d, b): (usize, usize) = (number(words[0])?, number(words[1])?);
    let blocks = words[2..].iter().map(|word| hexadecimal(word)).collect::<Result<Vec<_>, _>>()?;
    if blocks.len() != d + 2 || blocks.iter().any(|block| block.len() != b) {
        return Err(format!("stripes.txt has a line of d {d}, b {b} without {} blocks of {b} bytes", d + 2));
    }
    Ok(Stripe { d, parities: 2, b, bytes: blocks.concat() })
}

/// Reads stripes.txt, which has at least one stripe.
pub fn stripes() -> Result<Vec<Stripe>, String> {
    let all = lines(STRIPES).map(stripe).collect::<Result<Vec<_>, _>>()?;
    if all.is_empty() {
        return Err("stripes.txt has no stripe".into());
    }
    Ok(all)
}
