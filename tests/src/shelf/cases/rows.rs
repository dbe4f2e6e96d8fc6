//! Where the blocks of a stripe stand where parity rotates, by rows of members worked out by hand, with P and Q and
//! with P alone; which plain reads they refuse with a member failed; a shelf beside its twin whose parity is fixed; and
//! layouts and counts of parities that are neither.

use super::sequences::next_call;
use crate::random::Random;
use crate::shelf::harness::calls::{fetch, read, write, Buffer, Call, Measures, Shelf};
use crate::shelf::harness::lists::pick;
use crate::shelf::harness::pair::Pair;
use crate::shelf::harness::stand::Stand;
use crate::shelf::model::book::Book;
use crate::shelf::model::due::Due;
use crate::shelf::model::roles;
use crate::Outcome;

/// The members that have data 0, data 1, P and Q of each stripe, from stripe 0 on, on a shelf of two data disks.
const OF_TWO: [[usize; 4]; 9] = [
    [1, 2, 3, 0],
    [0, 1, 2, 3],
    [3, 0, 1, 2],
    [2, 3, 0, 1],
    [1, 2, 3, 0],
    [0, 1, 2, 3],
    [3, 0, 1, 2],
    [2, 3, 0, 1],
    [1, 2, 3, 0],
];

/// The same of data 0 to 4, P and Q on a shelf of five data disks.
const OF_FIVE: [[usize; 7]; 15] = [
    [1, 2, 3, 4, 5, 6, 0],
    [0, 1, 2, 3, 4, 5, 6],
    [6, 0, 1, 2, 3, 4, 5],
    [5, 6, 0, 1, 2, 3, 4],
    [4, 5, 6, 0, 1, 2, 3],
    [3, 4, 5, 6, 0, 1, 2],
    [2, 3, 4, 5, 6, 0, 1],
    [1, 2, 3, 4, 5, 6, 0],
    [0, 1, 2, 3, 4, 5, 6],
    [6, 0, 1, 2, 3, 4, 5],
    [5, 6, 0, 1, 2, 3, 4],
    [4, 5, 6, 0, 1, 2, 3],
    [3, 4, 5, 6, 0, 1, 2],
    [2, 3, 4, 5, 6, 0, 1],
    [1, 2, 3, 4, 5, 6, 0],
];

/// The members that have data 0, data 1 and P, without Q, on a shelf of two data disks.
const OF_TWO_WITHOUT_Q: [[usize; 3]; 7] = [[0, 1, 2], [2, 0, 1], [1, 2, 0], [0, 1, 2], [2, 0, 1], [1, 2, 0], [0, 1, 2]];

/// The same of data 0 to 2 and P on a shelf of three data disks.
const OF_THREE_WITHOUT_Q: [[usize; 4]; 9] = [
    [0, 1, 2, 3],
    [3, 0, 1, 2],
    [2, 3, 0, 1],
    [1, 2, 3, 0],
    [0, 1, 2, 3],
    [3, 0, 1, 2],
    [2, 3, 0, 1],
    [1, 2, 3, 0],
    [0, 1, 2, 3],
];

/// How many pairs of twins are tried for each table: so many with all its stripes and as many with one; and the calls
/// of a pair.
const PAIRS: usize = 80;
const CALLS: usize = 60;

/// How many rebuilds twins of one stripe must come through.
const REBUILDS: usize = 60;

/// Layouts that are neither fixed nor rotating: next to these, ones that 8, 16, 31, 32 or 63 bits take for them, and the
/// greatest ones.
const NEITHER: [usize; 16] = [
    2,
    3,
    4,
    255,
    256,
    257,
    65536,
    65537,
    1 << 31,
    u32::MAX as usize,
    1 << 32,
    (1 << 32) + 1,
    1 << 63,
    (1 << 63) + 1,
    usize::MAX - 1,
    usize::MAX,
];

/// Counts of parities that are neither, as the layouts.
const NO_COUNT: [usize; 16] = [
    0,
    3,
    4,
    255,
    256,
    257,
    258,
    65537,
    65538,
    (1 << 31) + 1,
    u32::MAX as usize,
    (1 << 32) + 1,
    (1 << 32) + 2,
    (1 << 63) + 2,
    usize::MAX - 1,
    usize::MAX,
];

/// Measures of a small shelf.
fn measures([d, parities]: [usize; 2], s: usize, layout: usize, random: &mut Random) -> Measures {
    let (b, l, h, e) = (1 + pick(3, random), 1 + pick(6 * d, random), 1 + pick(4, random), 1 + pick(3 * d, random));
    Measures { d, s, b, l, h, e, layout, parities }
}

/// Fails unless the model's walk and the book's distance from P both lead to the rows.
fn known([d, parities]: [usize; 2], rows: &[&[usize]], random: &mut Random) -> Result<(), String> {
    let m = measures([d, parities], rows.len(), 1, random);
    let book = Book::fresh(m);
    for (stripe, row) in rows.iter().enumerate() {
        let members = roles::members(m, stripe);
        if members != *row {
            return Err(format!("by the model {members:?} are the members of stripe {stripe}, not {row:?}"));
        }
        for (place, &member) in row.iter().enumerate() {
            let (found, due) = (book.after_p(member, stripe), (place + parities) % row.len());
            if found != due {
                return Err(format!("by the book member {member} of stripe {stripe} is {found} after P, not {due}"));
            }
        }
    }
    Ok(())
}

/// Fails unless plain reads of one, two and d + 1 blocks from each address on get 16 where the row of a stripe has a
/// failed member in the place of a block that is asked for, and else give what was written.
fn read_by_rows(shelf: &mut Shelf, rows: &[&[usize]], written: &[u8], stand: &mut Stand) -> Result<(), String> {
    let (Measures { d, b, .. }, failed) = (shelf.record.measures, shelf.record.failed);
    let total = d * rows.len();
    for (address, most) in (0..total).flat_map(|address| [1, 2, d + 1].map(|most| (address, most))) {
        let asked = address..(address + most).min(total);
        let is_lost = asked.clone().any(|block| failed[rows[block / d][block % d]] != 0);
        let call = read(address, asked.len());
        shelf.data = Buffer::of(vec![231; asked.len() * b]);
        let mut due = Due::nothing(call, shelf, if is_lost { 16 } else { 0 });
        due.data = (!is_lost).then(|| written[address * b..asked.end * b].to_vec());
        stand.expect(call, shelf, &due)?;
    }
    Ok(())
}

/// Makes these reads on a shelf of these measures with each pair of members failed, or each one where there is one
/// parity, the log among them, where parity is not stale.
fn plain_reads(m: Measures, rows: &[&[usize]], stand: &mut Stand, random: &mut Random) -> Result<(), String> {
    let (blocks, log) = (m.d * rows.len(), rows[0].len());
    let mut pair = Pair::fresh(m, 99, stand)?;
    let written = random.bytes(blocks * m.b);
    pair.step(write(0, blocks), Buffer::of(written.clone()), stand)?;
    let failed = (0..=log).flat_map(|x| (x..=log).map(move |y| (x, y)));
    for (x, y) in failed.filter(|(x, y)| (x == y) == (m.parities == 1)) {
        let mut shelf = pair.shelf.clone();
        (shelf.record.failed[x], shelf.record.failed[y]) = (1, 1);
        read_by_rows(&mut shelf, rows, &written, stand)?;
    }
    Ok(())
}

/// Two shelves that get the same calls, and the rows that lead from the one whose parity is fixed to the one where it
/// rotates.
struct Twins<'a> {
    rows: &'a [&'a [usize]],
    fixed: Pair,
    rotating: Pair,
}

impl Twins<'_> {
    /// Fresh twins with as many stripes as there are rows.
    fn fresh<'a>(m: Measures, rows: &'a [&'a [usize]], stand: &mut Stand) -> Result<Twins<'a>, String> {
        let fixed = Pair::fresh(m, 99, stand)?;
        let rotating = Pair::fresh(Measures { layout: 1, ..m }, 99, stand)?;
        Ok(Twins { rows, fixed, rotating })
    }

    /// Makes a call on both; a member of the fixed one that fails or is put back is that of the same role on the
    /// rotating one, where there is one stripe. Fails unless both answer and give the same and stay alike. Hands back
    /// the number.
    fn step(&mut self, call: Call, data: Buffer, stand: &mut Stand) -> Result<usize, String> {
        let turned = |member: usize| self.rows[0].get(member).copied().unwrap_or(member);
        let turned = match call {
            Call::Fail(member) => Call::Fail(turned(member)),
            Call::PutBack(member) => Call::PutBack(turned(member)),
            _ => call,
        };
        let code = self.fixed.step(call, data.clone(), stand)?;
        let given = stand.data().to_vec();
        let other = self.rotating.step(turned, data, stand)?;
        if code != other || given != stand.data() {
            return Err(format!("{call:?} answers {code} and {other}, or gives other data; {}", self.rotating.shelf));
        }
        self.spoil(code as u8);
        self.alike().map_err(|fault| format!("after {call:?} {fault}; the shelf: {}", self.rotating.shelf))?;
        Ok(code)
    }

    /// Overwrites the failed members of both with the same bytes.
    fn spoil(&mut self, byte: u8) {
        let b = self.fixed.shelf.record.measures.b;
        for place in (0..self.rows[0].len()).filter(|&place| self.fixed.shelf.record.failed[place] != 0) {
            let byte = byte.wrapping_mul(37).wrapping_add(place as u8 + 1);
            self.fixed.shelf.array.bytes[place * b..][..b].fill(byte);
            self.rotating.shelf.array.bytes[self.rows[0][place] * b..][..b].fill(byte);
        }
    }

    /// Fails unless the twins have the same mode, counts, log and list, and the same block in each role of each stripe.
    fn alike(&self) -> Result<(), String> {
        let (fixed, rotating) = (&self.fixed.shelf, &self.rotating.shelf);
        let counts = |shelf: &Shelf| [shelf.record.mode, shelf.record.next, shelf.record.listed];
        if counts(fixed) != counts(rotating) || fixed.log != rotating.log || fixed.list != rotating.list {
            return Err("the twins have other counts, another log or another list".into());
        }
        for (stripe, row) in self.rows.iter().enumerate() {
            for (place, &member) in row.iter().enumerate() {
                if self.fixed.stored(place, stripe) != self.rotating.stored(member, stripe) {
                    return Err(format!("member {member} of stripe {stripe} has not block {place}"));
                }
            }
        }
        Ok(())
    }
}

/// Makes random calls on twins: members fail only where there is one stripe. Hands back how many rebuilds were
/// accepted.
fn twins(count: [usize; 2], rows: &[&[usize]], stand: &mut Stand, random: &mut Random) -> Result<usize, String> {
    let m = measures(count, rows.len(), 0, random);
    let mut twins = Twins::fresh(m, rows, stand)?;
    twins.step(write(0, m.d * m.s), Buffer::of(random.bytes(m.d * m.s * m.b)), stand)?;
    let (is_busy, mut rebuilds) = (random.below(2) == 0, 0);
    for _ in 0..CALLS {
        let (call, data) = next_call(&twins.fixed.shelf, is_busy, random);
        if rows.len() == 1 || !matches!(call, Call::Fail(_)) {
            let code = twins.step(call, data, stand)?;
            rebuilds += usize::from(call == Call::Rebuild && code == 0);
        }
    }
    Ok(rebuilds)
}

/// Holds the rows of a table to the model, to the book, to plain reads with members failed, and to shelves beside their
/// twins. The rows of the fixed layout are the members in order. Hands back how many rebuilds the twins of one stripe
/// came through. The count is that of the data disks and that of the parities.
fn table(count: [usize; 2], rows: &[&[usize]], stand: &mut Stand, random: &mut Random) -> Result<usize, String> {
    known(count, rows, random)?;
    let in_order: Vec<usize> = (0..rows[0].len()).collect();
    for (layout, rows) in [(0, &vec![&in_order[..]; rows.len()][..]), (1, rows)] {
        plain_reads(measures(count, rows.len(), layout, random), rows, stand, random)?;
    }
    let mut rebuilds = 0;
    for _ in 0..PAIRS {
        twins(count, rows, stand, random)?;
        rebuilds += twins(count, &rows[..1], stand, random)?;
    }
    match rebuilds >= REBUILDS {
        true => Ok(rebuilds),
        false => Err(format!("twins came through {rebuilds} rebuilds, not {REBUILDS}")),
    }
}

/// Shelves of two stripes with so many parities, with the calls that are accepted: a fresh one, one in mode 1, one
/// without a member, and one without its log.
fn shelves(parities: usize, stand: &mut Stand) -> Result<Vec<(Shelf, Vec<Call>)>, String> {
    let fresh = Pair::fresh(Measures { d: 2, s: 2, b: 1, l: 3, h: 1, e: 2, layout: 0, parities }, 99, stand)?;
    let after = |call: Call, stand: &mut Stand| {
        let mut pair = fresh.clone();
        pair.step(call, Buffer::empty(), stand).map(|_| pair.shelf)
    };
    let on_fresh =
        vec![Call::Format, Call::Start, Call::Fail(0), write(1, 1), read(2, 1), fetch(2, 1), Call::FullResync];
    let started = after(Call::Start, stand)?;
    let without = [after(Call::Fail(1), stand)?, after(Call::Fail(2 + parities), stand)?];
    let [failed, without_log] = without;
    Ok(vec![
        (fresh.shelf.clone(), on_fresh),
        (started, vec![Call::Resync]),
        (failed, vec![Call::PutBack(1), Call::Rebuild]),
        (without_log, vec![Call::NewLog]),
    ])
}

/// Fails unless each call on a shelf with so many parities is accepted in both layouts, gets 1 in any other layout and
/// with any other count of parities but the other one, with that one gets 2 for the array's length or 1 for the flags,
/// and leaves all as it was.
fn neither(parities: usize, stand: &mut Stand) -> Result<(), String> {
    for (shelf, calls) in shelves(parities, stand)? {
        let mut shelf = Shelf { data: Buffer::of(vec![33]), ..shelf };
        for (call, layout) in calls.into_iter().flat_map(|call| [(call, 0), (call, 1)]) {
            let m = Measures { layout, ..shelf.record.measures };
            shelf.record.measures = m;
            if stand.as_model(call, &shelf)?.code() != 0 {
                return Err(format!("{call:?} is refused; the shelf: {shelf}"));
            }
            let layouts = NEITHER.map(|layout| (Measures { layout, ..m }, 1));
            let counts = NO_COUNT.map(|parities| (Measures { parities, ..m }, 1));
            let of_two = parities == 2 && shelf.record.failed[4] != 0;
            let other = (Measures { parities: 3 - parities, ..m }, if of_two { 1 } else { 2 });
            for (measures, code) in layouts.into_iter().chain(counts).chain([other]) {
                shelf.record.measures = measures;
                stand.expect(call, &shelf, &Due::nothing(call, &shelf, code))?;
            }
            shelf.record.measures = m;
        }
    }
    Ok(())
}

/// Tries the tables, and the layouts and counts of parities that are neither.
pub fn group(seed: u64) -> Outcome {
    let random = &mut Random::new(seed, 11);
    let stand = &mut Stand::default();
    let mut rebuilds = table([2, 2], &OF_TWO.each_ref().map(|row| &row[..]), stand, random)?;
    rebuilds += table([5, 2], &OF_FIVE.each_ref().map(|row| &row[..]), stand, random)?;
    rebuilds += table([2, 1], &OF_TWO_WITHOUT_Q.each_ref().map(|row| &row[..]), stand, random)?;
    rebuilds += table([3, 1], &OF_THREE_WITHOUT_Q.each_ref().map(|row| &row[..]), stand, random)?;
    neither(1, stand)?;
    neither(2, stand)?;
    Ok(format!(
        "{} and {} rows by hand, {} and {} with one parity, as the model, the book, plain reads with each pair of \
         members failed, or each one, and {} shelves beside their twins have them; {rebuilds} rebuilds of twins; {} \
         layouts and {} counts of parities that are neither, refused by every call; {} calls; seed {seed}",
        OF_TWO.len(),
        OF_FIVE.len(),
        OF_TWO_WITHOUT_Q.len(),
        OF_THREE_WITHOUT_Q.len(),
        8 * PAIRS,
        NEITHER.len(),
        NO_COUNT.len(),
        stand.calls
    ))
}
