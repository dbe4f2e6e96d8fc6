//! The plain read beside the recovering one, on the same shelf and with the same arguments. The model is not asked.

use super::calls::{fetch, Call, Shelf};
use super::stand::Stand;
use crate::random::Random;
use crate::shelf::model::numbers::{failed, in_ranges};

/// The shelf with every byte of the log and of the failed array members overwritten.
fn overwritten(shelf: &Shelf, random: &mut Random) -> Shelf {
    let (mut other, m) = (shelf.clone(), shelf.record.measures);
    random.fill(&mut other.log.bytes);
    if in_ranges(m) {
        let members = other.array.bytes.chunks_mut(m.s * m.b).enumerate();
        members.filter(|&(member, _)| failed(&shelf.record, member)).for_each(|(_, bytes)| random.fill(bytes));
    }
    other
}

/// Whether the numbers of a plain and of a recovering read go together, and the data where both give it: where the
/// plain one is accepted, so is the other, with the same bytes; 16 is given where the other is accepted or, with two
/// parities, withheld; any other number is that of both.
fn agree(parities: usize, (plain, data): &(usize, Vec<u8>), (recovering, fetched): &(usize, Vec<u8>)) -> bool {
    match plain {
        0 => *recovering == 0 && data == fetched,
        16 => *recovering == 0 || *recovering == 14 && parities == 2,
        _ => recovering == plain,
    }
}

/// Makes a plain read, a recovering one, and the plain one again with other bytes in the log and on the failed members.
/// Fails unless the first two agree, the third answers and gives what the first does, and each stores into the caller's
/// data alone, and nothing where it is refused. Nothing is made of another call.
pub fn compare(call: Call, shelf: &Shelf, stand: &mut Stand, random: &mut Random) -> Result<(), String> {
    let Call::Read { address, count } = call else {
        return Ok(());
    };
    let plain = stand.read(call, shelf)?;
    let recovering = stand.read(fetch(address, count), shelf)?;
    if !agree(shelf.record.measures.parities, &plain, &recovering) {
        let numbers = [plain.0, recovering.0];
        return Err(format!("{call:?} and a fetch answer {numbers:?}, or give other data; the shelf: {shelf}"));
    }
    let again = stand.read(call, &overwritten(shelf, random))?;
    match again == plain {
        true => Ok(()),
        false => Err(format!("{call:?} goes by bytes of the log or of failed members; the shelf: {shelf}")),
    }
}
