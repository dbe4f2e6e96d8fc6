//! Measures at the edges: of their ranges, and of the room that array, log and list have together.

use super::model::ROOM;
use crate::random::Random;
use crate::shelf::harness::calls::Measures;
use crate::shelf::harness::lists::pick;
use crate::shelf::model::numbers::RANGES;

/// Measures that are in their ranges, but whose sizes 32 bits take for small or negative ones.
const WIDE: [[usize; 6]; 4] = [
    [14, 65_536, 4_096, 1, 1, 1],
    [14, 65_536, 4_096, 4, 256, 9],
    [6, 65_536, 4_096, 1, 1, 1],
    [16, 65_536, 4_096, 65_536, 256, 4_096],
];

/// A small shelf with one measure at an end of its range, or just past it.
fn of_range(random: &mut Random) -> [usize; 6] {
    let mut values = [2 + pick(3, random), 1, 1, 1 + pick(2, random), 1 + pick(4, random), 1 + pick(9, random)];
    let at = pick(6, random);
    let (low, high) = RANGES[at];
    values[at] = [low - 1, low, high, high + 1][pick(4, random)];
    values
}

/// A small shelf with one measure that is far from its range.
fn far(random: &mut Random) -> [usize; 6] {
    let mut values = of_range(random);
    let few = pick(300, random);
    values[pick(6, random)] = [0, 65_536 + few, (1 << 31) + few, u32::MAX as usize - few % 3][pick(4, random)];
    values
}

/// A shelf that fills the room, up to less than a block.
fn full(random: &mut Random) -> [usize; 6] {
    let room = ROOM as usize;
    loop {
        let d = 2 + pick(15, random);
        let b = [1, 1, 1, 1, 2, 3, 4, 7, 16, 64, 500, 1_024, 4_096][pick(13, random)];
        let h = [1, 2, 255, 256, 1 + pick(256, random)][pick(5, random)];
        let most = room.saturating_sub(4 * h + 16 + b) / ((d + 2) * b);
        if most > 0 {
            let s = if random.below(4) == 0 { most } else { 1 + pick(most, random) };
            let rest = room - (d + 2) * s * b - 4 * h;
            let e = 1 + pick((rest - b) / 16, random);
            return [d, s, b, (rest - 16 * e) / b, h, e];
        }
    }
}

/// A shelf that fills the room or is a little too large for it: by a stripe, a record, a slot or a place.
fn of_room(random: &mut Random) -> [usize; 6] {
    let mut values = full(random);
    if random.below(2) == 0 {
        values[[1, 3, 3, 4, 5][pick(5, random)]] += 1;
    }
    values
}

/// Measures at an edge.
pub fn some(random: &mut Random) -> Measures {
    let [d, s, b, l, h, e] = match random.below(16) {
        0..=6 => of_room(random),
        7..=13 => of_range(random),
        14 => far(random),
        _ => WIDE[pick(4, random)],
    };
    Measures { d, s, b, l, h, e, layout: 0, parities: 2 }
}
