//! What the cuts take for granted: while a call runs, each byte of the array is at any moment as it was before the
//! call or as it is after it. The array is in memory that can't be stored into; each instruction that stores there is
//! let through alone, by the processor's trap flag, and the array is looked at after it.

use std::ptr::null_mut;
use std::slice;
use std::sync::atomic::{AtomicPtr, Ordering};

use super::sequences;
use super::trails::Kind::{self, FullResync, Rebuild, Resync, Write};
use super::trails::{reached, trail, Trail};
use crate::random::Random;
use crate::shelf::harness::lists::pick;
use crate::shelf::harness::stand::Stand;
use crate::Outcome;

/// How many shelves there are, and the kinds of calls that are made on each.
const SHELVES: usize = 240;
const KINDS: [Kind; 4] = [Write, Resync, FullResync, Rebuild];

/// How many calls of each kind are due that store into the array, by layout and parities.
const AT_LEAST: usize = 4;

/// The functions and numbers of the C library on x86-64.
mod library {
    pub const READ: i32 = 1;
    pub const READ_AND_WRITE: i32 = 3;
    pub const PRIVATE_AND_ANONYMOUS: i32 = 0x22;
    pub const SIGTRAP: i32 = 5;
    pub const SIGSEGV: i32 = 11;
    pub const SA_SIGINFO: i32 = 4;

    /// The offset of the address of a fault in the information that a handler is given, that of the processor's flags
    /// in the context, and the trap flag.
    pub const ADDRESS: usize = 16;
    pub const FLAGS: usize = 176;
    pub const TRAP: u64 = 0x100;

    /// What is done where a signal comes.
    #[repr(C)]
    pub struct Action {
        pub handler: usize,
        pub mask: [u64; 16],
        pub flags: i32,
        pub restorer: usize,
    }

    /// No handler.
    pub const NOTHING: Action = Action { handler: 0, mask: [0; 16], flags: 0, restorer: 0 };

    extern "C" {
        pub fn mmap(at: *mut u8, length: usize, access: i32, flags: i32, file: i32, offset: i64) -> *mut u8;
        pub fn mprotect(at: *mut u8, length: usize, access: i32) -> i32;
        pub fn sigaction(signal: i32, new: *const Action, old: *mut Action) -> i32;
    }
}

use library::{Action, ADDRESS, FLAGS, NOTHING, READ, READ_AND_WRITE, SA_SIGINFO, SIGSEGV, SIGTRAP, TRAP};

/// How many bytes the memory has in which the array is: more than the longest array, at any of the first 64.
const ROOM: usize = 1 << 18;

/// What is looked at: the memory, where the array starts there, its bytes before and after the call, how many
/// instructions stored into it, and the first byte that was neither.
struct Watch {
    room: *mut u8,
    start: usize,
    before: Vec<u8>,
    after: Vec<u8>,
    stores: usize,
    neither: Option<usize>,
}

/// The watch of the call under way.
static WATCH: AtomicPtr<Watch> = AtomicPtr::new(null_mut());

/// A handler of a signal: its number, information on what raised it, and the context, which it may change.
type Handler = extern "C" fn(i32, *const usize, *mut u64);

/// Lets an instruction through that stores into the memory, and has it trapped after that. A fault elsewhere is one of
/// the call's own: it comes again without a handler, and ends the program.
extern "C" fn let_through(_: i32, info: *const usize, context: *mut u64) {
    // SAFETY: the watch is there until the call ends; information and context have address and flags at these offsets.
    unsafe {
        let (watch, at) = (&*WATCH.load(Ordering::Relaxed), *info.byte_add(ADDRESS));
        if !(watch.room as usize..watch.room as usize + ROOM).contains(&at) {
            library::sigaction(SIGSEGV, &NOTHING, null_mut());
            return;
        }
        library::mprotect(watch.room, ROOM, READ_AND_WRITE);
        *context.byte_add(FLAGS) |= TRAP;
    }
}

/// Looks at the array after an instruction that stored into it, and shuts the memory again.
extern "C" fn look(_: i32, _: *const usize, context: *mut u64) {
    // SAFETY: as above, and the array is as long as it was before the call.
    let (watch, now) = unsafe {
        let watch = &mut *WATCH.load(Ordering::Relaxed);
        let now = slice::from_raw_parts(watch.room.add(watch.start), watch.before.len());
        library::mprotect(watch.room, ROOM, READ);
        *context.byte_add(FLAGS) &= !TRAP;
        (watch, now)
    };
    let is_neither = |at: &usize| now[*at] != watch.before[*at] && now[*at] != watch.after[*at];
    watch.neither = watch.neither.or((0..now.len()).find(is_neither));
    watch.stores += 1;
}

/// Has a handler called where a signal comes; hands back what was done before.
fn handled(signal: i32, handler: Handler) -> Action {
    let mut old = NOTHING;
    let new = Action { handler: handler as *const () as usize, flags: SA_SIGINFO, ..NOTHING };
    // SAFETY: both are actions as the C library has them.
    unsafe { library::sigaction(signal, &new, &mut old) };
    old
}

impl Watch {
    /// Makes the call of a trail again, with the array in the memory that is shut. Hands back its number and the
    /// array.
    fn made(&mut self, trail: &Trail) -> (usize, Vec<u8>) {
        let mut shelf = trail.states[0].shelf.clone();
        shelf.data = trail.states[1].shelf.data.clone();
        let others =
            [&mut shelf.log, &mut shelf.list, &mut shelf.data].map(|buffer| (buffer.bytes.as_mut_ptr(), buffer.told));
        WATCH.store(self, Ordering::Relaxed);
        let old = [(SIGSEGV, handled(SIGSEGV, let_through)), (SIGTRAP, handled(SIGTRAP, look))];
        // SAFETY: the memory is longer than the array, and each buffer as long as is told.
        unsafe {
            let array = self.room.add(self.start);
            array.copy_from_nonoverlapping(self.before.as_ptr(), self.before.len());
            library::mprotect(self.room, ROOM, READ);
            let (code, ..) =
                trail.call.made(shelf.record, [(array, shelf.array.told), others[0], others[1], others[2]]);
            library::mprotect(self.room, ROOM, READ_AND_WRITE);
            for (signal, action) in &old {
                library::sigaction(*signal, action, null_mut());
            }
            (code, slice::from_raw_parts(array, self.before.len()).to_vec())
        }
    }
}

/// Fails if the call of a trail, made again, leaves another array than it left, or if a byte was neither before nor
/// after it. Hands back how many instructions stored into the array.
fn watched(room: *mut u8, trail: &Trail, random: &mut Random) -> Result<usize, String> {
    let [before, after] = [0, 1].map(|at| trail.states[at].shelf.array.bytes.clone());
    if before.len() + 64 > ROOM {
        return Err(format!("an array of {} bytes is longer than the memory for it", before.len()));
    }
    let mut watch = Watch { room, start: pick(64, random), before, after, stores: 0, neither: None };
    let (code, array) = watch.made(trail);
    match (code, watch.neither) {
        (0, None) if array == watch.after => Ok(watch.stores),
        (_, neither) => {
            let (call, shelf) = (trail.call, &trail.states[0].shelf);
            Err(format!("{call:?}: answer {code}, byte {neither:?} neither before nor after; the shelf: {shelf}"))
        }
    }
}

/// The memory in which the array is.
fn room() -> Result<*mut u8, String> {
    // SAFETY: new memory is asked for.
    let room = unsafe { library::mmap(null_mut(), ROOM, READ_AND_WRITE, library::PRIVATE_AND_ANONYMOUS, -1, 0) };
    match room as isize {
        -1 => Err("there is no memory for the array".into()),
        _ => Ok(room),
    }
}

/// Makes the calls.
pub fn group(seed: u64) -> Outcome {
    let (random, room, mut stand) = (&mut Random::new(seed, 13), room()?, Stand::default());
    let (mut counts, mut sum) = ([[[0; 2]; 2]; KINDS.len()], 0);
    for _ in 0..SHELVES {
        let pair = reached(sequences::measures(random), &mut stand, random)?;
        let m = pair.shelf.record.measures;
        for (at, kind) in KINDS.into_iter().enumerate() {
            let Some(trail) = trail(kind, &pair, &mut stand, random)? else {
                continue;
            };
            let stores = watched(room, &trail, random)?;
            counts[at][m.layout][m.parities - 1] += usize::from(stores > 0);
            sum += stores;
        }
    }
    let least = counts.iter().flatten().flatten().copied().min().unwrap_or(0);
    if least < AT_LEAST {
        return Err(format!("{counts:?} calls stored into the array, by kind, layout and parities, not {AT_LEAST}"));
    }
    let calls: usize = counts.iter().flatten().flatten().sum();
    Ok(format!(
        "{calls} writes, resyncs, full resyncs and rebuilds, each {least} times at least by layout and parities: after \
         each of the {sum} instructions that store into the array every byte is as before the call or as after it; \
         seed {seed}"
    ))
}
