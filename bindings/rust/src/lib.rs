//! The versioned cache of one node of TxCache.
//!
//! A [`Node`] keeps results of calls, each with the stamps of your database's history on which it holds. Give it each
//! event with the tags of what it changed, and it closes the results that depend on them. [`Node::lookup`] answers with a
//! result that holds at one of the stamps asked for, or with none.
//!
//! ```
//! use txcache_node::{Key, Node, Reach, Tag};
//!
//! let mut node = Node::new(1024, 64)?;
//! let key = Key::new(1, &[7])?;
//! node.insert(&key, Reach::still(0, 0), &[Tag::id(1, 7)?], b"ink")?;
//! assert_eq!(node.lookup(&key, 0, 9)?.unwrap().value, b"ink");
//! assert_eq!(node.event(1, &[Tag::id(1, 7)?])?, 1);
//! assert!(node.lookup(&key, 1, 9)?.is_none());
//! # Ok::<(), txcache_node::Error>(())
//! ```
mod ffi;
pub mod site;

use std::fmt;

/// The greatest number of a function.
pub const LAST_FUNCTION: u8 = 63;
/// The most arguments of a call.
pub const MAX_ARGS: usize = 4;
/// The greatest number of a table.
pub const LAST_TABLE: u8 = 15;
/// The greatest stamp.
pub const LAST_STAMP: u32 = 4_294_967_294;
/// The most events that a site stores.
pub const MAX_EVENTS: usize = 1_048_576;
/// The most entries of a node.
pub const MAX_CAPACITY: usize = 1_048_576;
/// The most bytes of a value.
pub const MAX_VALUE_LEN: usize = 1_048_576;
/// The most asks of the functions of an outermost call, all together.
pub const MAX_ASKS: usize = 4096;

// A longer value is asked for twice.
pub(crate) const FIRST_ROOM: usize = 1024;

/// Why a call was refused. The node is as it was.
#[derive(Clone, Copy, Debug, PartialEq, Eq)]
pub enum Error {
    /// A number is above its limit, or a size is 0.
    BadArgument,
    /// A lookup's stamps end before they begin.
    EmptyRange,
    /// A result is known up to a stamp below its first.
    BadReach,
    /// The event is not the one after the last that was taken, which has this stamp.
    OutOfOrder(u32),
    /// A value has more than [`MAX_VALUE_LEN`] bytes.
    ValueTooLong,
    /// An allocation failed.
    NoMemory,
}

impl fmt::Display for Error {
    fn fmt(&self, f: &mut fmt::Formatter<'_>) -> fmt::Result {
        match self {
            Error::BadArgument => write!(f, "a number is above its limit, or a size is 0"),
            Error::EmptyRange => write!(f, "the range of stamps is empty"),
            Error::BadReach => write!(f, "the last stamp known is below the first"),
            Error::OutOfOrder(processed) => write!(f, "the event is not the one after {processed}"),
            Error::ValueTooLong => write!(f, "the value is longer than {MAX_VALUE_LEN} bytes"),
            Error::NoMemory => write!(f, "memory was refused"),
        }
    }
}

impl std::error::Error for Error {}

fn error(number: u32, processed: u32) -> Error {
    match number {
        ffi::BAD_ARGUMENT => Error::BadArgument,
        ffi::EMPTY_RANGE => Error::EmptyRange,
        ffi::BAD_REACH => Error::BadReach,
        ffi::OUT_OF_ORDER => Error::OutOfOrder(processed),
        ffi::VALUE_TOO_LONG => Error::ValueTooLong,
        ffi::NO_MEMORY => Error::NoMemory,
        _ => unreachable!("a node is open, and a value that has no room is no error"),
    }
}

/// A call: a function's number, and up to [`MAX_ARGS`] arguments.
#[derive(Clone, Copy)]
pub struct Key(ffi::Key);

impl Key {
    pub fn new(function: u8, args: &[u32]) -> Result<Key, Error> {
        if function > LAST_FUNCTION || args.len() > MAX_ARGS {
            return Err(Error::BadArgument);
        }
        Ok(Key::from_parts(function, args))
    }

    fn from_parts(function: u8, given: &[u32]) -> Key {
        let mut args = [0; MAX_ARGS];
        args[..given.len()].copy_from_slice(given);
        Key(ffi::Key {
            function,
            count: given.len() as u8,
            args,
        })
    }

    pub fn function(&self) -> u8 {
        self.0.function
    }

    pub fn args(&self) -> &[u32] {
        &self.0.args[..self.0.count as usize]
    }
}

impl PartialEq for Key {
    fn eq(&self, other: &Key) -> bool {
        self.function() == other.function() && self.args() == other.args()
    }
}

impl Eq for Key {}

impl fmt::Debug for Key {
    fn fmt(&self, f: &mut fmt::Formatter<'_>) -> fmt::Result {
        write!(f, "f{}{:?}", self.function(), self.args())
    }
}

/// Rows that a result depends on, or that an event changed.
#[derive(Clone, Copy)]
#[repr(transparent)]
pub struct Tag(ffi::Tag);

impl Tag {
    fn of(table: u8, kind: u8, number: u32) -> Result<Tag, Error> {
        if table > LAST_TABLE {
            return Err(Error::BadArgument);
        }
        Ok(Tag(ffi::Tag {
            table,
            kind,
            number,
        }))
    }

    /// Every row of the table.
    pub fn all(table: u8) -> Result<Tag, Error> {
        Tag::of(table, 0, 0)
    }

    /// The row with that id.
    pub fn id(table: u8, id: u32) -> Result<Tag, Error> {
        Tag::of(table, 1, id)
    }

    /// The rows of that group.
    pub fn group(table: u8, group: u32) -> Result<Tag, Error> {
        Tag::of(table, 2, group)
    }
}

/// The stamps from `lo` to `known` on which a result is known to hold, and whether it may hold on, until an event
/// matches one of its tags.
#[derive(Clone, Copy, Debug, PartialEq, Eq)]
pub struct Reach {
    pub lo: u32,
    pub known: u32,
    pub is_still: bool,
}

impl Reach {
    /// Of a result that may hold on.
    pub fn still(lo: u32, known: u32) -> Reach {
        Reach {
            lo,
            known,
            is_still: true,
        }
    }

    /// Of a result that is known to hold there alone.
    pub fn closed(lo: u32, known: u32) -> Reach {
        Reach {
            lo,
            known,
            is_still: false,
        }
    }

    fn of(reach: ffi::Reach) -> Reach {
        Reach {
            lo: reach.lo,
            known: reach.known,
            is_still: reach.is_still,
        }
    }
}

/// The result of a lookup.
#[derive(Clone, Debug, PartialEq, Eq)]
pub struct Hit {
    pub reach: Reach,
    pub value: Vec<u8>,
}

/// The effect of an insertion.
#[derive(Clone, Copy, Debug, PartialEq, Eq)]
pub enum Inserted {
    /// The result is stored, with the reach after the events that it had missed; and the entry that was dropped for it, by
    /// its key and first stamp, if one was.
    Stored {
        reach: Reach,
        evicted: Option<(Key, u32)>,
    },
    /// A result of the key that begins there ends no earlier, and stays.
    Kept,
}

/// How often something was answered about the calls of one function.
#[derive(Clone, Copy, Debug, PartialEq, Eq)]
pub struct Counts {
    pub lookups: u64,
    pub hits: u64,
    pub stored: u64,
    pub kept: u64,
    pub evicted: u64,
}

/// How many entries a node holds, how many bytes their values have in all, and how many entries trims have dropped.
#[derive(Clone, Copy, Debug, PartialEq, Eq)]
pub struct Totals {
    pub entries: usize,
    pub bytes: usize,
    pub trimmed: u64,
}

impl Totals {
    pub(crate) const NONE: ffi::Totals = ffi::Totals {
        entries: 0,
        bytes: 0,
        trimmed: 0,
    };

    pub(crate) fn of(totals: ffi::Totals) -> Totals {
        Totals {
            entries: totals.entries,
            bytes: totals.bytes,
            trimmed: totals.trimmed,
        }
    }
}

/// A node. Threads share one by a lock of yours.
pub struct Node(ffi::Handle);

// That a handle may go to another thread is proved (`handle_crosses` in crates/txc_c). Each call takes it by `&mut`.
unsafe impl Send for Node {}

impl Node {
    /// A node for at most `capacity` entries, that keeps the tags of the last `recent` events.
    pub fn new(capacity: usize, recent: usize) -> Result<Node, Error> {
        let mut handle = ffi::Handle {
            slot: std::ptr::null_mut(),
            is_open: false,
        };
        match unsafe { ffi::txc_node_open(&mut handle, capacity, recent) } {
            ffi::DONE => Ok(Node(handle)),
            number => Err(error(number, 0)),
        }
    }

    /// A result of the key that holds at some stamp from `lo` to `hi`, both included. A value of more than 1,024 bytes is looked
    /// up twice, and counts so.
    pub fn lookup(&mut self, key: &Key, lo: u32, hi: u32) -> Result<Option<Hit>, Error> {
        let mut buffer = [0; FIRST_ROOM];
        let Some((reach, len)) = self.lookup_into(key, lo, hi, &mut buffer)? else {
            return Ok(None);
        };
        if len <= buffer.len() {
            let value = buffer[..len].to_vec();
            return Ok(Some(Hit { reach, value }));
        }
        let mut value = vec![0; len];
        let found = self.lookup_into(key, lo, hi, &mut value)?;
        Ok(found.map(|(reach, _)| Hit { reach, value }))
    }

    /// The same, with the value written to the front of a buffer, and its length returned. A value that is longer than the
    /// buffer writes no byte. It takes no memory.
    pub fn lookup_into(
        &mut self,
        key: &Key,
        lo: u32,
        hi: u32,
        buffer: &mut [u8],
    ) -> Result<Option<(Reach, usize)>, Error> {
        let mut reach = ffi::Reach {
            lo: 0,
            known: 0,
            is_still: false,
        };
        let mut len = 0;
        let number = unsafe {
            ffi::txc_node_lookup(
                &mut self.0,
                &key.0,
                lo,
                hi,
                &mut reach,
                buffer.as_mut_ptr(),
                buffer.len(),
                &mut len,
            )
        };
        match number {
            ffi::DONE | ffi::NO_ROOM => Ok(Some((Reach::of(reach), len))),
            ffi::MISS => Ok(None),
            number => Err(error(number, 0)),
        }
    }

    /// Inserts a result that was computed from the states of its reach, and depends on the tags.
    pub fn insert(&mut self, key: &Key, reach: Reach, tags: &[Tag], value: &[u8]) -> Result<Inserted, Error> {
        let given = ffi::Reach {
            lo: reach.lo,
            known: reach.known,
            is_still: reach.is_still,
        };
        let mut stored = ffi::Stored {
            reach: given,
            has_evicted: false,
            evicted: key.0,
            evicted_lo: 0,
        };
        let number = unsafe {
            ffi::txc_node_insert(
                &mut self.0,
                &key.0,
                &given,
                tags.as_ptr().cast(),
                tags.len(),
                value.as_ptr(),
                value.len(),
                &mut stored,
            )
        };
        match number {
            ffi::DONE => Ok(Inserted::Stored {
                reach: Reach::of(stored.reach),
                evicted: stored.has_evicted.then_some((Key(stored.evicted), stored.evicted_lo)),
            }),
            ffi::KEPT => Ok(Inserted::Kept),
            number => Err(error(number, 0)),
        }
    }

    /// Takes the event that made the state `stamp`, with the tags of what it changed, and counts the results that it
    /// closed. The first event has stamp 1.
    pub fn event(&mut self, stamp: u32, tags: &[Tag]) -> Result<usize, Error> {
        let (mut closed, mut processed) = (0, 0);
        let number = unsafe {
            ffi::txc_node_event(
                &mut self.0,
                stamp,
                tags.as_ptr().cast(),
                tags.len(),
                &mut closed,
                &mut processed,
            )
        };
        match number {
            ffi::DONE => Ok(closed),
            number => Err(error(number, processed)),
        }
    }

    /// Drops the results that hold at no stamp from `horizon` on, and counts them.
    pub fn sweep(&mut self, horizon: u32) -> Result<usize, Error> {
        let mut swept = 0;
        match unsafe { ffi::txc_node_sweep(&mut self.0, horizon, &mut swept) } {
            ffi::DONE => Ok(swept),
            number => Err(error(number, 0)),
        }
    }

    /// Keeps the longest prefix of the results, the most recently used first, whose values have at most `most` bytes in all. Returns
    /// how many it dropped. Call it after insertions, and the node stays within a budget of bytes.
    pub fn trim(&mut self, most: usize) -> usize {
        let mut dropped = 0;
        unsafe { ffi::txc_node_trim(&mut self.0, most, &mut dropped) };
        dropped
    }

    /// Returns what the node holds in all.
    pub fn totals(&mut self) -> Totals {
        let mut totals = Totals::NONE;
        unsafe { ffi::txc_node_totals(&mut self.0, &mut totals) };
        Totals::of(totals)
    }

    /// The counts of a function.
    pub fn counts(&mut self, function: u8) -> Result<Counts, Error> {
        let mut counts = ffi::Counts {
            lookups: 0,
            hits: 0,
            stored: 0,
            kept: 0,
            evicted: 0,
        };
        match unsafe { ffi::txc_node_count(&mut self.0, function, &mut counts) } {
            ffi::DONE => Ok(Counts {
                lookups: counts.lookups,
                hits: counts.hits,
                stored: counts.stored,
                kept: counts.kept,
                evicted: counts.evicted,
            }),
            number => Err(error(number, 0)),
        }
    }
}

impl Drop for Node {
    fn drop(&mut self) {
        unsafe { ffi::txc_node_close(&mut self.0) };
    }
}
