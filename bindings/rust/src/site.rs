//! Transactions whose functions you compute, over a database, its pins and a node.
//!
//! Threads share a [`Site`], and each begins transactions of its own. A transaction's functions are computed outside of the site's
//! lock, which is held for single calls of the library alone: so no thread waits for another's function.
//!
//! ```
//! use txcache_node::site::{Asking, Error, Query, Site};
//! use txcache_node::Key;
//!
//! fn highest(asking: &mut dyn Asking, item: u32) -> Result<Vec<u8>, Error> {
//!     let rows = asking.rows(Query::group(1, item))?;
//!     Ok(rows.iter().map(|row| row.body.clone()).max().unwrap_or_default())
//! }
//!
//! let site = Site::new(None, 100, 64, 20_000)?;
//! let mut write = site.write()?;
//! write.put(1, 1, 7, b"110")?;
//! write.commit()?;
//! let mut page = site.read(0, 30_000)?;
//! let key = Key::new(0, &[7])?;
//! assert_eq!(page.cached(key, |asking| highest(asking, 7))?, b"110");
//! let (stamp, _) = page.commit()?.pin.unwrap(); // each answer is right at that stamp
//! let mut write = site.write_at(stamp)?; // what the page showed is to be so still
//! assert_eq!(write.cached(key, |asking| highest(asking, 7))?, b"110");
//! write.put(1, 2, 7, b"130")?;
//! write.commit()?;
//! # Ok::<(), Error>(())
//! ```
use crate::ffi;
use crate::{FIRST_ROOM, Key, Totals};
use std::fmt;
use std::mem::size_of;
use std::sync::{Arc, Mutex, MutexGuard, PoisonError};

/// The most bytes of a row's body.
pub const MAX_BODY_LEN: usize = 65_536;
/// The most transactions that are open at one site.
pub const MAX_OPEN: usize = 65_536;

/// Why something was refused.
#[derive(Clone, Copy, Debug, PartialEq, Eq)]
pub enum Error {
    /// A number is above its limit, a size is 0, or a body is too long.
    BadArgument,
    /// A call is open.
    MidCall,
    /// The call was refused, and is no more, or what was asked was: the transaction is open. Or none can begin now, or there is no
    /// such state.
    Refused,
    /// A function asks, or ends, whose call was given up, since something in it failed.
    GivenUp,
    /// The transaction is open no more: it was aborted by its number.
    NotOpen,
    /// Some row that was read has changed, and nothing is committed.
    Conflict,
    /// An allocation failed.
    NoMemory,
}

impl fmt::Display for Error {
    fn fmt(&self, f: &mut fmt::Formatter<'_>) -> fmt::Result {
        f.write_str(match self {
            Error::BadArgument => "a number is above its limit, a size is 0, or a body is too long",
            Error::MidCall => "a call is open",
            Error::Refused => "the call, or what was asked, was refused",
            Error::GivenUp => "the function's call was given up",
            Error::NotOpen => "the transaction is open no more",
            Error::Conflict => "what was read has changed",
            Error::NoMemory => "memory was refused",
        })
    }
}

impl std::error::Error for Error {}

impl From<crate::Error> for Error {
    fn from(_: crate::Error) -> Error {
        Error::BadArgument
    }
}

fn error(number: u32) -> Error {
    match number {
        ffi::BAD_ARGUMENT => Error::BadArgument,
        ffi::MID_CALL => Error::MidCall,
        ffi::NOT_OPEN => Error::NotOpen,
        ffi::CONFLICT => Error::Conflict,
        ffi::NO_MEMORY => Error::NoMemory,
        _ => Error::Refused,
    }
}

fn done(number: u32) -> Result<(), Error> {
    if number == ffi::DONE {
        return Ok(());
    }
    Err(error(number))
}

/// `None` for a miss.
fn found<T>(number: u32, it: T) -> Result<Option<T>, Error> {
    match number {
        ffi::DONE => Ok(Some(it)),
        ffi::MISS => Ok(None),
        number => Err(error(number)),
    }
}

/// A row of a table.
#[derive(Clone, Debug, PartialEq, Eq)]
pub struct Row {
    pub table: u8,
    pub id: u32,
    pub group: u32,
    pub body: Vec<u8>,
}

/// A query of a state. Its answer is the rows that match, by id.
#[derive(Clone, Copy)]
pub struct Query(ffi::Query);

impl Query {
    fn of(table: u8, kind: u8, first: u32, last: u32) -> Query {
        Query(ffi::Query {
            table,
            kind,
            first,
            last,
        })
    }

    /// Every row of the table.
    pub fn all(table: u8) -> Query {
        Query::of(table, 0, 0, 0)
    }

    /// The row with that id.
    pub fn id(table: u8, id: u32) -> Query {
        Query::of(table, 1, id, 0)
    }

    /// The rows of that group.
    pub fn group(table: u8, group: u32) -> Query {
        Query::of(table, 2, group, 0)
    }

    /// The rows with ids from the first to the last.
    pub fn range(table: u8, first: u32, last: u32) -> Query {
        Query::of(table, 3, first, last)
    }
}

/// How many answers it explains, and the stamp and moment of the state in which each is right, if there is one.
#[derive(Clone, Copy, Debug, PartialEq, Eq)]
pub struct Receipt {
    pub answers: usize,
    pub pin: Option<(u32, u64)>,
}

/// The effect of a keep: how many pins it retired, the horizon that it left, below which nothing is read any more, and how many
/// results the node dropped.
#[derive(Clone, Copy, Debug, PartialEq, Eq)]
pub struct Kept {
    pub retired: usize,
    pub horizon: u32,
    pub swept: usize,
}

/// The queries and calls of a function: rows, and values of other calls.
///
/// Its next query or call, or its result, must be determined by its number, its arguments and what it was answered so far. If something in a
/// call fails, the whole call is given up, and each of its functions that asks on, or gives a value, has [`Error::GivenUp`].
pub trait Asking {
    /// Returns the rows of a query.
    fn rows(&mut self, query: Query) -> Result<Vec<Row>, Error>;

    /// Returns the value of another call, from the node or by this function.
    fn call(&mut self, key: Key, compute: &mut Compute<'_>) -> Result<Vec<u8>, Error>;
}

/// Computes a function.
pub type Compute<'a> = dyn FnMut(&mut dyn Asking) -> Result<Vec<u8>, Error> + 'a;

// ---- the site

struct Handle(ffi::Handle);

// That a handle may go to another thread is proved (`site_crosses` in crates/txc_c). Each call takes it by `&mut`.
unsafe impl Send for Handle {}

impl Drop for Handle {
    fn drop(&mut self) {
        unsafe { ffi::txc_site_close(&mut self.0) };
    }
}

/// A database, its pins and a node. Threads share it by clones, each with transactions of its own. It is freed with the last of
/// its clones and transactions.
#[derive(Clone)]
pub struct Site {
    handle: Arc<Mutex<Handle>>,
}

/// Where the newest version of each row lies. Every call has the same answer over both.
#[derive(Clone, Copy, Debug, Default, PartialEq, Eq, Hash)]
pub enum Store {
    /// A table of SQLite in memory, for rows that are queried.
    #[default]
    Sql,
    /// Ordered maps, for small rows that are written a hundred times as often as they are read, such as versions.
    Plain,
}

impl Store {
    fn number(self) -> usize {
        match self {
            Store::Sql => ffi::STORE_SQL,
            Store::Plain => ffi::STORE_PLAIN,
        }
    }
}

/// How a site is made, for [`Site::open`]. By default no event is stored, there is no budget, and the rows lie in SQLite.
///
/// ```
/// use txcache_node::site::{Settings, Site, Store};
///
/// let site = Site::open(Settings { store: Store::Plain, renew_after: 20_000, ..Settings::default() })?;
/// # Ok::<(), txcache_node::site::Error>(())
/// ```
#[derive(Clone, Copy, Debug, Default, PartialEq, Eq)]
pub struct Settings {
    /// How many events, which are commits and pins, the site has room for. If `None`, they are not stored, and [`Site::keep`] lets go
    /// what no transaction can read any more.
    pub events: Option<usize>,
    /// How many entries the node has at most; 0 is 65,536.
    pub capacity: usize,
    /// How many events the node keeps the tags of; 0 is 4,096.
    pub recent: usize,
    /// Before a query a transaction that only reads pins the present, if it may still read that and its newest pin is more than so
    /// many milliseconds old. 0, the default: if that pin is of an earlier millisecond.
    pub renew_after: u64,
    /// How many bytes the values of the node's results have at most in all, after each call. Before the node keeps a value it drops
    /// the results that were used longest ago, until there is room. A value of more bytes is answered and not kept.
    pub budget: Option<usize>,
    /// Where the rows lie.
    pub store: Store,
}

impl Site {
    /// Makes a database, and a node of so many entries that keeps the tags of the last `recent` events; 0 is 65,536 entries, and 4,096
    /// events. With no bound on its events, which are its commits and pins, they are not stored, and [`Site::keep`] lets go what no
    /// transaction can read any more; else it has room for so many. `renew_after` is that of [`Settings`].
    pub fn new(events: Option<usize>, capacity: usize, recent: usize, renew_after: u64) -> Result<Site, Error> {
        Site::open(Settings { events, capacity, recent, renew_after, ..Settings::default() })
    }

    /// The same with a budget, as [`Settings::budget`] has it. Fails if the budget is 0.
    pub fn with_budget(
        events: Option<usize>,
        capacity: usize,
        recent: usize,
        renew_after: u64,
        bytes: usize,
    ) -> Result<Site, Error> {
        Site::open(Settings { events, capacity, recent, renew_after, budget: Some(bytes), ..Settings::default() })
    }

    /// Makes a site of these settings. Fails if there is room for no event, if the budget is 0, or if a setting is above its limit.
    pub fn open(settings: Settings) -> Result<Site, Error> {
        assert_eq!(unsafe { ffi::txc_abi() }, ffi::ABI, "libtxc_c.a is of another header");
        if settings.events == Some(0) || settings.budget == Some(0) {
            return Err(Error::BadArgument);
        }
        let settings = ffi::SiteSettings {
            size: size_of::<ffi::SiteSettings>(),
            events: settings.events.unwrap_or(0), // as the library has it
            capacity: settings.capacity,
            recent: settings.recent,
            renew_after: settings.renew_after,
            bytes: settings.budget.unwrap_or(0),
            store: settings.store.number(),
        };
        let mut handle = ffi::Handle {
            slot: std::ptr::null_mut(),
            is_open: false,
        };
        done(unsafe { ffi::txc_site_open(&mut handle, &settings) })?;
        Ok(Site {
            handle: Arc::new(Mutex::new(Handle(handle))),
        })
    }

    // The site for a call, or for a query with its rows. No code of a caller's runs meanwhile.
    fn lock(&self) -> MutexGuard<'_, Handle> {
        self.handle.lock().unwrap_or_else(PoisonError::into_inner)
    }

    /// Begins a transaction that only reads: now is `now`, in milliseconds, and what it reads is no more than `staleness`
    /// older.
    pub fn read(&self, now: u64, staleness: u64) -> Result<Transaction, Error> {
        self.read_since(now, staleness, 0)
    }

    /// The same, and no state before that stamp.
    pub fn read_since(&self, now: u64, staleness: u64, at_least: u32) -> Result<Transaction, Error> {
        let mut txn = 0;
        done(unsafe { ffi::txc_begin(&mut self.lock().0, now, staleness, at_least, &mut txn) })?;
        Ok(Transaction(Open::new(self, txn)))
    }

    /// Begins a transaction that writes over the newest state, which stays until it ends. It does not see its own changes. Another's
    /// commit may make its own a [`Error::Conflict`].
    pub fn write(&self) -> Result<Write, Error> {
        let mut txn = 0;
        done(unsafe { ffi::txc_begin_write(&mut self.lock().0, &mut txn) })?;
        Ok(Write(Open::new(self, txn)))
    }

    /// The same over the state of that stamp, such as a receipt's: it is committed only if no later event changed what it has read.
    /// This state does not stay. If it is no longer readable, this fails, or a query does, or the commit.
    pub fn write_at(&self, stamp: u32) -> Result<Write, Error> {
        let mut txn = 0;
        done(unsafe { ffi::txc_begin_write_at(&mut self.lock().0, stamp, &mut txn) })?;
        Ok(Write(Open::new(self, txn)))
    }

    /// Pins the newest state, with this moment in milliseconds, for transactions that begin later. Returns its stamp.
    pub fn pin(&self, moment: u64) -> Result<u32, Error> {
        let mut stamp = 0;
        done(unsafe { ffi::txc_pin(&mut self.lock().0, moment, &mut stamp) })?;
        Ok(stamp)
    }

    /// Retires the pins that no transaction uses and that are more than `age` before `now`, both in milliseconds, and drops what no
    /// transaction can read any more. Call it now and then, whatever is open: there is room for 1,024 pins. It returns
    /// [`Error::Refused`] if the store of the rows, or the node, failed by itself.
    pub fn keep(&self, now: u64, age: u64) -> Result<Kept, Error> {
        let mut kept = ffi::Kept {
            retired: 0,
            horizon: 0,
            swept: 0,
        };
        done(unsafe { ffi::txc_keep(&mut self.lock().0, now, age, &mut kept) })?;
        Ok(Kept {
            retired: kept.retired,
            horizon: kept.horizon,
            swept: kept.swept,
        })
    }

    /// Keeps the longest prefix of the node's results, the most recently used first, whose values have at most `most` bytes in all,
    /// whatever is open. Returns how many it dropped. A site that has a budget does so itself.
    pub fn trim(&self, most: usize) -> Result<usize, Error> {
        let mut dropped = 0;
        done(unsafe { ffi::txc_site_trim(&mut self.lock().0, most, &mut dropped) })?;
        Ok(dropped)
    }

    /// Returns what the node holds in all.
    pub fn totals(&self) -> Totals {
        let mut totals = Totals::NONE;
        unsafe { ffi::txc_site_totals(&mut self.lock().0, &mut totals) };
        Totals::of(totals)
    }

    /// Returns how many transactions are open.
    pub fn open_transactions(&self) -> usize {
        let mut count = 0;
        unsafe { ffi::txc_open_transactions(&mut self.lock().0, &mut count) };
        count
    }

    /// Returns the number of the open transaction that began first; of none, if none is open.
    pub fn oldest_open(&self) -> Option<u64> {
        let mut txn = 0;
        let number = unsafe { ffi::txc_oldest_open(&mut self.lock().0, &mut txn) };
        (number == ffi::DONE).then_some(txn)
    }

    /// Aborts an open transaction, as one that was forgotten. A later use of it returns [`Error::NotOpen`] from then on.
    pub fn abort(&self, txn: u64) -> Result<(), Error> {
        done(unsafe { ffi::txc_abort(&mut self.lock().0, txn) })
    }
}

// ---- what both kinds of transactions have

// An open transaction of a site. Dropped, it is aborted.
struct Open {
    site: Site,
    txn: u64,
    is_given_up: bool, // the call whose functions are computed
}

impl Open {
    fn new(site: &Site, txn: u64) -> Open {
        Open {
            site: site.clone(),
            txn,
            is_given_up: false,
        }
    }

    fn rows(&mut self, query: Query) -> Result<Vec<Row>, Error> {
        let (mut site, mut count) = (self.site.lock(), 0);
        let number = unsafe { ffi::txc_query_rows(&mut site.0, self.txn, &query.0, &mut count) };
        if number != ffi::ANSWERED {
            return Err(error(number));
        }
        (0..count).map(|at| row(&mut site.0, self.txn, at)).collect()
    }

    // The value of a call, from the node or computed. `is_outer` says that no function asks for it.
    fn value(&mut self, key: Key, compute: &mut Compute<'_>, is_outer: bool) -> Result<Vec<u8>, Error> {
        match self.told(|site, txn, value, room, len| unsafe { ffi::txc_call(site, txn, &key.0, value, room, len) }) {
            (ffi::DONE | ffi::ANSWERED, value) => Ok(value),
            (ffi::COMPUTE, _) => self.computed(compute, is_outer),
            (number, _) => Err(error(number)),
        }
    }

    // The number of a call of the library, and the value that it writes, if it writes one. A value that is longer than the buffer is
    // asked for again.
    fn told(&mut self, ask: impl FnOnce(&mut ffi::Handle, u64, *mut u8, usize, &mut usize) -> u32) -> (u32, Vec<u8>) {
        let mut site = self.site.lock();
        let (mut buffer, mut len) = ([0; FIRST_ROOM], 0);
        let number = ask(&mut site.0, self.txn, buffer.as_mut_ptr(), buffer.len(), &mut len);
        if number != ffi::NO_ROOM {
            return (number, buffer[..len].to_vec());
        }
        let mut value = vec![0; len];
        let number = unsafe { ffi::txc_answer(&mut site.0, self.txn, value.as_mut_ptr(), value.len(), &mut len) };
        (number, value)
    }

    // The value of the call that is open, by its function. If that fails or panics, the whole call is given up.
    fn computed(&mut self, compute: &mut Compute<'_>, is_outer: bool) -> Result<Vec<u8>, Error> {
        if is_outer {
            self.is_given_up = false;
        }
        let mut given_up = GiveUp(Some(self));
        let value = given_up.open().finished(compute)?;
        given_up.0 = None;
        Ok(value)
    }

    fn finished(&mut self, compute: &mut Compute<'_>) -> Result<Vec<u8>, Error> {
        let given = compute(&mut Function(self))?;
        if self.is_given_up {
            return Err(Error::GivenUp);
        }
        let (bytes, count) = (given.as_ptr(), given.len());
        match self.told(|site, txn, value, room, len| unsafe { ffi::txc_finish(site, txn, bytes, count, value, room, len) }) {
            (ffi::DONE | ffi::ANSWERED, value) => Ok(value),
            (number, _) => Err(error(number)),
        }
    }

    fn read_stamp(&mut self) -> Result<Option<u32>, Error> {
        let mut stamp = 0;
        let number = unsafe { ffi::txc_read_stamp(&mut self.site.lock().0, self.txn, &mut stamp) };
        found(number, stamp)
    }
}

impl Drop for Open {
    fn drop(&mut self) {
        // one that is committed has no number
        if self.txn != 0 {
            unsafe { ffi::txc_abort(&mut self.site.lock().0, self.txn) };
        }
    }
}

fn row(site: &mut ffi::Handle, txn: u64, at: usize) -> Result<Row, Error> {
    let mut row = ffi::Row {
        table: 0,
        id: 0,
        group: 0,
    };
    let (mut body, mut len) = (vec![0; FIRST_ROOM], 0);
    let mut number = unsafe { ffi::txc_row_at(site, txn, at, &mut row, body.as_mut_ptr(), body.len(), &mut len) };
    if number == ffi::NO_ROOM {
        body = vec![0; len];
        number = unsafe { ffi::txc_row_at(site, txn, at, &mut row, body.as_mut_ptr(), body.len(), &mut len) };
    }
    done(number)?;
    body.truncate(len);
    Ok(Row {
        table: row.table,
        id: row.id,
        group: row.group,
        body,
    })
}

// Gives the open call up as it is dropped, by an error or a panic, unless its function has ended well.
struct GiveUp<'a>(Option<&'a mut Open>);

impl GiveUp<'_> {
    fn open(&mut self) -> &mut Open {
        self.0.as_mut().expect("it is taken at the end")
    }
}

impl Drop for GiveUp<'_> {
    fn drop(&mut self) {
        if let Some(open) = &mut self.0 {
            open.is_given_up = true;
            unsafe { ffi::txc_give_up(&mut open.site.lock().0, open.txn) };
        }
    }
}

// The function that is computed.
struct Function<'a>(&'a mut Open);

impl Function<'_> {
    // The queries and calls that it made, unless its call was given up. If the library has ended the call, it is given up.
    fn asked<T>(&mut self, ask: impl FnOnce(&mut Open) -> Result<T, Error>) -> Result<T, Error> {
        if self.0.is_given_up {
            return Err(Error::GivenUp);
        }
        let answer = ask(self.0);
        if !matches!(answer, Ok(_) | Err(Error::BadArgument)) {
            GiveUp(Some(self.0));
        }
        answer
    }
}

impl Asking for Function<'_> {
    fn rows(&mut self, query: Query) -> Result<Vec<Row>, Error> {
        self.asked(|open| open.rows(query))
    }

    fn call(&mut self, key: Key, compute: &mut Compute<'_>) -> Result<Vec<u8>, Error> {
        self.asked(|open| open.value(key, compute, false))
    }
}

// ---- transactions

/// A transaction that only reads. Dropped, it is aborted.
#[must_use = "a transaction that is not committed has no receipt"]
pub struct Transaction(Open);

impl Transaction {
    /// Returns the value of a call, from the node or by this function. The function runs outside of the site's lock.
    pub fn cached(
        &mut self,
        key: Key,
        mut compute: impl FnMut(&mut dyn Asking) -> Result<Vec<u8>, Error>,
    ) -> Result<Vec<u8>, Error> {
        self.0.value(key, &mut compute, true)
    }

    /// Returns its number, for [`Site::abort`]. A later transaction of the site has a greater one.
    pub fn number(&self) -> u64 {
        self.0.txn
    }

    /// Returns the stamp of the state that the next query reads; `None` if that pins the present first.
    pub fn read_stamp(&mut self) -> Result<Option<u32>, Error> {
        self.0.read_stamp()
    }

    /// Returns the stamps and the moments of the pins at which all that was answered is right, the newest first.
    pub fn members(&mut self) -> Result<Vec<(u32, u64)>, Error> {
        let mut site = self.0.site.lock();
        let mut members = Vec::new();
        loop {
            let (mut stamp, mut moment) = (0, 0);
            let number =
                unsafe { ffi::txc_member_at(&mut site.0, self.0.txn, members.len(), &mut stamp, &mut moment) };
            match found(number, (stamp, moment))? {
                Some(member) => members.push(member),
                None => return Ok(members),
            }
        }
    }

    /// Ends it, with what explains its answers.
    pub fn commit(mut self) -> Result<Receipt, Error> {
        let mut receipt = ffi::Receipt {
            answers: 0,
            has_pin: false,
            stamp: 0,
            moment: 0,
        };
        done(unsafe { ffi::txc_commit(&mut self.0.site.lock().0, self.0.txn, &mut receipt) })?;
        self.0.txn = 0;
        Ok(Receipt {
            answers: receipt.answers,
            pin: receipt.has_pin.then_some((receipt.stamp, receipt.moment)),
        })
    }
}

/// A transaction that writes. Dropped, it is aborted.
#[must_use = "changes that are not committed are given up"]
pub struct Write(Open);

impl Write {
    /// Returns the rows of a query in the state that it reads.
    pub fn rows(&mut self, query: Query) -> Result<Vec<Row>, Error> {
        self.0.rows(query)
    }

    /// Returns the value of a call there: by this function, since no transaction that writes uses a cache.
    pub fn cached(
        &mut self,
        key: Key,
        mut compute: impl FnMut(&mut dyn Asking) -> Result<Vec<u8>, Error>,
    ) -> Result<Vec<u8>, Error> {
        self.0.value(key, &mut compute, true)
    }

    /// Returns its number, for [`Site::abort`]. A later transaction of the site has a greater one.
    pub fn number(&self) -> u64 {
        self.0.txn
    }

    /// Returns the stamp of the state that it reads.
    pub fn read_stamp(&mut self) -> Result<Option<u32>, Error> {
        self.0.read_stamp()
    }

    /// The row is to stand at its table and id.
    pub fn put(&mut self, table: u8, id: u32, group: u32, body: &[u8]) -> Result<(), Error> {
        let mut site = self.0.site.lock();
        done(unsafe { ffi::txc_put(&mut site.0, self.0.txn, table, id, group, body.as_ptr(), body.len()) })
    }

    /// No row is to stand there.
    pub fn remove(&mut self, table: u8, id: u32) -> Result<(), Error> {
        done(unsafe { ffi::txc_remove(&mut self.0.site.lock().0, self.0.txn, table, id) })
    }

    /// Commits the changes, and returns the newest stamp. If that fails, they are given up.
    pub fn commit(mut self) -> Result<u32, Error> {
        let mut stamp = 0;
        done(unsafe { ffi::txc_commit_write(&mut self.0.site.lock().0, self.0.txn, &mut stamp) })?;
        self.0.txn = 0;
        Ok(stamp)
    }
}
