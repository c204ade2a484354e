//! Eight threads with pages whose functions sleep, beside one that writes: no page is torn, and none waits for another's function.
use std::sync::atomic::{AtomicBool, AtomicU32, Ordering::SeqCst};
use std::thread;
use std::time::{Duration, Instant};
use txcache_node::site::{Asking, Error, Query, Site};
use txcache_node::Key;

const READERS: u32 = 8;
const PAGES: u32 = 100;
const ITEMS: u32 = 8;
const SLEEP: Duration = Duration::from_millis(5);

static COMPUTED: AtomicU32 = AtomicU32::new(0);
static ASLEEP: AtomicU32 = AtomicU32::new(0);
static MOST_ASLEEP: AtomicU32 = AtomicU32::new(0);

/// The work of a function beside its queries, for some milliseconds.
fn work() {
    MOST_ASLEEP.fetch_max(ASLEEP.fetch_add(1, SeqCst) + 1, SeqCst);
    thread::sleep(SLEEP);
    ASLEEP.fetch_sub(1, SeqCst);
    COMPUTED.fetch_add(1, SeqCst);
}

fn amounts(asking: &mut dyn Asking, item: u32) -> Result<Vec<String>, Error> {
    let rows = asking.rows(Query::group(1, item))?;
    work();
    Ok(rows.into_iter().map(|row| String::from_utf8(row.body).unwrap()).collect())
}

fn highest(asking: &mut dyn Asking, item: u32) -> Result<Vec<u8>, Error> {
    let most = amounts(asking, item)?.iter().map(|it| it.parse::<u32>().unwrap()).max();
    Ok(most.unwrap_or(0).to_string().into_bytes())
}

fn bids(asking: &mut dyn Asking, item: u32) -> Result<Vec<u8>, Error> {
    Ok(amounts(asking, item)?.join(",").into_bytes())
}

fn summary(asking: &mut dyn Asking, item: u32) -> Result<Vec<u8>, Error> {
    let highest = asking.call(Key::new(0, &[item])?, &mut |asking| highest(asking, item))?;
    let bids = asking.call(Key::new(1, &[item])?, &mut |asking| bids(asking, item))?;
    work();
    Ok([&highest[..], b" of ", &bids[..]].concat())
}

/// A page shows the highest bid, and beside it the bids. It is torn if they are of two moments.
fn is_torn(site: &Site, now: u64, item: u32) -> Result<bool, Error> {
    let mut page = site.read(now, 50)?;
    let shown = page.cached(Key::new(2, &[item])?, |asking| summary(asking, item))?;
    let alone = page.cached(Key::new(0, &[item])?, |asking| highest(asking, item))?;
    page.commit()?;
    thread::sleep(Duration::from_millis(1));
    let text = String::from_utf8(shown).unwrap();
    let (highest, bids) = text.split_once(" of ").unwrap();
    let most = bids.split(',').map(|it| it.parse::<u32>().unwrap()).max();
    Ok(highest.as_bytes() != alone || most != highest.parse().ok())
}

/// Bids until the readers have ended. Returns how many were committed, and how many of them while some function slept.
fn write(site: &Site, begun: Instant, is_over: &AtomicBool) -> Result<(u32, u32), Error> {
    let (mut amount, mut meanwhile) = (ITEMS, 0);
    while !is_over.load(SeqCst) {
        amount += 1;
        let mut write = site.write()?;
        write.put(1, amount % (16 * ITEMS), amount % ITEMS, amount.to_string().as_bytes())?;
        write.commit()?;
        meanwhile += u32::from(ASLEEP.load(SeqCst) > 0);
        if amount % 64 == 0 {
            site.keep(begun.elapsed().as_millis() as u64, 2000)?;
        }
        thread::sleep(Duration::from_millis(1));
    }
    Ok((amount - ITEMS, meanwhile))
}

fn main() -> Result<(), Error> {
    let site = Site::new(None, 1000, 1000, 10)?;
    let mut first = site.write()?;
    for item in 0..ITEMS {
        first.put(1, item, item, item.to_string().as_bytes())?;
    }
    first.commit()?;
    let (begun, is_over) = (Instant::now(), AtomicBool::new(false));
    let (torn, written) = thread::scope(|threads| {
        let (site, is_over) = (&site, &is_over);
        let writer = threads.spawn(move || write(site, begun, is_over).unwrap());
        let readers: Vec<_> = (0..READERS)
            .map(|reader| {
                let now = move || begun.elapsed().as_millis() as u64;
                let page = move |number| is_torn(site, now(), (reader + number) % ITEMS).unwrap();
                threads.spawn(move || (0..PAGES).filter(|&number| page(number)).count())
            })
            .collect();
        let torn: usize = readers.into_iter().map(|it| it.join().unwrap()).sum();
        is_over.store(true, SeqCst);
        (torn, writer.join().unwrap())
    });
    let (computed, most) = (COMPUTED.load(SeqCst), MOST_ASLEEP.load(SeqCst));
    println!("{} pages, {torn} torn; {computed} functions slept, up to {most} at once", READERS * PAGES);
    println!("{} commits, {} of them while functions slept", written.0, written.1);
    assert!(torn == 0 && most > 1 && written.1 > 0 && site.open_transactions() == 0);
    Ok(())
}
