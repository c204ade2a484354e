//! Values of up to 1 MiB, functions that ask often, trims and budgets, at a node and at a site.
use txcache_node::site::{Asking, Error, Query, Site, Transaction, Write};
use txcache_node::{Inserted, Key, MAX_ASKS, MAX_VALUE_LEN, Node, Reach, Tag, Totals};

const PAGE: usize = 200_000;
const LENGTHS: [usize; 7] = [0, 1, 1024, 1025, PAGE, MAX_VALUE_LEN - 1, MAX_VALUE_LEN];

fn key(function: u8, number: u32) -> Key {
    Key::new(function, &[number]).unwrap()
}

/// So many bytes, other ones for each number.
fn bytes(number: u32, count: usize) -> Vec<u8> {
    (0..count as u32).map(|at| (number.wrapping_mul(31).wrapping_add(at.wrapping_mul(2_654_435_761) >> 20)) as u8).collect()
}

fn totals(entries: usize, bytes: usize, trimmed: u64) -> Totals {
    Totals { entries, bytes, trimmed }
}

fn sites() -> [Site; 2] {
    [None, Some(10_000)].map(|events| {
        let site = Site::new(events, 0, 0, 20_000).unwrap();
        let mut write = site.write().unwrap();
        write.put(1, 1, 7, b"110").unwrap();
        write.commit().unwrap();
        site
    })
}

/// Either transaction.
trait Cached {
    fn value(&mut self, key: Key, compute: &mut dyn FnMut(&mut dyn Asking) -> Result<Vec<u8>, Error>) -> Result<Vec<u8>, Error>;
}

impl Cached for Transaction {
    fn value(&mut self, key: Key, compute: &mut dyn FnMut(&mut dyn Asking) -> Result<Vec<u8>, Error>) -> Result<Vec<u8>, Error> {
        self.cached(key, compute)
    }
}

impl Cached for Write {
    fn value(&mut self, key: Key, compute: &mut dyn FnMut(&mut dyn Asking) -> Result<Vec<u8>, Error>) -> Result<Vec<u8>, Error> {
        self.cached(key, compute)
    }
}

fn both(site: &Site, run: fn(&mut dyn Cached)) {
    run(&mut site.read(1000, 30_000).unwrap());
    run(&mut site.write().unwrap());
}

fn never(_: &mut dyn Asking) -> Result<Vec<u8>, Error> {
    panic!("it is a hit")
}

/// Asks so often for a row, and then gives bytes of the number.
fn asks(asking: &mut dyn Asking, times: usize, number: u32, count: usize) -> Result<Vec<u8>, Error> {
    for _ in 0..times {
        assert_eq!(asking.rows(Query::id(1, 1))?[0].body, b"110");
    }
    Ok(bytes(number, count))
}

#[test]
fn values_at_a_node() {
    let mut node = Node::new(LENGTHS.len(), 4).unwrap();
    for (number, count) in (0..).zip(LENGTHS) {
        let stored = node.insert(&key(1, number), Reach::still(0, 0), &[], &bytes(number, count)).unwrap();
        assert_eq!(stored, Inserted::Stored { reach: Reach::still(0, 0), evicted: None });
        assert_eq!(node.lookup(&key(1, number), 0, 9).unwrap().unwrap().value, bytes(number, count));
        let mut short = vec![7; count.saturating_sub(1)];
        assert_eq!(node.lookup_into(&key(1, number), 0, 9, &mut short).unwrap().unwrap().1, count);
        assert!(short.iter().all(|&it| it == 7));
    }
    assert_eq!(node.totals(), totals(7, LENGTHS.iter().sum(), 0));
    let longer = vec![0; MAX_VALUE_LEN + 1];
    assert!(node.insert(&key(1, 9), Reach::still(0, 0), &[], &longer).is_err());
}

#[test]
fn trims_of_a_node() {
    let mut node = Node::new(8, 4).unwrap();
    for number in 1..=3 {
        node.insert(&key(1, number), Reach::still(0, 0), &[Tag::id(1, number).unwrap()], &bytes(number, 100 * number as usize)).unwrap();
    }
    assert_eq!((node.trim(usize::MAX), node.trim(600), node.totals()), (0, 0, totals(3, 600, 0)));
    assert_eq!((node.trim(599), node.totals()), (1, totals(2, 500, 1)));
    assert!(node.lookup(&key(1, 1), 0, 9).unwrap().is_none());
    assert!(node.lookup(&key(1, 2), 0, 9).unwrap().is_some());
    assert_eq!((node.trim(499), node.totals()), (1, totals(1, 200, 2)));
    assert_eq!((node.trim(0), node.totals()), (1, totals(0, 0, 3)));
}

#[test]
fn values_at_a_site() {
    for site in sites() {
        both(&site, |txn| {
            for (number, count) in (0..).zip(LENGTHS) {
                assert_eq!(txn.value(key(0, number), &mut |asking| asks(asking, 1, number, count)).unwrap(), bytes(number, count));
                let doubled = txn.value(key(1, number), &mut |asking| {
                    let inner = asking.call(key(0, number), &mut |asking| asks(asking, 1, number, count))?;
                    assert_eq!(inner, bytes(number, count));
                    Ok([&inner[..count / 2], &inner[count / 2..]].concat())
                });
                assert_eq!(doubled.unwrap(), bytes(number, count));
            }
            let too_long = txn.value(key(0, 77), &mut |_| Ok(vec![0; MAX_VALUE_LEN + 1]));
            assert_eq!(too_long, Err(Error::Refused));
        });
        let mut page = site.read(1000, 30_000).unwrap();
        for (number, count) in (0..).zip(LENGTHS) {
            assert_eq!(page.cached(key(0, number), never).unwrap(), bytes(number, count));
        }
        assert_eq!(page.commit().unwrap().answers, LENGTHS.len());
        assert_eq!(site.totals(), totals(2 * LENGTHS.len(), 2 * LENGTHS.iter().sum::<usize>(), 0));
    }
}

#[test]
fn functions_that_ask_often() {
    for site in sites() {
        both(&site, |txn| {
            assert_eq!(txn.value(key(0, 300), &mut |asking| asks(asking, 300, 1, 5)).unwrap(), bytes(1, 5));
            assert_eq!(txn.value(key(0, 2), &mut |asking| asks(asking, MAX_ASKS - 1, 2, PAGE)).unwrap(), bytes(2, PAGE));
            for times in [MAX_ASKS, MAX_ASKS + 1] {
                assert_eq!(txn.value(key(0, 3), &mut |asking| asks(asking, times, 3, 1)), Err(Error::Refused));
            }
            // the call around counts one
            let inner = txn.value(key(1, 4), &mut |asking| asking.call(key(0, 4), &mut |asking| asks(asking, MAX_ASKS - 1, 4, 1)));
            assert_eq!(inner, Err(Error::Refused));
        });
        let mut page = site.read(1000, 30_000).unwrap();
        assert_eq!(page.cached(key(0, 300), never).unwrap(), bytes(1, 5));
        assert_eq!(page.cached(key(0, 2), never).unwrap(), bytes(2, PAGE));
        assert_eq!(page.commit().unwrap().answers, 2);
    }
}

/// A trim drops results in mid-call too; what is open goes on, and what was dropped is computed again.
#[test]
fn trims_of_a_site() {
    for site in sites() {
        assert_eq!((site.trim(0).unwrap(), site.totals()), (0, totals(0, 0, 0)));
        let mut page = site.read(1000, 30_000).unwrap();
        let around = page.cached(key(1, 1), |asking| {
            let inner = asking.call(key(0, 1), &mut |asking| asks(asking, 1, 1, PAGE))?;
            assert_eq!((site.trim(PAGE - 1)?, site.totals()), (1, totals(0, 0, 1)));
            assert_eq!(asking.call(key(0, 1), &mut |asking| asks(asking, 1, 1, PAGE))?, inner);
            Ok(inner)
        });
        assert_eq!(around.unwrap(), bytes(1, PAGE));
        assert_eq!((site.trim(PAGE).unwrap(), site.totals()), (1, totals(1, PAGE, 2)));
        assert_eq!(page.cached(key(1, 1), never).unwrap(), bytes(1, PAGE));
        assert_eq!(page.cached(key(0, 1), |asking| asks(asking, 1, 1, PAGE)).unwrap(), bytes(1, PAGE));
        assert_eq!(page.commit().unwrap().answers, 3);
    }
}

/// A site makes room for a value within its budget, and keeps no value that exceeds it.
#[test]
fn a_budget_of_a_site() {
    for events in [None, Some(10_000)] {
        assert_eq!(Site::with_budget(events, 0, 0, 20_000, 0).err(), Some(Error::BadArgument));
        let site = Site::with_budget(events, 0, 0, 20_000, 3 * PAGE).unwrap();
        let mut write = site.write().unwrap();
        write.put(1, 1, 7, b"110").unwrap();
        write.commit().unwrap();
        let mut page = site.read(1000, 30_000).unwrap();
        for number in 0..3 {
            page.cached(key(0, number), |asking| asks(asking, 1, number, PAGE)).unwrap();
        }
        assert_eq!(site.totals(), totals(3, 3 * PAGE, 0));
        assert_eq!(page.cached(key(0, 0), never).unwrap(), bytes(0, PAGE));
        assert_eq!(page.cached(key(0, 3), |asking| asks(asking, 1, 3, 1)).unwrap(), bytes(3, 1));
        assert_eq!(site.totals(), totals(3, 2 * PAGE + 1, 1)); // 1 was used longest ago
        assert_eq!(page.cached(key(0, 4), |asking| asks(asking, 1, 4, 3 * PAGE + 1)).unwrap(), bytes(4, 3 * PAGE + 1));
        assert_eq!(site.totals(), totals(3, 2 * PAGE + 1, 1));
        for number in [0, 2, 3] {
            page.cached(key(0, number), never).unwrap();
        }
        assert_eq!(page.cached(key(0, 5), |asking| asks(asking, 1, 5, 3 * PAGE)).unwrap(), bytes(5, 3 * PAGE));
        assert_eq!(site.totals(), totals(1, 3 * PAGE, 4));
        assert_eq!(page.commit().unwrap().answers, 10);
    }
}
