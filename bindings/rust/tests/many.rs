//! Many transactions open at one site, from one thread and from several.
use std::panic::{catch_unwind, AssertUnwindSafe};
use std::sync::Barrier;
use std::thread;
use txcache_node::site::{Asking, Compute, Error, Query, Site, Transaction, Write};
use txcache_node::{Key, MAX_VALUE_LEN};

fn key(function: u8, item: u32) -> Key {
    Key::new(function, &[item]).unwrap()
}

fn bids(asking: &mut dyn Asking, item: u32) -> Result<Vec<u8>, Error> {
    let bodies: Vec<_> = asking.rows(Query::group(1, item))?.into_iter().map(|row| row.body).collect();
    Ok(bodies.join(&b','))
}

fn bid(site: &Site, id: u32, item: u32, amount: &[u8]) -> u32 {
    let mut write = site.write().unwrap();
    write.put(1, id, item, amount).unwrap();
    write.commit().unwrap()
}

fn sites() -> [Site; 2] {
    [None, Some(10_000)].map(|events| {
        let site = Site::new(events, 0, 0, 20_000).unwrap();
        bid(&site, 1, 7, b"110");
        site
    })
}

#[test]
fn what_crosses_threads() {
    fn is_shared<T: Clone + Send + Sync + 'static>() {}
    fn is_sent<T: Send + 'static>() {}
    is_shared::<Site>();
    is_sent::<Transaction>();
    is_sent::<Write>();
}

/// Each thread's function waits until all are in mid-call and one that writes has committed.
#[test]
fn nobody_waits_for_anothers_function() {
    for site in sites() {
        let (begun, written) = (Barrier::new(9), Barrier::new(9));
        let page = |item: u32| {
            let mut page = site.read(1000, 30_000).unwrap();
            let shown = page.cached(key(0, item), |asking| {
                let before = bids(asking, 7)?;
                begun.wait();
                written.wait();
                Ok([before, bids(asking, 7)?].join(&b' '))
            });
            (shown.unwrap(), page.commit().unwrap())
        };
        let shown: Vec<_> = thread::scope(|threads| {
            let pages: Vec<_> = (0..8).map(|item| threads.spawn(move || page(item))).collect();
            begun.wait();
            assert_eq!(site.open_transactions(), 8);
            bid(&site, 2, 7, b"130");
            site.keep(1000, 0).unwrap();
            written.wait();
            pages.into_iter().map(|it| it.join().unwrap()).collect()
        });
        for (text, receipt) in shown {
            assert_eq!((&text[..], receipt.answers, receipt.pin.unwrap().1), (&b"110 110"[..], 1, 1000));
        }
        assert_eq!(site.open_transactions(), 0);
    }
}

#[test]
fn transactions_within_a_function() {
    for site in sites() {
        let mut page = site.read(1000, 30_000).unwrap();
        let shown = page.cached(key(1, 7), |asking| {
            let before = asking.call(key(0, 7), &mut |asking| bids(asking, 7))?;
            bid(&site, 2, 7, b"130");
            site.keep(1000, 0)?;
            let mut other = site.read(40_000, 100)?;
            let newer = other.cached(key(0, 7), |asking| bids(asking, 7))?;
            assert!(other.commit()?.pin.unwrap().0 > 2);
            Ok([before, newer, bids(asking, 7)?].join(&b' '))
        });
        assert_eq!(shown.unwrap(), b"110 110,130 110");
        assert_eq!(page.commit().unwrap().pin.unwrap().1, 1000);
    }
}

#[test]
fn a_function_that_panics_gives_its_call_up() {
    for site in sites() {
        let mut page = site.read(1000, 30_000).unwrap();
        let outer = |page: &mut Transaction| {
            page.cached(key(1, 7), |asking| asking.call(key(0, 7), &mut |asking| panic!("{:?}", bids(asking, 7))))
        };
        assert!(catch_unwind(AssertUnwindSafe(|| outer(&mut page))).is_err());
        assert_eq!(page.cached(key(0, 7), |asking| bids(asking, 7)).unwrap(), b"110");
        assert_eq!(page.commit().unwrap().answers, 1);
        let lost = catch_unwind(AssertUnwindSafe(|| {
            let mut write = site.write().unwrap();
            write.remove(1, 1).unwrap();
            panic!("{}", site.open_transactions());
        }));
        assert_eq!((lost.is_err(), site.open_transactions()), (true, 0));
        assert_eq!(site.write().unwrap().rows(Query::all(1)).unwrap().len(), 1);
    }
}

/// Once a call is given up, its functions neither ask nor give; so nothing of theirs counts as an answer.
#[test]
fn no_function_asks_once_its_call_was_given_up() {
    for site in sites() {
        let mut page = site.read(1000, 30_000).unwrap();
        let failing: &mut Compute = &mut |_| Err(Error::Conflict);
        let caught = page.cached(key(2, 7), |asking| {
            assert_eq!(asking.call(key(1, 7), failing), Err(Error::Conflict));
            assert_eq!(asking.rows(Query::all(1)), Err(Error::GivenUp));
            assert_eq!(asking.call(key(0, 7), &mut |asking| bids(asking, 7)), Err(Error::GivenUp));
            Ok(b"as if nothing had been".to_vec())
        });
        assert_eq!(caught, Err(Error::GivenUp));
        // a call that is not of a lower number is refused, and so ends the whole call
        let upward = page.cached(key(2, 7), |asking| {
            assert_eq!(asking.call(key(2, 8), failing), Err(Error::Refused));
            bids(asking, 7)
        });
        assert_eq!(upward, Err(Error::GivenUp));
        let late = page.cached(key(2, 7), |asking| {
            let _ = asking.call(key(1, 7), &mut |_| Ok(vec![0; MAX_VALUE_LEN + 1]));
            bids(asking, 7)
        });
        assert_eq!(late, Err(Error::GivenUp));
        assert_eq!(page.cached(key(0, 7), |asking| bids(asking, 7)).unwrap(), b"110");
        assert_eq!(page.commit().unwrap().answers, 1);
    }
}

#[test]
fn forgotten_ones_are_aborted_by_their_numbers() {
    for site in sites() {
        assert_eq!((site.open_transactions(), site.oldest_open()), (0, None));
        let mut first = site.read(1000, 30_000).unwrap();
        let mut second = site.write().unwrap();
        assert_eq!((site.open_transactions(), site.oldest_open()), (2, Some(first.number())));
        assert!(second.number() > first.number());
        site.abort(first.number()).unwrap();
        assert_eq!(site.abort(first.number()), Err(Error::NotOpen));
        assert_eq!(first.cached(key(0, 7), |asking| bids(asking, 7)), Err(Error::NotOpen));
        assert_eq!((site.open_transactions(), site.oldest_open()), (1, Some(second.number())));
        drop(first);
        assert_eq!(second.rows(Query::all(1)).unwrap().len(), 1);
        std::mem::forget(second);
        site.abort(site.oldest_open().unwrap()).unwrap();
        assert_eq!((site.open_transactions(), site.oldest_open()), (0, None));
    }
}

#[test]
fn a_transaction_goes_from_thread_to_thread() {
    for site in sites() {
        let mut page = site.read(1000, 30_000).unwrap();
        drop(site);
        let page = thread::spawn(move || {
            assert_eq!(page.cached(key(0, 7), |asking| bids(asking, 7)).unwrap(), b"110");
            page
        });
        let receipt = page.join().unwrap().commit().unwrap();
        assert_eq!((receipt.answers, receipt.pin.unwrap().1), (1, 1000));
    }
}

#[test]
fn pins_and_stamps() {
    for site in sites() {
        let mut empty = site.read(1000, 500).unwrap();
        assert_eq!((empty.members().unwrap(), empty.read_stamp().unwrap()), (vec![], None));
        drop(empty);
        let (first, second) = (site.pin(900).unwrap(), site.pin(950).unwrap());
        assert!(second > first);
        bid(&site, 2, 7, b"130");
        let mut page = site.read(1000, 500).unwrap();
        assert_eq!(page.members().unwrap(), [(second, 950), (first, 900)]);
        assert_eq!(page.read_stamp().unwrap(), Some(second));
        assert_eq!(page.cached(key(0, 7), |asking| bids(asking, 7)).unwrap(), b"110");
        assert_eq!(page.commit().unwrap().pin, Some((second, 950)));
        let mut write = site.write_at(first).unwrap();
        assert_eq!(write.read_stamp().unwrap(), Some(first));
        assert_eq!(write.rows(Query::all(1)).unwrap().len(), 1);
    }
}

/// A keep lets the state of one that writes over the newest stay, and not that of one over another.
#[test]
fn a_keep_between_the_calls_of_writers() {
    for site in sites() {
        let (mut newest, mut older) = (site.write().unwrap(), site.write_at(1).unwrap());
        bid(&site, 2, 8, b"130");
        site.keep(0, 0).unwrap();
        assert_eq!(newest.rows(Query::group(1, 7)).unwrap().len(), 1);
        assert_eq!(older.rows(Query::group(1, 7)).unwrap().len(), 1); // the other holds it
        newest.put(1, 1, 7, b"120").unwrap();
        newest.commit().unwrap();
        older.put(1, 1, 7, b"115").unwrap();
        assert_eq!(older.commit(), Err(Error::Conflict));
        let mut late = site.write_at(3).unwrap();
        bid(&site, 1, 7, b"140");
        site.keep(0, 0).unwrap();
        assert_eq!(late.rows(Query::group(1, 7)), Err(Error::Refused));
    }
}
