//! Transactions of a site, and what they refuse; with events that are stored, and with none, over either store of rows.
use txcache_node::site::{Asking, Error, Kept, MAX_BODY_LEN, Query, Row, Settings, Site, Store, Write};
use txcache_node::{Key, LAST_STAMP, MAX_EVENTS, MAX_VALUE_LEN};

fn highest(asking: &mut dyn Asking) -> Result<Vec<u8>, Error> {
    let rows = asking.rows(Query::group(1, 7))?;
    Ok(rows.into_iter().map(|row| row.body).max().unwrap_or_default())
}

fn twice(asking: &mut dyn Asking) -> Result<Vec<u8>, Error> {
    let one = asking.call(key(0), &mut highest)?;
    Ok([&one[..], b" ", &highest(asking)?].concat())
}

fn key(function: u8) -> Key {
    Key::new(function, &[7]).unwrap()
}

fn bid(site: &Site, id: u32, amount: &[u8]) -> u32 {
    let mut write = site.write().unwrap();
    write.put(1, id, 7, amount).unwrap();
    write.commit().unwrap()
}

fn over(store: Store, events: Option<usize>) -> Site {
    Site::open(Settings { events, capacity: 100, recent: 64, renew_after: 20_000, store, ..Settings::default() }).unwrap()
}

fn sites() -> [Site; 4] {
    [(Store::Sql, None), (Store::Sql, Some(1000)), (Store::Plain, None), (Store::Plain, Some(1000))].map(|(store, events)| {
        let site = over(store, events);
        bid(&site, 1, b"110");
        site
    })
}

/// The highest bid, and the stamp at which it was read.
fn seen(site: &Site, now: u64) -> (Vec<u8>, u32) {
    let mut page = site.read(now, 30_000).unwrap();
    let amount = page.cached(key(0), highest).unwrap();
    (amount, page.commit().unwrap().pin.unwrap().0)
}

#[test]
fn a_receipt_explains_each_answer() {
    for site in sites() {
        let first = seen(&site, 1000);
        assert_eq!(first.0, b"110");
        bid(&site, 2, b"130");
        let mut page = site.read(2000, 30_000).unwrap();
        assert_eq!(page.cached(key(1), twice).unwrap(), b"110 110");
        assert_eq!(page.commit().unwrap().pin, Some((first.1, 1000)));
        let last = seen(&site, 40_000);
        assert_eq!(last.0, b"130");
        assert!(last.1 > first.1);
    }
}

#[test]
fn what_is_given_up_leaves_nothing() {
    for site in sites() {
        let mut write = site.write().unwrap();
        write.remove(1, 1).unwrap();
        drop(write);
        let mut page = site.read(1000, 30_000).unwrap();
        assert_eq!(page.cached(key(0), |_| Err(Error::Refused)), Err(Error::Refused));
        assert_eq!(page.cached(key(0), highest).unwrap(), b"110");
        drop(page);
        let mut write = site.write().unwrap();
        assert_eq!(write.rows(Query::all(1)).unwrap().len(), 1);
        assert_eq!(write.put(1, 2, 7, &vec![0; MAX_BODY_LEN + 1]), Err(Error::BadArgument));
        write.remove(1, 1).unwrap();
        write.commit().unwrap();
        assert!(site.write().unwrap().rows(Query::all(1)).unwrap().is_empty());
    }
}

#[test]
fn bodies_are_any_bytes() {
    for site in sites() {
        let bodies = [vec![], (0..=255).collect(), vec![b'x'; 20_000], vec![0; MAX_BODY_LEN]];
        let mut write = site.write().unwrap();
        for (id, body) in (0..).zip(&bodies) {
            write.put(2, id, 9, body).unwrap();
        }
        write.commit().unwrap();
        let rows = site.write().unwrap().rows(Query::group(2, 9)).unwrap();
        assert_eq!(rows.into_iter().map(|row| row.body).collect::<Vec<_>>(), bodies);
    }
}

#[test]
fn pins_stay_for_their_age() {
    for site in sites() {
        seen(&site, 1000);
        let horizon = bid(&site, 2, b"130");
        assert_eq!(site.keep(2000, 30_000).unwrap().retired, 0);
        let kept = site.keep(40_000, 30_000).unwrap();
        assert_eq!(kept, Kept { retired: 1, horizon, swept: 1 });
    }
}

#[test]
fn an_update_is_not_lost() {
    for site in sites() {
        let (amount, stamp) = seen(&site, 1000);
        assert_eq!(seen(&site, 1000), (amount, stamp));
        let mut first = site.write_at(stamp).unwrap();
        assert_eq!(first.rows(Query::id(1, 1)).unwrap()[0].body, b"110");
        first.put(1, 1, 7, b"120").unwrap();
        first.commit().unwrap();
        let mut second = site.write_at(stamp).unwrap();
        assert_eq!(second.rows(Query::id(1, 1)).unwrap()[0].body, b"110");
        second.put(1, 1, 7, b"115").unwrap();
        assert_eq!(second.commit(), Err(Error::Conflict));
        let mut again = site.write().unwrap();
        assert_eq!(again.rows(Query::id(1, 1)).unwrap()[0].body, b"120");
        again.put(1, 1, 7, b"125").unwrap();
        again.commit().unwrap();
    }
}

#[test]
fn what_a_function_reads_is_read() {
    for site in sites() {
        let (_, stamp) = seen(&site, 1000);
        let mut write = site.write_at(stamp).unwrap();
        assert_eq!(write.cached(key(1), twice).unwrap(), b"110 110");
        assert_eq!(write.cached(key(0), |_| Err(Error::Refused)), Err(Error::Refused));
        assert_eq!(write.cached(key(0), |_| Ok(vec![0; MAX_VALUE_LEN + 1])), Err(Error::Refused));
        write.put(2, 1, 0, b"seen").unwrap();
        write.commit().unwrap();
        bid(&site, 2, b"130");
        let mut late = site.write_at(stamp).unwrap();
        assert_eq!(late.cached(key(1), twice).unwrap(), b"110 110");
        late.put(2, 1, 0, b"late").unwrap();
        assert_eq!(late.commit(), Err(Error::Conflict));
        let mut other = site.write_at(stamp).unwrap();
        assert!(other.rows(Query::all(3)).unwrap().is_empty());
        other.put(3, 1, 0, b"other").unwrap();
        other.commit().unwrap();
    }
}

#[test]
fn what_cannot_begin() {
    for events in [Some(0), Some(MAX_EVENTS + 1)] {
        assert!(matches!(Site::new(events, 100, 64, 0), Err(Error::BadArgument)));
    }
    for site in sites() {
        assert_eq!(site.write_at(u32::MAX).err(), Some(Error::BadArgument));
        assert_eq!(site.read_since(0, 0, u32::MAX).err(), Some(Error::BadArgument));
        assert_eq!(site.write_at(LAST_STAMP).err(), Some(Error::Refused));
        drop(site.read_since(0, 0, LAST_STAMP).unwrap());
        bid(&site, 1, b"120");
        assert_eq!(site.keep(0, 0).unwrap().horizon, 2);
        let below = site.write_at(1).and_then(|mut write| write.rows(Query::all(1)));
        assert_eq!(below.err(), Some(Error::Refused));
        assert_eq!(site.write_at(2).unwrap().rows(Query::all(1)).unwrap().len(), 1);
    }
}

/// What each kind of query finds.
fn found(write: &mut Write) -> Vec<Result<Vec<Row>, Error>> {
    let queries = (1..3).flat_map(|table| {
        let all = [Query::all(table), Query::range(table, 3, 8), Query::range(table, 9, u32::MAX)];
        let each = (0..12).flat_map(move |number| [Query::id(table, number), Query::group(table, number % 4)]);
        all.into_iter().chain(each)
    });
    queries.map(|query| write.rows(query)).collect()
}

/// What is found after each of these changes, in the newest state and in one before them that is held, and after each keep.
fn told(site: &Site) -> Vec<Vec<Result<Vec<Row>, Error>>> {
    let mut said = Vec::new();
    let mut held = site.write().unwrap();
    for number in 0..60_u32 {
        let (table, id) = ((1 + number % 2) as u8, number * 7 % 12);
        let mut write = site.write().unwrap();
        match number % 5 {
            0 => write.remove(table, id).unwrap(),
            _ => write.put(table, id, number * 5 % 4, number.to_string().as_bytes()).unwrap(),
        }
        write.put(1, 11, number % 4, &number.to_le_bytes()).unwrap(); // it changes its group each time
        assert_eq!(write.commit().unwrap(), number + 1);
        said.push(found(&mut held));
        said.push(found(&mut site.write().unwrap()));
        if number % 20 == 19 {
            assert!(site.keep(0, 0).is_ok());
            said.push(found(&mut held));
            held = site.write().unwrap();
        }
    }
    said
}

#[test]
fn both_stores_answer_alike() {
    assert_eq!(Settings::default().store, Store::Sql);
    for events in [None, Some(1000)] {
        let said = told(&over(Store::Sql, events));
        assert_eq!(told(&over(Store::Plain, events)), said);
        assert!(said.iter().flatten().any(|it| it.as_ref().is_ok_and(|rows| rows.len() > 3)));
    }
}

#[test]
fn a_site_goes_to_another_thread() {
    for site in sites() {
        let moved = std::thread::spawn(move || {
            bid(&site, 2, b"130");
            site
        });
        assert_eq!(seen(&moved.join().unwrap(), 1000).0, b"130");
    }
}
