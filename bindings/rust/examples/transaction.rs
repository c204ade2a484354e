//! A page that would be torn, and is not: the highest bid, which the node has from before, and the list of bids, which it
//! has not.
use txcache_node::site::{Asking, Error, Query, Site};
use txcache_node::Key;

fn highest(asking: &mut dyn Asking, item: u32) -> Result<Vec<u8>, Error> {
    let rows = asking.rows(Query::group(1, item))?;
    Ok(rows.iter().map(|row| row.body.clone()).max().unwrap_or_default())
}

fn bids(asking: &mut dyn Asking, item: u32) -> Result<Vec<u8>, Error> {
    let rows = asking.rows(Query::group(1, item))?;
    let bodies: Vec<_> = rows.into_iter().map(|row| row.body).collect();
    Ok(bodies.join(&b','))
}

fn summary(asking: &mut dyn Asking, item: u32) -> Result<Vec<u8>, Error> {
    let highest = asking.call(Key::new(0, &[item])?, &mut |asking| highest(asking, item))?;
    let bids = asking.call(Key::new(1, &[item])?, &mut |asking| bids(asking, item))?;
    Ok([b"highest ", &highest[..], b", bids ", &bids[..]].concat())
}

fn bid(site: &Site, id: u32, amount: &[u8]) -> Result<u32, Error> {
    let mut write = site.write()?;
    write.put(1, id, 7, amount)?;
    write.commit()
}

fn main() -> Result<(), Error> {
    let site = Site::new(None, 100, 64, 20_000)?;
    bid(&site, 1, b"110")?;
    let mut page = site.read(1000, 30_000)?;
    page.cached(Key::new(0, &[7])?, |asking| highest(asking, 7))?;
    page.commit()?;
    bid(&site, 2, b"130")?;
    let mut shown = Vec::new();
    for now in [2000, 40_000] {
        let mut page = site.read(now, 30_000)?;
        let value = page.cached(Key::new(2, &[7])?, |asking| summary(asking, 7))?;
        shown.push(String::from_utf8(value).unwrap());
        println!("{} at {:?}", shown[shown.len() - 1], page.commit()?.pin);
    }
    assert_eq!(shown, ["highest 110, bids 110", "highest 130, bids 110,130"]);
    Ok(())
}
