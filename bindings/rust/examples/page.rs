//! A page of two cached results that a plain cache would tear: the highest bid, and the list of bids, of one moment.
use std::collections::BTreeMap;
use txcache_node::{Error, Key, Node, Reach, Tag};

/// A database of one's own: the bids of each item, after each event.
struct Database {
    states: Vec<BTreeMap<u32, Vec<u32>>>,
}

impl Database {
    fn stamp(&self) -> u32 {
        self.states.len() as u32 - 1
    }

    /// A bid comes in: an event, of which the node is told.
    fn bid(&mut self, node: &mut Node, item: u32, price: u32) -> Result<(), Error> {
        let mut state = self.states.last().unwrap().clone();
        state.entry(item).or_default().insert(0, price);
        self.states.push(state);
        node.event(self.stamp(), &[Tag::group(2, item)?])?;
        Ok(())
    }
}

/// The value of a call at a stamp from `lo` to `hi`, from the node or computed at `hi`, and where it holds.
fn cached(
    node: &mut Node,
    function: u8,
    item: u32,
    lo: u32,
    hi: u32,
    compute: impl Fn(u32) -> String,
) -> Result<(Reach, String), Error> {
    let key = Key::new(function, &[item])?;
    if let Some(hit) = node.lookup(&key, lo, hi)? {
        return Ok((hit.reach, String::from_utf8(hit.value).unwrap()));
    }
    let value = compute(hi);
    node.insert(&key, Reach::still(hi, hi), &[Tag::group(2, item)?], value.as_bytes())?;
    Ok((Reach::still(hi, hi), value))
}

/// Both results at one stamp: the second is asked for where the first holds.
fn page(node: &mut Node, database: &Database, item: u32, oldest: u32) -> Result<String, Error> {
    let bids = |stamp: u32| &database.states[stamp as usize][&item];
    let newest = database.stamp();
    let (reach, highest) = cached(node, 1, item, oldest, newest, |stamp| bids(stamp)[0].to_string())?;
    let (lo, hi) = (reach.lo.max(oldest), reach.known.min(newest));
    let (_, list) = cached(node, 2, item, lo, hi, |stamp| format!("{:?}", bids(stamp)))?;
    Ok(format!("highest {highest}, bids {list}"))
}

fn main() -> Result<(), Error> {
    let mut node = Node::new(1024, 64)?;
    let mut database = Database { states: vec![BTreeMap::new()] };
    database.bid(&mut node, 7, 110)?;
    println!("{}", page(&mut node, &database, 7, 1)?);
    database.bid(&mut node, 7, 130)?;
    // A page that may be of stamp 1: both are of it. One that may not: both are of stamp 2.
    let old = page(&mut node, &database, 7, 1)?;
    let new = page(&mut node, &database, 7, 2)?;
    println!("{old}\n{new}");
    assert_eq!(old, "highest 110, bids [110]");
    assert_eq!(new, "highest 130, bids [130, 110]");
    Ok(())
}
