//! The wrapper's calls, each once, and its refusals.
use std::sync::{Arc, Mutex};
use txcache_node::{Error, Hit, Inserted, Key, Node, Reach, Tag, LAST_STAMP, MAX_CAPACITY, MAX_VALUE_LEN};

fn key(n: u32) -> Key {
    Key::new(1, &[n]).unwrap()
}

fn tag(n: u32) -> Tag {
    Tag::id(1, n).unwrap()
}

#[test]
fn each_call() {
    let mut node = Node::new(2, 4).unwrap();
    let stored = node.insert(&key(2), Reach::still(0, 0), &[tag(2)], &[0x0a]).unwrap();
    assert_eq!(stored, Inserted::Stored { reach: Reach::still(0, 0), evicted: None });
    assert_eq!(node.event(1, &[tag(3)]), Ok(0));
    let hit = Hit { reach: Reach::still(0, 1), value: vec![0x0a] };
    assert_eq!(node.lookup(&key(2), 0, 9), Ok(Some(hit)));
    assert_eq!(node.event(2, &[tag(2)]), Ok(1));
    assert_eq!(node.lookup(&key(2), 2, 9), Ok(None));
    assert_eq!(node.insert(&key(2), Reach::closed(0, 1), &[], &[]), Ok(Inserted::Kept));
    node.insert(&key(3), Reach::still(2, 2), &[Tag::group(1, 9).unwrap()], &[]).unwrap();
    let third = node.insert(&key(4), Reach::still(0, 0), &[Tag::all(2).unwrap()], &vec![7; MAX_VALUE_LEN]).unwrap();
    assert_eq!(third, Inserted::Stored { reach: Reach::still(0, 2), evicted: Some((key(2), 0)) });
    assert_eq!(node.lookup(&key(4), 0, 0).unwrap().unwrap().value, vec![7; MAX_VALUE_LEN]);
    assert_eq!(node.event(3, &[Tag::group(1, 9).unwrap()]), Ok(1));
    assert_eq!(node.sweep(3), Ok(1));
    let counts = node.counts(1).unwrap();
    assert_eq!((counts.lookups, counts.hits, counts.stored, counts.kept, counts.evicted), (4, 3, 3, 1, 1)); // a long value is looked up twice
}

#[test]
fn refusals() {
    assert!(matches!(Node::new(0, 4), Err(Error::BadArgument)));
    let mut node = Node::new(2, 4).unwrap();
    assert_eq!(Key::new(64, &[]), Err(Error::BadArgument));
    assert_eq!(Key::new(1, &[0; 5]), Err(Error::BadArgument));
    assert!(matches!(Tag::all(16), Err(Error::BadArgument)));
    assert_eq!(node.lookup(&key(1), 5, 4), Err(Error::EmptyRange));
    assert_eq!(node.lookup(&key(1), 0, LAST_STAMP + 1), Err(Error::BadArgument));
    assert_eq!(node.insert(&key(1), Reach::still(3, 2), &[], &[]), Err(Error::BadReach));
    assert_eq!(node.insert(&key(1), Reach::still(0, 0), &[], &vec![0; MAX_VALUE_LEN + 1]), Err(Error::ValueTooLong));
    assert_eq!(node.event(5, &[]), Err(Error::OutOfOrder(0)));
    assert_eq!(node.sweep(LAST_STAMP + 1), Err(Error::BadArgument));
    assert_eq!(node.counts(64), Err(Error::BadArgument));
}

#[test]
fn threads_share_one_by_a_lock() {
    let node = Arc::new(Mutex::new(Node::new(64, 4).unwrap()));
    let threads: Vec<_> = (0..4)
        .map(|n| {
            let node = Arc::clone(&node);
            std::thread::spawn(move || {
                node.lock().unwrap().insert(&key(n), Reach::still(0, 0), &[tag(n)], &[n as u8]).unwrap();
                (0..1000).filter(|_| node.lock().unwrap().lookup(&key(n), 0, 0).unwrap().is_some()).count()
            })
        })
        .collect();
    assert!(threads.into_iter().all(|it| it.join().unwrap() == 1000));
}

#[test]
fn late_stamps_and_a_wide_node() {
    assert_eq!(Node::new(MAX_CAPACITY + 1, 4).err(), Some(Error::BadArgument));
    let mut node = Node::new(MAX_CAPACITY, 4).unwrap();
    node.insert(&key(1), Reach::still(LAST_STAMP - 1, LAST_STAMP), &[], b"late").unwrap();
    assert_eq!(node.lookup(&key(1), LAST_STAMP, LAST_STAMP).unwrap().unwrap().value, b"late");
    assert!(node.lookup(&key(1), 0, LAST_STAMP - 2).unwrap().is_none());
    assert_eq!(node.sweep(LAST_STAMP), Ok(0));
}
