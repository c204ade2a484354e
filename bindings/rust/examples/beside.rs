//! Seven threads' pages of four hits, beside an eighth thread whose functions sleep: `beside SECONDS MILLISECONDS`, of which 0 is no eighth. Prints how many
//! pages the seven made. bench/beside.py runs it.
use std::sync::atomic::{AtomicBool, Ordering::Relaxed};
use std::thread;
use std::time::{Duration, Instant};
use txcache_node::site::{Error, Query, Site};
use txcache_node::Key;

const READERS: usize = 7;

fn page(site: &Site) -> Result<(), Error> {
    let mut page = site.read(1000, 30_000)?;
    for item in 0..4 {
        page.cached(Key::new(0, &[item])?, |asking| Ok(asking.rows(Query::group(1, item))?[0].body.clone()))?;
    }
    page.commit()?;
    Ok(())
}

fn slow_page(site: &Site, number: u32, sleep: Duration) -> Result<(), Error> {
    let mut page = site.read(1000, 30_000)?;
    page.cached(Key::new(1, &[number])?, |asking| {
        let body = asking.rows(Query::group(1, number % 4))?[0].body.clone();
        thread::sleep(sleep);
        Ok(body)
    })?;
    page.commit()?;
    Ok(())
}

fn main() -> Result<(), Error> {
    let mut words = std::env::args().skip(1).map(|it| it.parse::<u64>().expect("usage: beside SECONDS MILLISECONDS"));
    let (seconds, sleep) = (words.next().unwrap_or(1), words.next().unwrap_or(0));
    let site = Site::new(None, 0, 0, 20_000)?;
    let mut write = site.write()?;
    for item in 0..4 {
        write.put(1, item, item, b"110")?;
    }
    write.commit()?;
    page(&site)?;
    let (site, is_over) = (&site, &AtomicBool::new(false));
    let pages: usize = thread::scope(|threads| {
        if sleep > 0 {
            threads.spawn(move || (0..).take_while(|_| !is_over.load(Relaxed)).for_each(|it| slow_page(site, it, Duration::from_millis(sleep)).unwrap()));
        }
        let readers: Vec<_> = (0..READERS)
            .map(|_| threads.spawn(move || (0..).take_while(|_| !is_over.load(Relaxed)).map(|_: usize| page(site).unwrap()).count()))
            .collect();
        let begun = Instant::now();
        thread::sleep(Duration::from_secs(seconds));
        is_over.store(true, Relaxed);
        let pages: usize = readers.into_iter().map(|it| it.join().unwrap()).sum();
        eprintln!("{:.0} pages a second", pages as f64 / begun.elapsed().as_secs_f64());
        pages
    });
    println!("{pages}");
    Ok(())
}
