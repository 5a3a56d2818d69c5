// The reading of a text, timed at three sizes in one run. Each text is that of a park, and what is read is the park's own tables.
#[allow(dead_code)]
mod library;
#[allow(dead_code)]
mod park;
mod spelling;

use library::{call, median, read, rounds};
use park::{Park, Tables};
use spelling::{park_of, text};

fn same(p: &Park, read: &Tables) -> bool {
    let t = park::tables(p);
    let starts = |a: &[u32], b: &[u32]| a[..b.len()] == *b && a[b.len()..].iter().all(|w| *w == 0);
    starts(&read.types, &t.types)
        && starts(&read.floors, &t.floors)
        && starts(&read.relationships, &t.relationships)
        && starts(&read.rules, &t.rules)
        && starts(&read.bodies, &t.bodies)
        && starts(&read.objects, &t.objects)
        && starts(&read.links, &t.links)
}

fn main() {
    let texts = [8, 32, 64].map(|size| {
        let p = park_of(size * 1024);
        let t = text(&p);
        let (mut lent, mut events) = library::largest();
        assert_eq!(read(t.as_bytes(), &mut lent, &mut events)[0], 0);
        assert!(same(&p, &lent) && events.iter().all(|w| *w == 0));
        t
    });
    let calls = texts.iter().map(|t| {
        let (mut lent, mut events) = library::largest();
        call(move || read(t.as_bytes(), &mut lent, &mut events))
    });
    let figures = &rounds(&mut [calls.collect()])[0];
    println!("  bytes  lines  time (us)  us per KiB");
    for (i, t) in texts.iter().enumerate() {
        let us = median(figures, |r| r[i]);
        println!("{:7}  {:5}  {us:9.1}  {:10.2}", t.len(), t.lines().count(), us * 1024.0 / t.len() as f64);
    }
}
