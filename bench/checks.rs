// The checks of a lent book and register, timed at three sizes and with three kinds of ids in one run.
#[allow(dead_code)]
mod library;
#[allow(dead_code)]
mod park;

use library::{call, check, median, rounds};

const SIZES: [(u32, u32); 3] = [(128, 512), (512, 2048), (1024, 4096)];

fn main() {
    let parks = park::KINDS.map(|(_, ids)| SIZES.map(|(objects, links)| park::tables(&park::numbered(park::park(objects, links, 7), ids))));
    assert!(parks.iter().flatten().all(|t| check(t) == 0));
    let mut calls = parks.each_ref().map(|sizes| sizes.iter().map(|t| call(|| check(t))).collect());
    for ((name, _), figures) in park::KINDS.iter().zip(rounds(&mut calls)) {
        println!("{name}\nobjects  links  time (us)  times the line before");
        for (i, (objects, links)) in SIZES.iter().enumerate() {
            print!("{objects:7}  {links:5}  {:9.1}", median(&figures, |r| r[i]));
            if i > 0 {
                print!("  {:21.2}", median(&figures, |r| r[i] / r[i - 1]));
            }
            println!();
        }
    }
}
