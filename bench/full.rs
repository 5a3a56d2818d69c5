// The full check beside a plain one over adjacency lists, in one run: the same parks, the same answers, both times and their ratio.
#[allow(dead_code)]
mod library;
#[allow(dead_code)]
mod park;
mod plain;

use library::{call, full_check, median, rounds, Call};
use park::{Ids, Park, Tables};
use plain::Plain;

const SIZES: [(u32, u32); 3] = [(250, 1000), (500, 2000), (1000, 4000)];

fn words(found: Option<(u32, u32)>) -> [u32; 3] {
    match found {
        None => [0, 0, 0],
        Some((rule, id)) => [1, rule, id],
    }
}

// A park with one cell that may break a rule.
fn damaged(d: &mut park::Draw, ids: Ids) -> Park {
    let mut p = park::numbered(park::park(250, 1000, 7), ids);
    let k = d.below(250) as usize;
    let cell = if p.objects[k].1 == 0 { 0 } else { 1 };
    if p.objects[k].1 < 2 {
        p.objects[k].2[cell] = if cell == 0 { -5 } else { 2_000_000 };
    }
    p
}

// The same first broken pair, wherever one cell breaks a rule. Drawn ids are drawn anew for each park.
fn answers(ids: Ids) {
    let mut d = park::Draw(99);
    let mut broken = 0;
    for seed in 1..=200 {
        let p = damaged(&mut d, if let Ids::Drawn(_, most) = ids { Ids::Drawn(seed, most) } else { ids });
        let answer = full_check(&park::tables(&p));
        assert_eq!(answer, words(Plain::new(&p).full_check(&p)));
        broken += answer[0];
    }
    println!("200 damaged parks: the same answers, {broken} of them broken");
}

struct Case {
    park: Park,
    tables: Tables,
    lists: Plain,
}

fn case(objects: u32, links: u32, ids: Ids) -> Case {
    let park = park::numbered(park::park(objects, links, 7), ids);
    let c = Case { tables: park::tables(&park), lists: Plain::new(&park), park };
    assert_eq!(full_check(&c.tables), words(c.lists.full_check(&c.park)));
    c
}

fn calls(c: &Case) -> Vec<Call<'_>> {
    vec![call(|| full_check(&c.tables)), call(|| Plain::new(&c.park).full_check(&c.park)), call(|| c.lists.full_check(&c.park))]
}

fn main() {
    let cases = park::KINDS.map(|(_, ids)| SIZES.map(|(objects, links)| case(objects, links, ids)));
    let figures = rounds(&mut cases.iter().flatten().map(calls).collect::<Vec<_>>());
    for ((name, ids), lines) in park::KINDS.iter().zip(figures.chunks(SIZES.len())) {
        println!("{name}");
        println!("objects  links  proved (us)  plain with its lists (us)  plain, lists at hand (us)  proved / plain with its lists");
        for ((objects, links), figures) in SIZES.iter().zip(lines) {
            let [proved, whole, bare] = [0, 1, 2].map(|i| median(figures, |r| r[i]));
            let ratio = median(figures, |r| r[0] / r[1]);
            println!("{objects:7}  {links:5}  {proved:11.0}  {whole:25.0}  {bare:25.0}  {ratio:29.2}");
        }
        answers(*ids);
    }
}
