// Batches of events beside a plain run of them over ordered maps, in one run: the same registers, and the time of 0, 5, 40 and 256 events; deletes that
// take links along, beside as many sets; and the event lists of thirty rules.
#[allow(dead_code)]
mod library;
#[allow(dead_code)]
mod park;

use library::{call, events, median, rounds, run, Call};
use park::{Draw, Ids, Park, Tables};
use std::collections::{BTreeMap, BTreeSet};

const SIZES: [(u32, u32); 2] = [(250, 1000), (1000, 4000)];
const COUNTS: [usize; 4] = [0, 5, 40, 256];
const HUB_LINKS: usize = 1024;

// A register as ordered maps.
#[derive(Clone)]
struct Register {
    objects: BTreeMap<u32, (u32, [i32; 8])>,
    links: BTreeSet<(u32, u32, u32)>,
}

fn register(p: &Park) -> Register {
    Register { objects: p.objects.iter().map(|o| (o.0, (o.1, o.2))).collect(), links: p.links.iter().copied().collect() }
}

// The register's rows as tables.
fn rows(g: &Register) -> (Vec<u32>, Vec<u32>) {
    let objects = g.objects.iter().flat_map(|(id, (t, cells))| [*id, *t].into_iter().chain(cells.map(|c| c as u32))).collect();
    (objects, g.links.iter().flat_map(|l| [l.0, l.1, l.2]).collect())
}

fn pick<T: Copy>(d: &mut Draw, of: &[T]) -> Option<T> {
    if of.is_empty() { None } else { Some(of[d.below(of.len() as u32) as usize]) }
}

// An event of a kind that the register takes, by the kinds of docs/TABLES.md, if there is one; it is applied. Types 4 and 5 of a park stand under type 3.
fn event(d: &mut Draw, g: &mut Register, p: &Park, ids: Ids, kind: u32) -> Option<[u32; 4]> {
    let of = |g: &Register, test: &dyn Fn(u32) -> bool| g.objects.iter().filter(|o| test(o.1 .0)).map(|o| *o.0).collect::<Vec<u32>>();
    match kind {
        0 if g.objects.len() < 1024 => {
            let (id, t) = (1 + d.below(ids.most()), d.below(6));
            if g.objects.contains_key(&id) {
                return None;
            }
            g.objects.insert(id, (t, [0; 8]));
            Some([0, id, t, 0])
        }
        // those with links are measured by themselves
        1 => {
            let free: Vec<u32> = g.objects.keys().copied().filter(|id| !g.links.iter().any(|l| l.1 == *id || l.2 == *id)).collect();
            let id = pick(d, &free)?;
            g.objects.remove(&id);
            Some([1, id, 0, 0])
        }
        2 => {
            let id = pick(d, &of(g, &|_| true))?;
            let o = g.objects.get_mut(&id).unwrap();
            let (k, v) = (d.below(p.types[o.0 as usize].1), d.next());
            o.1[k as usize] = v as i32;
            Some([2, id, k, v])
        }
        3 if g.links.len() < 4096 => {
            let l = (d.below(10), pick(d, &of(g, &|t| t == 0))?, pick(d, &of(g, &|t| t == 1))?);
            g.links.insert(l).then_some([3, l.0, l.1, l.2])
        }
        4 => {
            let l = pick(d, &g.links.iter().copied().collect::<Vec<_>>())?;
            g.links.remove(&l);
            Some([4, l.0, l.1, l.2])
        }
        5 | 6 => {
            let id = pick(d, &of(g, &|t| if kind == 5 { t == 3 || t == 4 } else { t == 4 || t == 5 }))?;
            let o = g.objects.get_mut(&id).unwrap();
            o.0 = if kind == 5 { o.0 + 1 } else { o.0 - 1 };
            o.1[p.types[o.0 as usize].1 as usize..].fill(0);
            Some([kind, id, o.0, 0])
        }
        _ => None,
    }
}

struct Case {
    tables: Tables,
    used: (u32, u32),
    events: Vec<u32>,
}

// A park with lent rows to the limits and a batch of all kinds.
fn case(objects: u32, links: u32, ids: Ids, count: usize) -> Case {
    let p = park::numbered(park::park(objects, links, 7), ids);
    let (mut d, mut g, mut events) = (Draw(5), register(&p), vec![]);
    while events.len() < 4 * count {
        let kind = d.below(7);
        events.extend(event(&mut d, &mut g, &p, ids, kind).into_iter().flatten());
    }
    agreed(&p, events, &g)
}

// A batch on lent rows to the limits, whose register after it is the plain one.
fn agreed(p: &Park, events: Vec<u32>, after: &Register) -> Case {
    let mut tables = park::tables(p);
    tables.objects.resize(10 * 1024, 0);
    tables.links.resize(3 * 4096, 0);
    let c = Case { tables, used: (p.objects.len() as u32, p.links.len() as u32), events };
    let mut scratch = (vec![7; 10 * 1024], vec![7; 3 * 4096]);
    let answer = run(&c.tables, c.used, &c.events, &mut scratch);
    let (plain_objects, plain_links) = rows(after);
    assert_eq!(answer, [0, (plain_objects.len() / 10) as u32, (plain_links.len() / 3) as u32]);
    assert_eq!(scratch.0[..plain_objects.len()], plain_objects);
    assert_eq!(scratch.1[..plain_links.len()], plain_links);
    c
}

fn calls(cases: &[Case]) -> Vec<Call<'_>> {
    cases
        .iter()
        .map(|c| {
            let mut scratch = (vec![7; 10 * 1024], vec![7; 3 * 4096]);
            call(move || run(&c.tables, c.used, &c.events, &mut scratch))
        })
        .collect()
}

// A park of 1,024 objects and 4,096 links, of which one object has 1,024: a cabinet, whose links stand side by side, or a drive, whose links are scattered.
fn with_hub(cabinet: bool) -> (Park, u32) {
    let mut p = park::park(1024, 4096, 7);
    let of = |t: u32| p.objects.iter().filter(|o| o.1 == t).map(|o| o.0).collect::<Vec<u32>>();
    let (hub, others) = if cabinet { (of(0)[0], of(1)) } else { (of(1)[0], of(0)) };
    let own = (0..10).flat_map(|r| others.iter().map(move |x| if cabinet { (r, hub, *x) } else { (r, *x, hub) }));
    let (mut links, mut d): (BTreeSet<_>, _) = (own.take(HUB_LINKS).collect(), Draw(7));
    while links.len() < p.links.len() {
        let l = p.links[d.below(4096) as usize];
        if l.1 != hub && l.2 != hub {
            links.insert(l);
        }
    }
    p.links = links.into_iter().collect();
    (p, hub)
}

struct Deletes {
    name: &'static str,
    taken: usize,
    cases: [Case; 3], // no event, as many sets, the deletes
}

fn deletes_of(name: &'static str, p: &Park, ids: &[u32]) -> Deletes {
    let before = register(p);
    let (mut set, mut after) = (before.clone(), before.clone());
    for id in ids {
        set.objects.get_mut(id).unwrap().1[0] = 1;
        after.objects.remove(id);
        after.links.retain(|l| l.1 != *id && l.2 != *id);
    }
    let events = |event: fn(u32) -> [u32; 4]| ids.iter().flat_map(|id| event(*id)).collect::<Vec<u32>>();
    let sets = agreed(p, events(|id| [2, id, 0, 1]), &set);
    let deletes = agreed(p, events(|id| [1, id, 0, 0]), &after);
    Deletes { name, taken: before.links.len() - after.links.len(), cases: [agreed(p, vec![], &before), sets, deletes] }
}

// The time of deletes that take links along, beside that of as many sets of the same objects.
fn deletes() {
    let ((cabinets, cabinet), (drives, drive)) = (with_hub(true), with_hub(false));
    let p = park::park(1024, 4096, 7);
    let fourth: Vec<u32> = p.objects.iter().step_by(4).map(|o| o.0).collect();
    let all = [
        deletes_of("a cabinet of 1,024 links", &cabinets, &[cabinet]),
        deletes_of("a drive of 1,024 links", &drives, &[drive]),
        deletes_of("every fourth object", &p, &fourth),
    ];
    let figures = rounds(&mut all.iter().map(|d| calls(&d.cases)).collect::<Vec<_>>());
    println!("deletes, of 1,024 objects and 4,096 links  events  links taken  time (us)  as many sets (us)  / sets  of it the deletes (us)  the sets (us)  each link (ns)");
    for (d, f) in all.iter().zip(&figures) {
        let (deletes, sets, ratio) = (median(f, |r| r[2]), median(f, |r| r[1]), median(f, |r| r[2] / r[1]));
        let [own, of_sets] = [2, 1].map(|i| median(f, |r| r[i] - r[0]));
        print!("{:41}  {:6}  {:11}  {deletes:9.1}  {sets:17.1}  {ratio:6.2}", d.name, d.cases[2].events.len() / 4, d.taken);
        println!("  {own:22.1}  {of_sets:13.1}  {:14.1}", 1000.0 * own / d.taken as f64);
    }
}

// Lists the event types of every rule of a park's book; how many there are.
fn lists(t: &Tables, list: &mut [u16]) -> u32 {
    (0..t.rules.len() as u32 / 2)
        .map(|rule| {
            let [refused, count, _] = events(t, rule, list);
            assert_eq!(refused, 0);
            count
        })
        .sum()
}

// The time of all event lists of the park's rules, beside that of the refusal checks that each of them begins with.
fn event_lists() {
    let t = park::tables(&park::park(1000, 4000, 7));
    let (mut list, rules) = (vec![7; 3 * 1792], t.rules.len() / 2);
    let count = lists(&t, &mut list);
    let mut refused = vec![7; 3 * 1792];
    let groups = &mut [vec![call(|| lists(&t, &mut list)), call(|| (0..rules).map(|_| events(&t, 32, &mut refused)[1]).sum::<u32>())]];
    let figures = &rounds(groups)[0];
    println!("rules  event types  their lists (us)  each (us)  of it the checks of the book (us)");
    let (all, checks) = (median(figures, |r| r[0]), median(figures, |r| r[1]));
    println!("{rules:5}  {count:11}  {all:16.1}  {:9.2}  {:33.2}", all / rules as f64, checks / rules as f64);
}

fn main() {
    event_lists();
    deletes();
    let cases = park::KINDS.map(|(_, ids)| SIZES.map(|(objects, links)| COUNTS.map(|count| case(objects, links, ids, count))));
    let figures = rounds(&mut cases.iter().flatten().map(|c| calls(c)).collect::<Vec<_>>());
    for ((name, _), lines) in park::KINDS.iter().zip(figures.chunks(SIZES.len())) {
        println!("{name}");
        println!("objects  links  events  time (us)  of it the events (us)  each (us)");
        for ((objects, links), figures) in SIZES.iter().zip(lines) {
            for (i, count) in COUNTS.iter().enumerate() {
                let whole = median(figures, |r| r[i]);
                let own = median(figures, |r| r[i] - r[0]);
                let each = if *count == 0 { 0.0 } else { own / *count as f64 };
                println!("{objects:7}  {links:5}  {count:6}  {whole:9.1}  {own:21.1}  {each:9.2}");
            }
        }
    }
}
