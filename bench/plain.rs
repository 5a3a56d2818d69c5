// A plain full check over adjacency lists, written on its own: what the proved one is measured against.
use crate::park::{Form, Park};
use std::collections::HashMap;

pub struct Plain {
    parents: Vec<Option<u32>>,
    rows: HashMap<u32, usize>,
    pub kinds: Vec<u32>,
    cells: Vec<[i32; 8]>,
    pub ids: Vec<u32>,
    // for each role, for each object's row, the rows at the far end
    ends: Vec<Vec<Vec<usize>>>,
    of_type: Vec<Vec<usize>>,
}

impl Plain {
    pub fn new(p: &Park) -> Plain {
        let parents: Vec<Option<u32>> = p.types.iter().map(|t| t.0).collect();
        let mut rows = HashMap::new();
        for (i, o) in p.objects.iter().enumerate() {
            rows.insert(o.0, i);
        }
        let n = p.objects.len();
        let mut ends = vec![vec![vec![]; n]; 2 * p.relationships.len()];
        for (r, a, b) in &p.links {
            let (x, y) = (rows[a], rows[b]);
            ends[2 * *r as usize][x].push(y);
            ends[2 * *r as usize + 1][y].push(x);
        }
        let mut of_type = vec![vec![]; p.types.len()];
        let kinds: Vec<u32> = p.objects.iter().map(|o| o.1).collect();
        for (i, k) in kinds.iter().enumerate() {
            let mut at = Some(*k);
            while let Some(t) = at {
                of_type[t as usize].push(i);
                at = parents[t as usize];
            }
        }
        Plain { parents, rows, kinds, cells: p.objects.iter().map(|o| o.2).collect(), ids: p.objects.iter().map(|o| o.0).collect(), ends, of_type }
    }

    pub fn under(&self, t: u32, u: u32) -> bool {
        let mut at = Some(t);
        while let Some(x) = at {
            if x == u {
                return true;
            }
            at = self.parents[x as usize];
        }
        false
    }

    pub fn truth(&self, f: &Form, vs: &mut Vec<usize>) -> bool {
        match f {
            Form::Compare(o, a, b) => {
                let (x, y) = (self.number(a, vs), self.number(b, vs));
                match o {
                    0 => x <= y,
                    1 => x < y,
                    2 => x == y,
                    3 => x != y,
                    4 => x >= y,
                    _ => x > y,
                }
            }
            Form::Not(a) => !self.truth(a, vs),
            Form::Connect(0, a, b) => self.truth(a, vs) && self.truth(b, vs),
            Form::Connect(1, a, b) => self.truth(a, vs) || self.truth(b, vs),
            Form::Connect(2, a, b) => self.truth(a, vs) != self.truth(b, vs),
            Form::Connect(_, a, b) => !self.truth(a, vs) || self.truth(b, vs),
            Form::Quantify(q, c, b) => {
                let all = *q == 0;
                for x in self.members(c, vs) {
                    vs.push(x);
                    let t = self.truth(b, vs);
                    vs.pop();
                    if t != all {
                        return !all;
                    }
                }
                all
            }
            Form::Kind(v, t) => self.under(self.kinds[vs[*v as usize]], *t),
            _ => panic!("no truth"),
        }
    }

    fn number(&self, f: &Form, vs: &mut Vec<usize>) -> i64 {
        match f {
            Form::Num(n) => *n as i64,
            Form::Cell(v, k) => self.cells[vs[*v as usize]][*k as usize] as i64,
            Form::Size(c) => self.members(c, vs).len() as i64,
            Form::Sum(c, k) => self.members(c, vs).iter().map(|x| self.cells[*x][*k as usize] as i64).sum(),
            Form::Combine(0, a, b) => self.number(a, vs) + self.number(b, vs),
            Form::Combine(_, a, b) => self.number(a, vs) - self.number(b, vs),
            _ => panic!("no number"),
        }
    }

    pub fn members(&self, f: &Form, vs: &mut Vec<usize>) -> Vec<usize> {
        match f {
            Form::Role(v, r) => self.ends[*r as usize][vs[*v as usize]].clone(),
            Form::All(t) => self.of_type[*t as usize].clone(),
            Form::Select(c, b) => self
                .members(c, vs)
                .into_iter()
                .filter(|x| {
                    vs.push(*x);
                    let t = self.truth(b, vs);
                    vs.pop();
                    t
                })
                .collect(),
            _ => panic!("no collection"),
        }
    }

    // the first broken pair of rule and id
    pub fn full_check(&self, p: &Park) -> Option<(u32, u32)> {
        for (n, (context, body)) in p.rules.iter().enumerate() {
            for x in &self.of_type[*context as usize] {
                if !self.truth(body, &mut vec![*x]) {
                    return Some((n as u32, self.ids[*x]));
                }
            }
        }
        let _ = &self.rows;
        None
    }
}
