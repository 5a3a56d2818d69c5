// The same register in SQLite, in memory: a table of objects, one for each relationship with an index in each direction, and for each rule a
// view of the objects at which it is broken. A visit is a transaction: its events as statements, every view asked for one row, rolled back.
use crate::park::{Form, Park};
use std::ffi::{c_char, c_int, c_void, CStr, CString};

#[link(name = "sqlite3")]
extern "C" {
    fn sqlite3_libversion() -> *const c_char;
    fn sqlite3_open(name: *const c_char, db: *mut *mut c_void) -> c_int;
    fn sqlite3_close(db: *mut c_void) -> c_int;
    fn sqlite3_errmsg(db: *mut c_void) -> *const c_char;
    fn sqlite3_prepare_v2(db: *mut c_void, sql: *const c_char, len: c_int, statement: *mut *mut c_void, rest: *mut *const c_char) -> c_int;
    fn sqlite3_bind_int64(statement: *mut c_void, place: c_int, value: i64) -> c_int;
    fn sqlite3_step(statement: *mut c_void) -> c_int;
    fn sqlite3_reset(statement: *mut c_void) -> c_int;
    fn sqlite3_finalize(statement: *mut c_void) -> c_int;
}

const ROW: c_int = 100;
const DONE: c_int = 101;

pub fn version() -> String {
    unsafe { CStr::from_ptr(sqlite3_libversion()) }.to_string_lossy().into_owned()
}

struct Connection(*mut c_void);

impl Connection {
    fn open() -> Connection {
        let mut db = std::ptr::null_mut();
        assert_eq!(unsafe { sqlite3_open(c":memory:".as_ptr(), &mut db) }, 0);
        Connection(db)
    }

    fn fail(&self, sql: &str) -> ! {
        panic!("{sql}: {}", unsafe { CStr::from_ptr(sqlite3_errmsg(self.0)) }.to_string_lossy())
    }

    fn prepare(&self, sql: &str) -> Statement {
        let (text, mut statement) = (CString::new(sql).unwrap(), std::ptr::null_mut());
        if unsafe { sqlite3_prepare_v2(self.0, text.as_ptr(), -1, &mut statement, std::ptr::null_mut()) } != 0 {
            self.fail(sql);
        }
        Statement(statement)
    }

    fn run(&self, sql: &str) {
        if self.prepare(sql).step(&[]) == -1 {
            self.fail(sql);
        }
    }
}

impl Drop for Connection {
    fn drop(&mut self) {
        unsafe { sqlite3_close(self.0) };
    }
}

struct Statement(*mut c_void);

impl Statement {
    // Runs to the first row or the end: 1 with a row, 0 without, -1 on an error. Then it is reset.
    fn step(&self, values: &[i64]) -> i32 {
        unsafe {
            for (i, value) in values.iter().enumerate() {
                sqlite3_bind_int64(self.0, 1 + i as c_int, *value);
            }
            let found = match sqlite3_step(self.0) {
                ROW => 1,
                DONE => 0,
                _ => -1,
            };
            sqlite3_reset(self.0);
            found
        }
    }
}

impl Drop for Statement {
    fn drop(&mut self) {
        unsafe { sqlite3_finalize(self.0) };
    }
}

// Bodies as SQL. Variable v's row of the table of objects is `o<v>`, where its cells or its type are needed.
struct Words<'a> {
    park: &'a Park,
}

impl Words<'_> {
    fn types_under(&self, t: u32) -> String {
        let mut inside = vec![t];
        for (n, (parent, _)) in self.park.types.iter().enumerate() {
            if parent.is_some_and(|p| inside.contains(&p)) {
                inside.push(n as u32);
            }
        }
        inside.iter().map(u32::to_string).collect::<Vec<_>>().join(", ")
    }

    // ids has for each variable the words for its id
    fn truth(&self, f: &Form, ids: &mut Vec<String>) -> String {
        match f {
            Form::Compare(o, x, y) => {
                let sign = ["<=", "<", "=", "<>", ">=", ">"][*o as usize];
                format!("({} {sign} {})", self.number(x, ids), self.number(y, ids))
            }
            Form::Not(x) => format!("(NOT {})", self.truth(x, ids)),
            Form::Connect(0, x, y) => format!("({} AND {})", self.truth(x, ids), self.truth(y, ids)),
            Form::Connect(1, x, y) => format!("({} OR {})", self.truth(x, ids), self.truth(y, ids)),
            Form::Connect(2, x, y) => format!("({} <> {})", self.truth(x, ids), self.truth(y, ids)),
            Form::Connect(_, x, y) => format!("(NOT {} OR {})", self.truth(x, ids), self.truth(y, ids)),
            Form::Quantify(0, c, b) => format!("(NOT EXISTS ({}))", self.members("1", c, Some((b, true)), false, ids)),
            Form::Quantify(_, c, b) => format!("(EXISTS ({}))", self.members("1", c, Some((b, false)), false, ids)),
            Form::Kind(v, t) => format!("(o{v}.type IN ({}))", self.types_under(*t)),
            _ => panic!("no truth"),
        }
    }

    fn number(&self, f: &Form, ids: &mut Vec<String>) -> String {
        match f {
            Form::Num(n) => format!("({n})"),
            Form::Cell(v, k) => format!("o{v}.c{k}"),
            Form::Size(c) => format!("({})", self.members("count(*)", c, None, false, ids)),
            Form::Sum(c, k) => format!("({})", self.members(&format!("coalesce(sum(o{}.c{k}), 0)", ids.len()), c, None, true, ids)),
            Form::Combine(0, x, y) => format!("({} + {})", self.number(x, ids), self.number(y, ids)),
            Form::Combine(_, x, y) => format!("({} - {})", self.number(x, ids), self.number(y, ids)),
            _ => panic!("no number"),
        }
    }

    // What is asked of the members of a collection that meet a condition, or do not meet it. The table of objects is joined only where it is needed.
    fn members(&self, asked: &str, c: &Form, body: Option<(&Form, bool)>, cells: bool, ids: &mut Vec<String>) -> String {
        let n = ids.len();
        let (mut base, mut conditions) = (c, vec![]);
        while let Form::Select(inner, b) = base {
            conditions.push((&**b, false));
            base = inner;
        }
        conditions.extend(body);
        let row = cells || conditions.iter().any(|b| uses(b.0, n as u32));
        let (from, id, mut tests) = match base {
            Form::Role(v, r) => {
                let (near, far) = if r % 2 == 0 { ("a", "b") } else { ("b", "a") };
                let object = if row { format!(" JOIN object o{n} ON o{n}.id = l{n}.{far}") } else { String::new() };
                (format!("link{} l{n}{object}", r / 2), format!("l{n}.{far}"), vec![format!("l{n}.{near} = {}", ids[*v as usize])])
            }
            Form::All(t) => (format!("object o{n}"), format!("o{n}.id"), vec![format!("o{n}.type IN ({})", self.types_under(*t))]),
            _ => panic!("no collection"),
        };
        ids.push(id);
        tests.extend(conditions.iter().map(|(b, negated)| format!("{}{}", if *negated { "NOT " } else { "" }, self.truth(b, ids))));
        ids.pop();
        format!("SELECT {asked} FROM {from} WHERE {}", tests.join(" AND "))
    }

    fn view(&self, n: usize, context: u32, body: &Form) -> String {
        let broken = self.truth(body, &mut vec!["o0.id".to_string()]);
        format!("CREATE VIEW rule{n} AS SELECT o0.id AS id FROM object o0 WHERE o0.type IN ({}) AND NOT {broken}", self.types_under(context))
    }
}

// Whether a form reads a cell or the type of a variable.
fn uses(f: &Form, v: u32) -> bool {
    match f {
        Form::Compare(_, x, y) | Form::Connect(_, x, y) | Form::Combine(_, x, y) | Form::Quantify(_, x, y) | Form::Select(x, y) => uses(x, v) || uses(y, v),
        Form::Not(x) | Form::Size(x) | Form::Sum(x, _) => uses(x, v),
        Form::Kind(w, _) | Form::Cell(w, _) => *w == v,
        _ => false,
    }
}

fn ask(n: usize) -> String {
    format!("SELECT id FROM rule{n} LIMIT 1")
}

pub struct Database {
    begin: Statement,
    rollback: Statement,
    insert: Statement,
    delete: Statement,
    set: Vec<Statement>,     // by cell
    join: Vec<Statement>,    // by relationship
    part: Vec<Statement>,
    special: Statement,
    general: Vec<Statement>, // by the new type
    views: Vec<Statement>,
    connection: Connection, // last, so that it outlives its statements
}

fn fill(c: &Connection, p: &Park) {
    c.run("CREATE TABLE object (id INTEGER PRIMARY KEY, type INTEGER NOT NULL, c0 INTEGER, c1 INTEGER, c2 INTEGER, c3 INTEGER, c4 INTEGER, c5 INTEGER, c6 INTEGER, c7 INTEGER)");
    c.run("CREATE INDEX object_type ON object (type)");
    for r in 0..p.relationships.len() {
        c.run(&format!("CREATE TABLE link{r} (a INTEGER NOT NULL, b INTEGER NOT NULL, PRIMARY KEY (a, b)) WITHOUT ROWID"));
        c.run(&format!("CREATE UNIQUE INDEX link{r}_back ON link{r} (b, a)"));
    }
    let object = c.prepare("INSERT INTO object VALUES (?1, ?2, ?3, ?4, ?5, ?6, ?7, ?8, ?9, ?10)");
    for (id, t, cells) in &p.objects {
        let values: Vec<i64> = [*id as i64, *t as i64].into_iter().chain(cells.map(i64::from)).collect();
        assert_eq!(object.step(&values), 0);
    }
    for (r, a, b) in &p.links {
        c.run(&format!("INSERT INTO link{r} VALUES ({a}, {b})"));
    }
    // a delete of an object takes its links along
    let taken = (0..p.relationships.len()).map(|r| format!("DELETE FROM link{r} WHERE a = old.id; DELETE FROM link{r} WHERE b = old.id; "));
    c.run(&format!("CREATE TRIGGER taken AFTER DELETE ON object BEGIN {}END", taken.collect::<String>()));
    for (n, (context, body)) in p.rules.iter().enumerate() {
        c.run(&Words { park: p }.view(n, *context, body));
    }
    c.run("ANALYZE");
}

impl Database {
    pub fn new(p: &Park) -> Database {
        let c = Connection::open();
        fill(&c, p);
        let each = |count: usize, sql: &dyn Fn(usize) -> String| (0..count).map(|n| c.prepare(&sql(n))).collect::<Vec<_>>();
        let dropped = |t: usize| (p.types[t].1..8).map(|k| format!(", c{k} = 0")).collect::<String>();
        Database {
            begin: c.prepare("BEGIN"),
            rollback: c.prepare("ROLLBACK"),
            insert: c.prepare("INSERT INTO object VALUES (?1, ?2, 0, 0, 0, 0, 0, 0, 0, 0)"),
            delete: c.prepare("DELETE FROM object WHERE id = ?1"),
            set: each(8, &|k| format!("UPDATE object SET c{k} = ?2 WHERE id = ?1")),
            join: each(p.relationships.len(), &|r| format!("INSERT INTO link{r} VALUES (?1, ?2)")),
            part: each(p.relationships.len(), &|r| format!("DELETE FROM link{r} WHERE a = ?1 AND b = ?2")),
            special: c.prepare("UPDATE object SET type = ?2 WHERE id = ?1"),
            general: each(p.types.len(), &|t| format!("UPDATE object SET type = ?2{} WHERE id = ?1", dropped(t))),
            views: each(p.rules.len(), &ask),
            connection: c,
        }
    }

    fn step(&self, [kind, x, y, z]: [u32; 4]) {
        let (id, second) = (x as i64, y as i64);
        let found = match kind {
            0 => self.insert.step(&[id, second]),
            1 => self.delete.step(&[id]),
            2 => self.set[y as usize].step(&[id, z as i32 as i64]),
            3 => self.join[x as usize].step(&[second, z as i64]),
            4 => self.part[x as usize].step(&[second, z as i64]),
            5 => self.special.step(&[id, second]),
            _ => self.general[y as usize].step(&[id, second]),
        };
        assert_eq!(found, 0);
    }

    // The first rule with a broken object after the visit, which is taken back; every view is asked, by statements that were kept or are prepared anew.
    pub fn visit(&self, events: &[[u32; 4]], anew: bool) -> Option<u32> {
        assert_eq!(self.begin.step(&[]), 0);
        for e in events {
            self.step(*e);
        }
        let mut first = None;
        for (n, view) in self.views.iter().enumerate() {
            let found = if anew { self.connection.prepare(&ask(n)).step(&[]) } else { view.step(&[]) };
            assert!(found >= 0);
            if found == 1 && first.is_none() {
                first = Some(n as u32);
            }
        }
        assert_eq!(self.rollback.step(&[]), 0);
        first
    }
}
