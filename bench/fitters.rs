// A book of rules as fitters write them for a wind park: twelve types, thirteen relationships, thirty rules.
use crate::park::Form::{self, *};

pub const TURBINE: u32 = 0;
pub const ROTOR: u32 = 1;
pub const BLADE: u32 = 2;
pub const CABINET: u32 = 3;
pub const DRIVE: u32 = 4;
pub const SERVO: u32 = 5;
pub const RESOLVER: u32 = 6;
pub const BOX: u32 = 7;
pub const LITHIUM: u32 = 8;
pub const ENCODER: u32 = 9;
pub const ABSOLUTE: u32 = 10;
pub const STORE: u32 = 11;

// Parent and cells of each type. A turbine has its number, power class and whether it is stopped; a rotor the blades it wants and a speed; a
// blade the charge and the torque it needs and its place.
pub const TYPES: [(Option<u32>, u32); 12] = [
    (None, 3),
    (None, 2),
    (None, 3),
    (None, 4), // rating, volts, places, reserve
    (None, 4), // current, kind of encoder, torque, volts
    (Some(DRIVE), 5), // and brake
    (Some(SERVO), 6), // and the resolver's lines
    (None, 4), // charge, capacity, age, volts
    (Some(BOX), 5), // and heater
    (None, 3), // kind, lines, year
    (Some(ENCODER), 4), // and bits
    (None, 2), // spare drives wanted, old boxes allowed
];

pub const CARRIES: u32 = 0;
pub const HOLDS: u32 = 1;
pub const HUB: u32 = 2;
pub const FEEDS: u32 = 3;
pub const TURNS: u32 = 4;
pub const READS: u32 = 5;
pub const KEEPS: u32 = 6;
pub const HOUSES: u32 = 7;
pub const WIRES: u32 = 8;
pub const NEAR: u32 = 9;
pub const FITS: u32 = 10;
pub const SUITS: u32 = 11;
pub const MATCHES: u32 = 12;
// Only in the park of `servo_rules`.
pub const GUIDES: u32 = 13;

// Source and target of each relationship. The last three say which spares would serve where.
pub const RELATIONSHIPS: [(u32, u32); 13] = [
    (TURBINE, ROTOR),
    (ROTOR, BLADE),
    (ROTOR, CABINET),
    (CABINET, DRIVE),
    (DRIVE, BLADE),
    (ENCODER, DRIVE),
    (BOX, BLADE),
    (CABINET, BOX),
    (CABINET, ENCODER),
    (TURBINE, TURBINE),
    (DRIVE, CABINET),
    (BOX, CABINET),
    (ENCODER, DRIVE),
];

fn b(f: Form) -> Box<Form> {
    Box::new(f)
}
fn le(x: Form, y: Form) -> Form {
    Compare(0, b(x), b(y))
}
fn eq(x: Form, y: Form) -> Form {
    Compare(2, b(x), b(y))
}
fn ge(x: Form, y: Form) -> Form {
    Compare(4, b(x), b(y))
}
fn gt(x: Form, y: Form) -> Form {
    Compare(5, b(x), b(y))
}
fn not(x: Form) -> Form {
    Not(b(x))
}
fn and(x: Form, y: Form) -> Form {
    Connect(0, b(x), b(y))
}
fn or(x: Form, y: Form) -> Form {
    Connect(1, b(x), b(y))
}
fn xor(x: Form, y: Form) -> Form {
    Connect(2, b(x), b(y))
}
fn implies(x: Form, y: Form) -> Form {
    Connect(3, b(x), b(y))
}
fn forall(c: Form, x: Form) -> Form {
    Quantify(0, b(c), b(x))
}
fn exists(c: Form, x: Form) -> Form {
    Quantify(1, b(c), b(x))
}
fn select(c: Form, x: Form) -> Form {
    Select(b(c), b(x))
}
fn size(c: Form) -> Form {
    Size(b(c))
}
fn sum(c: Form, k: u32) -> Form {
    Sum(b(c), k)
}
fn add(x: Form, y: Form) -> Form {
    Combine(0, b(x), b(y))
}
fn sub(x: Form, y: Form) -> Form {
    Combine(1, b(x), b(y))
}
// From variable v along a relationship, and back along it.
fn to(v: u32, r: u32) -> Form {
    Role(v, 2 * r)
}
fn back(v: u32, r: u32) -> Form {
    Role(v, 2 * r + 1)
}

fn cabinet_rules() -> Vec<Form> {
    let servos = || select(to(0, FEEDS), Kind(1, SERVO));
    vec![
        // what it feeds stays below its rating, and the servo drives leave its reserve
        le(sum(to(0, FEEDS), 0), Cell(0, 0)),
        le(add(sum(servos(), 0), Cell(0, 3)), Cell(0, 0)),
        // no more drives than places
        le(size(to(0, FEEDS)), Cell(0, 2)),
        // drives and battery boxes of its voltage, a box for each drive
        forall(to(0, FEEDS), eq(Cell(1, 3), Cell(0, 1))),
        forall(to(0, HOUSES), eq(Cell(1, 3), Cell(0, 1))),
        ge(size(to(0, HOUSES)), size(to(0, FEEDS))),
        // a servo drive is read by an absolute encoder
        forall(to(0, FEEDS), implies(Kind(1, SERVO), exists(back(1, READS), Kind(2, ABSOLUTE)))),
        // no coarse encoder on its drives
        forall(to(0, FEEDS), forall(back(1, READS), ge(Cell(2, 1), Num(1024)))),
        // lithium boxes or others, never both
        xor(exists(to(0, HOUSES), Kind(1, LITHIUM)), exists(to(0, HOUSES), not(Kind(1, LITHIUM)))),
    ]
}

fn drive_rules() -> Vec<(u32, Form)> {
    let fed = || gt(size(back(0, FEEDS)), Num(0));
    vec![
        // a drive that is fed has an encoder of its kind
        (DRIVE, implies(fed(), exists(back(0, READS), eq(Cell(1, 0), Cell(0, 1))))),
        // it turns a blade exactly when it is fed
        (DRIVE, eq(size(to(0, TURNS)), size(back(0, FEEDS)))),
        // its torque is enough for its blade
        (DRIVE, forall(to(0, TURNS), ge(Cell(0, 2), Cell(1, 1)))),
        // a drive that is fed could be fed from two cabinets, each of its voltage
        (DRIVE, or(not(fed()), ge(size(to(0, FITS)), Num(2)))),
        (DRIVE, forall(to(0, FITS), eq(Cell(1, 1), Cell(0, 3)))),
        // the brake holds half the torque
        (SERVO, ge(add(Cell(0, 4), Cell(0, 4)), Cell(0, 2))),
        (RESOLVER, or(gt(Cell(0, 5), Num(0)), exists(back(0, READS), Kind(1, ABSOLUTE)))),
    ]
}

fn blade_and_rotor_rules() -> Vec<(u32, Form)> {
    let charged = |v: u32| select(to(v, HOUSES), ge(Cell(v + 1, 0), Num(50)));
    vec![
        // the boxes of a blade have the charge that it needs
        (BLADE, ge(sum(back(0, KEEPS), 0), Cell(0, 0))),
        (BLADE, eq(size(back(0, TURNS)), Num(1))),
        // its drive is fed by a cabinet with a charged box
        (BLADE, forall(back(0, TURNS), exists(back(1, FEEDS), gt(size(charged(2)), Num(0))))),
        (ROTOR, eq(size(to(0, HOLDS)), Cell(0, 0))),
        // some cabinet of its hub feeds a drive for each blade
        (ROTOR, exists(to(0, HUB), eq(size(to(1, FEEDS)), size(to(0, HOLDS))))),
        // no worn box at its blades
        (ROTOR, forall(to(0, HOLDS), forall(back(1, KEEPS), not(ge(Cell(2, 2), Num(12)))))),
    ]
}

fn other_rules() -> Vec<(u32, Form)> {
    let spare = || select(All(DRIVE), eq(size(back(1, FEEDS)), Num(0)));
    vec![
        // a turbine that is not stopped has a rotor with three blades
        (TURBINE, implies(eq(Cell(0, 2), Num(0)), exists(to(0, CARRIES), eq(size(to(1, HOLDS)), Num(3))))),
        // no number twice
        (TURBINE, eq(size(select(All(TURBINE), eq(Cell(1, 0), Cell(0, 0)))), Num(1))),
        // neighbours differ by two power classes at most
        (TURBINE, forall(to(0, NEAR), le(sub(Cell(1, 1), Cell(0, 1)), Num(2)))),
        (BOX, and(ge(Cell(0, 0), Num(0)), le(Cell(0, 0), Cell(0, 1)))),
        // an old box is kept half charged
        (BOX, or(le(Cell(0, 2), Num(8)), ge(add(Cell(0, 0), Cell(0, 0)), Cell(0, 1)))),
        // an encoder that reads a drive is wired
        (ENCODER, implies(gt(size(to(0, READS)), Num(0)), eq(size(back(0, WIRES)), Num(1)))),
        // enough spare drives, and not too many old boxes
        (STORE, ge(size(spare()), Cell(0, 0))),
        (STORE, le(size(select(All(BOX), gt(Cell(1, 2), Num(10)))), Cell(0, 1))),
    ]
}

// The charge that battery boxes hold has limits, at a cabinet, at a blade and in all. In place of the rule that a cabinet has a box for each drive, so that boxes
// can be taken out.
pub fn charge_rules() -> Vec<(u32, Form)> {
    let mut out = rules();
    out.remove(5);
    out.push((CABINET, le(sum(to(0, HOUSES), 0), Num(400))));
    out.push((BLADE, le(sum(back(0, KEEPS), 0), Num(400))));
    out.push((STORE, le(sum(All(BOX), 0), Num(100_000))));
    out
}

// Two rules of servo drives over the encoders that guide them.
pub fn servo_rules() -> Vec<(u32, Form)> {
    let mut out = rules();
    out.push((SERVO, forall(to(0, GUIDES), ge(Cell(1, 1), Num(1024)))));
    out.push((SERVO, forall(to(0, GUIDES), eq(Cell(1, 0), Cell(0, 1)))));
    out
}

pub fn rules() -> Vec<(u32, Form)> {
    let mut out: Vec<(u32, Form)> = cabinet_rules().into_iter().map(|f| (CABINET, f)).collect();
    out.extend(drive_rules());
    out.extend(blade_and_rotor_rules());
    out.extend(other_rules());
    out
}
