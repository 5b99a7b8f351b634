//! Values to be cut and results to be sorted.

use crate::kinds::Fields;
use crate::plan::{self, PlannedRead, Step};
use crate::results::{self, Outcome};
use crate::value::{self, Plain};

pub fn member(name: &str) -> Step {
    Step::Member(name.to_owned())
}

pub fn leaf(byte: u8) -> Plain {
    Plain::Leaf(vec![0, 0, 0, byte])
}

/// A motor with a row of numbers, names alike and a text.
pub fn motor() -> Plain {
    let named = |name: &str, value| (name.to_owned(), value);
    Plain::Struct(vec![
        named("speed", leaf(1)),
        named("Speed", leaf(2)),
        named("SPEED", leaf(3)),
        named("Data", Plain::Array(vec![leaf(4), Plain::Text(b"\x00free\xff".to_vec()), Plain::Array(vec![])])),
        named("", Plain::Struct(vec![named("a b", leaf(5))])),
        named("Name", Plain::Text(vec![])),
    ])
}

pub fn digs() -> Vec<Fields> {
    let paths: Vec<Vec<Step>> = vec![
        vec![],
        vec![member("Speed")],
        vec![member("speed")],
        vec![member("sPEED")],
        vec![member("data"), Step::Index(0)],
        vec![member("DATA"), Step::First(1)],
        vec![member("Data"), Step::Index(2)],
        vec![member("Data"), Step::Index(2), Step::Index(0)],
        vec![member("Data"), Step::Index(3)],
        vec![member("Data"), Step::Index(65_536)],
        vec![member("Data"), Step::Index(u32::MAX)],
        vec![member("Data"), member("0")],
        vec![member("")],
        vec![member(""), member("A B")],
        vec![member("Name")],
        vec![member("Name"), Step::Index(0)],
        vec![member("Speed"), member("x")],
        vec![Step::Index(0)],
        vec![Step::First(0)],
        vec![member("Gone")],
    ];
    let motor = value::write(&motor());
    let mut all: Vec<Fields> = paths.iter().map(|p| vec![motor.clone(), plan::write_path(p)]).collect();
    let deep = (1..40).fold(leaf(9), |inner, _| Plain::Array(vec![inner]));
    for keys in [0, 1, 38, 39, 40, 64] {
        let path = vec![Step::Index(0); keys];
        all.push(vec![value::write(&deep), plan::write_path(&path)]);
    }
    for root in [leaf(1), Plain::Leaf(vec![]), Plain::Text(vec![]), Plain::Array(vec![]), Plain::Struct(vec![])] {
        for path in [vec![], vec![Step::Index(0)], vec![member("")]] {
            all.push(vec![value::write(&root), plan::write_path(&path)]);
        }
    }
    all
}

type Members = Vec<(&'static str, Option<Vec<Step>>)>;

pub fn read(name: &str, members: Members) -> PlannedRead {
    let members = members.into_iter().map(|(tag, path)| (tag.to_owned(), path));
    PlannedRead { name: name.to_owned(), members: members.collect() }
}

pub fn sorts() -> Vec<Fields> {
    let mut all = vec![vec![plan::write(&[]), results::write(&[])]];
    let outcomes = || [Outcome::Value(motor()), Outcome::Error, Outcome::Neither];
    for members in shapes() {
        for outcome in outcomes() {
            let reads = [read("Motor", members.clone())];
            all.push(vec![plan::write(&reads), results::write(&[outcome])]);
        }
    }
    for first in outcomes() {
        for second in outcomes() {
            for names in [["Motor", "Motor"], ["Motor", "motor"]] {
                all.push(pair(names, [first.clone(), second.clone()]));
            }
        }
    }
    all
}

/// The members of one read: each way of having and of not having a path.
fn shapes() -> Vec<Members> {
    let speed = || Some(vec![member("Speed")]);
    let gone = || Some(vec![member("Gone")]);
    vec![
        vec![],
        vec![("Motor", None)],
        vec![("Motor", Some(vec![]))],
        vec![("Motor.Speed", speed())],
        vec![("Motor.Gone", gone())],
        vec![("Motor", None), ("Motor.Speed", speed())],
        vec![("Motor", None), ("Motor", None)],
        vec![("Motor.Speed", speed()), ("Motor.Gone", gone()), ("Motor", None)],
        vec![("Motor.Gone", gone()), ("Motor.Gone", gone()), ("Motor.Speed", speed())],
        vec![("a", Some(vec![member("data"), Step::First(1)])), ("a", Some(vec![member("Data"), Step::Index(9)]))],
    ]
}

/// Two reads of which the first member is there and the second is not, with a plain read between them.
fn pair(names: [&str; 2], outcomes: [Outcome; 2]) -> Fields {
    let members = || vec![("a", Some(vec![member("Speed")])), ("b", Some(vec![member("Gone")]))];
    let reads = [read(names[0], members()), read("Plain", vec![("Plain", None)]), read(names[1], members())];
    let [first, second] = outcomes;
    let results = [first, Outcome::Error, second];
    vec![plan::write(&reads), results::write(&results)]
}
