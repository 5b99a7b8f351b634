//! The bench that the times are published for: 128 motors in the catalog, and the first so many of their members; a
//! plan of 256 reads and two tables of 256 sizes; values of 64 KB; results of 256 reads.

use oracle::catalog::Catalog;
use oracle::hand::shapes::{motor_type, structure, with_id};
use oracle::list::List;
use oracle::plan::{Member, PlannedRead, Step};
use oracle::results::Outcome;
use oracle::value::{LEVELS, Plain};

use crate::case::{Case, Decoding};
use crate::{cuts, groups, plans};

/// How many tags are planned.
const SIZES: [usize; 3] = [16, 64, 256];
/// How many reads a plan has, and how many sizes a table.
const READS: usize = 256;
const BUDGET: u16 = 4000;

/// A row's name and its case.
pub type Row = (String, Result<Case, String>);

/// What a row says of what the Rust gets; the port checks its files at each call.
const FORMS: [(&str, Decoding); 2] = [
    ("the Rust's inputs decoded before, the port's files checked each time", Decoding::Before),
    ("the Rust's files decoded each time too, by the oracle's reader", Decoding::Timed),
];

/// All rows of the bench.
pub fn rows() -> Vec<Row> {
    let (requests, replies) = tables();
    let mut rows: Vec<Row> =
        SIZES.iter().map(|tags| (format!("plan, {tags} tags"), plans::plan(&catalog(), &list(*tags)))).collect();
    rows.push(("the check of its catalog alone".to_owned(), plans::check(&catalog())));
    rows.extend(both("plan_chunks, 256 reads", |form| groups::plan_chunks(&catalog(), &plain_reads(), BUDGET, form)));
    rows.push(("chunks, two tables of 256 sizes".to_owned(), groups::chunks(&requests, &replies, BUDGET)));
    rows.push(("packets, two tables of 256 sizes".to_owned(), groups::packets(&requests, &replies, BUDGET)));
    for (what, value, path) in values() {
        rows.extend(both(&format!("dig, 64 KB, {what}"), |form| cuts::dig(&value, &path, form)));
    }
    rows.extend(both("sort, 256 reads of two cuts each", |form| cuts::sort(&struct_reads(), &structs(), form)));
    let numbers = vec![Outcome::Value(number()); READS];
    rows.extend(both("sort, 256 plain reads", |form| cuts::sort(&plain_reads(), &numbers, form)));
    rows
}

fn both(what: &str, case: impl Fn(Decoding) -> Result<Case, String>) -> [Row; 2] {
    FORMS.map(|(how, form)| (format!("{what}: {how}"), case(form)))
}

/// M0 to M127, each with an instance id below 256.
fn catalog() -> Catalog {
    let motor = |n: u32| with_id(n + 1, structure(&format!("M{n}"), "Motor", 12, &[]));
    Catalog { tags: (0..128).map(motor).collect(), types: vec![motor_type(12)] }
}

/// M0.Speed, M0.Amps, M1.Speed and so on.
fn list(count: usize) -> List {
    List { whole_max: 500, budget: BUDGET, tags: (0..count).map(tag).collect(), ..List::default() }
}

fn tag(n: usize) -> String {
    format!("M{}.{}", n / 2, ["Speed", "Amps"][n % 2])
}

/// A read of each of 256 tags.
fn plain_reads() -> Vec<PlannedRead> {
    (0..READS).map(|n| PlannedRead { name: tag(n), members: vec![(tag(n), None)] }).collect()
}

/// Sizes as those of small structs and short runs, in some order; they fill several packets.
fn tables() -> (Vec<u64>, Vec<u64>) {
    let numbers = 0..READS as u64;
    (numbers.clone().map(|n| 12 + n * 7 % 20 * 2).collect(), numbers.map(|n| 12 + n * 37 % 300).collect())
}

/// Values of 64 KB, each with a path to its last part.
fn values() -> [(&'static str, Plain, Vec<Step>); 3] {
    let items = vec![number(); 7280];
    let members: Vec<_> = (0..3120).map(|n| (format!("Member_{n:04}"), number())).collect();
    [
        ("39 structs deep", deep(), vec![member("Inner"); LEVELS - 1]),
        ("the last of 7,280 items", Plain::Array(items), vec![Step::Index(7279)]),
        ("the last of 3,120 members", Plain::Struct(members), vec![member("Member_3119")]),
    ]
}

/// A struct in a struct, as deep as there may be, with other bytes beside each.
fn deep() -> Plain {
    let beside = || ("Beside".to_owned(), Plain::Leaf(vec![7; 1650]));
    (1..LEVELS).fold(number(), |inner, _| Plain::Struct(vec![beside(), ("Inner".to_owned(), inner)]))
}

fn number() -> Plain {
    Plain::Leaf(vec![0, 0, 0, 7])
}

fn member(name: &str) -> Step {
    Step::Member(name.to_owned())
}

/// Whole reads of M0 to M255, with both members cut from each.
fn struct_reads() -> Vec<PlannedRead> {
    let cut = |n: usize, name: &str| -> Member { (format!("M{n}.{name}"), Some(vec![member(name)])) };
    let read = |n: usize| PlannedRead { name: format!("M{n}"), members: vec![cut(n, "Speed"), cut(n, "Amps")] };
    (0..READS).map(read).collect()
}

fn structs() -> Vec<Outcome> {
    let motor = Plain::Struct(vec![("Speed".to_owned(), number()), ("Amps".to_owned(), number())]);
    vec![Outcome::Value(motor); READS]
}

#[cfg(test)]
mod tests {
    use oracle::value::{self, LIMIT};

    #[test]
    fn the_values_are_of_64_kb() {
        for (what, value, path) in super::values() {
            let file = value::write(&value);
            assert!(file.len() <= LIMIT && file.len() > LIMIT - 300, "{what}: {}", file.len());
            assert_ne!(value::dig(&file, &oracle::plan::write_path(&path)), Ok(vec![0; 8]), "{what}");
        }
    }

    #[test]
    fn all_rows_are_inside_the_limits() {
        for (what, case) in super::rows().into_iter().filter(|(what, _)| what != "plan, 256 tags") {
            assert!(case.is_ok(), "{what}: {:?}", case.err());
        }
    }
}
