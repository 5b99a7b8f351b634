//! The examples: their listings are the Rust's plans, and each has what it is there for.

use std::path::Path;

use oracle::catalog::Catalog;
use oracle::list::List;
use oracle::{features, listing};

/// What the plan program has to print for the motor and the trend.
const MOTOR: &str = "plan 3 reads 1 packets
group 1
read Motor
tag Motor.Speed path .Speed
tag Motor.Amps path .Amps
read Trend[3]{3}
tag Trend[3] path [0]
tag Trend[5] path [2]
read Odd.5
tag Odd.5
";

fn file(name: &str) -> Vec<u8> {
    let path = Path::new(env!("CARGO_MANIFEST_DIR")).join("../examples").join(name);
    std::fs::read(&path).unwrap_or_else(|e| panic!("{}: {e}", path.display()))
}

fn listing(name: &str) -> String {
    let lines = listing::lines(&file(&format!("{name}.catalog")), &file(&format!("{name}.list")));
    lines.expect("the files are accepted").join("\n") + "\n"
}

#[test]
fn the_motor_is_that_of_the_bench() {
    assert_eq!(listing("motor"), MOTOR);
    let (catalog, bench) = (Catalog::read(&file("motor.catalog")), oracle::hand::catalogs::bench());
    let catalog = catalog.expect("an accepted catalog");
    assert_eq!((&catalog.tags[..], &catalog.types[..]), (&bench.tags[..2], &bench.types[..1]));
}

#[test]
fn the_listings_are_the_plans_of_the_rust() {
    for name in ["motor", "plant"] {
        assert_eq!(listing(name).into_bytes(), file(&format!("{name}.listing")), "{name}");
    }
}

#[test]
fn the_plant_is_large_and_has_something_of_everything() {
    let catalog = Catalog::read(&file("plant.catalog")).expect("an accepted catalog");
    let list = List::read(&file("plant.list")).expect("an accepted list");
    assert!(catalog.tags.len() > 250 && list.tags.len() > 200);
    let seen = features::plan::features(&catalog, &list).0;
    for what in [
        "AOI 1",
        "AOI 2 below the first level",
        "BOOL arrays",
        "DWORD arrays",
        "a listed struct among its members",
        "a merge refused by packets",
        "a merge refused by name",
        "an array of several clusters",
        "arrays of structs",
        "barred structs",
        "barred runs",
        "leading zeros",
        "merge of a together struct",
        "names without tokens",
        "nested structs",
        "program tags",
        "ranges as listed tags",
        "several dimensions",
        "several spellings of one tag",
        "strings",
        "tags without an instance id",
        "unknown tags",
        "unlisted types",
    ] {
        assert!(seen.contains(&what), "{what}");
    }
}
