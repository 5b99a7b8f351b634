//! The table of calls. For each: how a case is made from a seed, what the Rust answers, what the case shows, the
//! cases made by hand, and how a case is made smaller.

use crate::catalog::Catalog;
use crate::features::{self, Features};
use crate::generate::{catalogs, edges, lists, names, plans, tables, values};
use crate::list::List;
use crate::random::Random;
use crate::{bytes, groups, hand, lookup, plan, results, smaller, value};

/// The inputs of a case, each the bytes of a file, table, name or number.
pub type Fields = Vec<Vec<u8>>;

/// The bytes that the Rust answers, or why the input is none that it can be asked.
pub type Answer = Result<Vec<u8>, String>;

/// One call.
pub struct Kind {
    pub name: &'static str,
    /// What its inputs are, as the command line takes them.
    pub inputs: &'static [&'static str],
    pub generate: fn(&mut Random) -> Fields,
    pub answer: fn(&[Vec<u8>]) -> Answer,
    pub features: fn(&[Vec<u8>], &[u8]) -> Features,
    pub hand: fn() -> Vec<Fields>,
    pub smaller: fn(&[Vec<u8>]) -> Vec<Fields>,
    /// How many cases are stored, those made by hand included.
    pub stored: usize,
}

pub const NAME: &str = "NAME";
pub const BUDGET: &str = "BUDGET";

pub const KINDS: &[Kind] = &[
    Kind {
        name: "tokens",
        inputs: &[NAME],
        generate: |random| vec![names::name(random)],
        answer: |f| crate::names::tokens(&f[0]),
        features: |f, _| features::names::features(&text(&f[0])),
        hand: hand::names::all,
        smaller: smaller::bytes,
        stored: 600,
    },
    Kind {
        name: "strip",
        inputs: &[NAME],
        generate: |random| vec![names::name(random)],
        answer: |f| crate::names::strip(&f[0]),
        features: |f, _| features::names::features(&text(&f[0])),
        hand: hand::names::all,
        smaller: smaller::bytes,
        stored: 400,
    },
    Kind {
        name: "range",
        inputs: &[NAME],
        generate: |random| vec![names::name(random)],
        answer: |f| crate::names::range(&f[0]),
        features: |f, _| features::names::features(&text(&f[0])),
        hand: hand::names::all,
        smaller: smaller::bytes,
        stored: 400,
    },
    Kind {
        name: "info",
        inputs: &["CATALOG", NAME],
        generate: catalog_and_any_name,
        answer: |f| lookup::info(&f[0], &f[1]),
        features: |f, _| features::lookup::features(&catalog(&f[0]), &text(&f[1])),
        hand: hand::lookup::all,
        smaller: smaller::lookup,
        stored: 400,
    },
    Kind {
        name: "sizes",
        inputs: &["CATALOG", NAME],
        generate: catalog_and_name,
        answer: |f| lookup::sizes(&f[0], &f[1]),
        features: |f, _| features::lookup::features(&catalog(&f[0]), &text(&f[1])),
        hand: hand::lookup::all,
        smaller: smaller::lookup,
        stored: 400,
    },
    Kind {
        name: "plan",
        inputs: &["CATALOG", "LIST"],
        generate: catalog_and_list,
        answer: |f| plan::answer(&f[0], &f[1]),
        features: |f, _| features::plan::features(&catalog(&f[0]), &list(&f[1])),
        hand: hand::plans::all,
        smaller: smaller::plan,
        stored: 600,
    },
    Kind {
        name: "chunks",
        inputs: &["REQUESTS", "REPLIES", BUDGET],
        generate: sizes_and_budget,
        answer: |f| groups::chunks(&f[0], &f[1], budget(&f[2])?),
        features: packing_features,
        hand: hand::packing::tables,
        smaller: smaller::tables,
        stored: 400,
    },
    Kind {
        name: "packets",
        inputs: &["REQUESTS", "REPLIES", BUDGET],
        generate: sizes_and_budget,
        answer: |f| groups::packets(&f[0], &f[1], budget(&f[2])?),
        features: packing_features,
        hand: hand::packing::tables,
        smaller: smaller::tables,
        stored: 400,
    },
    Kind {
        name: "plan_chunks",
        inputs: &["CATALOG", "PLAN", BUDGET],
        generate: catalog_and_plan,
        answer: |f| groups::plan_chunks(&f[0], &f[1], budget(&f[2])?),
        features: plan_chunks_features,
        hand: hand::packing::plans,
        smaller: smaller::plan_chunks,
        stored: 300,
    },
    Kind {
        name: "dig",
        inputs: &["VALUE", "PATH"],
        generate: value_and_path,
        answer: |f| value::dig(&f[0], &f[1]),
        features: dig_features,
        hand: hand::values::digs,
        smaller: smaller::bytes,
        stored: 400,
    },
    Kind {
        name: "sort",
        inputs: &["PLAN", "RESULTS"],
        generate: plan_and_results,
        answer: |f| results::sort(&f[0], &f[1]),
        features: sort_features,
        hand: hand::values::sorts,
        smaller: smaller::sort,
        stored: 400,
    },
];

pub fn named(name: &str) -> Result<&'static Kind, String> {
    let known = || KINDS.iter().map(|k| k.name).collect::<Vec<_>>().join(", ");
    let found = KINDS.iter().find(|k| k.name == name);
    found.ok_or_else(|| format!("no kind {name:?}; there are {}", known()))
}

/// A budget of 2 bytes.
pub fn budget(field: &[u8]) -> Result<u16, String> {
    match field {
        [high, low] => Ok(u16::from_be_bytes([*high, *low])),
        _ => Err("a budget has 2 bytes".to_owned()),
    }
}

fn text(name: &[u8]) -> String {
    crate::names::text(name).expect("a generated name is a text")
}

fn catalog(file: &[u8]) -> Catalog {
    Catalog::read(file).expect("a generated catalog is accepted")
}

fn list(file: &[u8]) -> List {
    List::read(file).expect("a generated list is accepted")
}

fn catalog_and_name(random: &mut Random) -> Fields {
    let catalog = catalogs::catalog(random);
    let name = plans::odd_name(random, &catalog);
    vec![catalog.write(), name.into_bytes()]
}

/// At times a name that need not be of the catalog, nor be one at all.
fn catalog_and_any_name(random: &mut Random) -> Fields {
    match random.chance(20) {
        true => vec![catalogs::catalog(random).write(), names::name(random)],
        false => catalog_and_name(random),
    }
}

fn catalog_and_list(random: &mut Random) -> Fields {
    if random.chance(4) {
        let (catalog, list) = match random.chance(50) {
            true => edges::at_the_cost(random),
            false => edges::together(random),
        };
        return vec![catalog.write(), list.write()];
    }
    let catalog = match random.below(150) {
        0 => catalogs::large(random),
        _ => catalogs::catalog(random),
    };
    let list = lists::list(random, &catalog);
    vec![catalog.write(), list.write()]
}

fn sizes_and_budget(random: &mut Random) -> Fields {
    let budget = tables::budget(random);
    let (requests, replies) = tables::tables(random, budget);
    vec![bytes::table_bytes(&requests), bytes::table_bytes(&replies), budget.to_be_bytes().to_vec()]
}

fn catalog_and_plan(random: &mut Random) -> Fields {
    let (catalog, reads) = plans::for_catalog(random);
    let budget = match random.chance(70) {
        true => random.within(60, 400) as u16,
        false => tables::budget(random),
    };
    vec![catalog.write(), plan::write(&reads), budget.to_be_bytes().to_vec()]
}

pub fn value_and_path(random: &mut Random) -> Fields {
    if random.chance(5) {
        let levels = *random.pick(&[40, 40, 39, 12]);
        let (chain, path) = values::chain(random, levels);
        return vec![value::write(&chain), plan::write_path(&path)];
    }
    let tree = values::any(random, 5);
    let path = values::path(random, &tree);
    vec![value::write(&tree), plan::write_path(&path)]
}

pub fn plan_and_results(random: &mut Random) -> Fields {
    let (reads, outcomes) = plans::with_results(random);
    vec![plan::write(&reads), results::write(&outcomes)]
}

fn packing_features(fields: &[Vec<u8>], _: &[u8]) -> Features {
    let table = |field: &[u8]| bytes::table(field).expect("a generated table is accepted");
    let pair = |(a, b): (u64, u64)| (a as usize, b as usize);
    let sizes: Vec<_> = table(&fields[0]).into_iter().zip(table(&fields[1])).map(pair).collect();
    features::packing::features(&sizes, budget(&fields[2]).expect("a generated budget"))
}

fn plan_chunks_features(fields: &[Vec<u8>], _: &[u8]) -> Features {
    let rust = catalog(&fields[0]).to_rust();
    let reads = plan::read(&fields[1]).expect("a generated plan is accepted");
    let size = |name: &str| crate::planner::reach::read_size(name, &rust);
    let sizes: Vec<_> = reads.iter().map(|r| size(&r.name)).collect();
    let mut seen = features::packing::features(&sizes, budget(&fields[2]).expect("a generated budget"));
    let catalog = catalog(&fields[0]);
    for read in &reads {
        seen.0.extend(features::lookup::features(&catalog, &read.name).0);
    }
    seen.0.sort_unstable();
    seen.0.dedup();
    seen
}

fn dig_features(fields: &[Vec<u8>], _: &[u8]) -> Features {
    let value = value::read(&fields[0]).expect("a generated value is accepted");
    let mut seen = features::values::dig(&value, &plan::read_path(&fields[1]).expect("a generated path"));
    seen.when(fields[0].len() == value::LIMIT, "65,536 bytes");
    seen
}

fn sort_features(fields: &[Vec<u8>], answer: &[u8]) -> Features {
    let reads = plan::read(&fields[0]).expect("a generated plan is accepted");
    let received = results::read(&fields[1]).expect("generated results are accepted");
    let status = |r: &ciplink::cip::TagResult| match (&r.value, &r.error) {
        (Some(_), _) => 0,
        (None, Some(_)) => 1,
        (None, None) => 2,
    };
    let mut seen = features::values::sort(&reads, &received.iter().map(status).collect::<Vec<_>>(), answer);
    seen.when(fields[1].len() == results::LIMIT, "65,536 bytes");
    seen
}
