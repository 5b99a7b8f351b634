//! Smaller cases than a given one, the most smaller first. A difference is told by the smallest case that still
//! shows it.

use crate::catalog::Catalog;
use crate::kinds::Fields;
use crate::list::List;
use crate::{plan, results};

/// Each field with some bytes dropped: halves, quarters, down to single bytes.
pub fn bytes(fields: &[Vec<u8>]) -> Vec<Fields> {
    (0..fields.len())
        .flat_map(|place| dropped(&fields[place]).map(move |smaller| replaced(fields, place, smaller)))
        .collect()
}

/// The catalog with a tag, type or member fewer, or the name with bytes dropped.
pub fn lookup(fields: &[Vec<u8>]) -> Vec<Fields> {
    let names = dropped(&fields[1]).map(|name| replaced(fields, 1, name));
    catalogs(fields).into_iter().chain(names).collect()
}

/// The list with an entry fewer, or the catalog with a tag, type or member fewer; where one of them is refused, either
/// with bytes dropped.
pub fn plan(fields: &[Vec<u8>]) -> Vec<Fields> {
    let (Ok(_), Ok(list)) = (Catalog::read(&fields[0]), List::read(&fields[1])) else {
        return bytes(fields);
    };
    let tags = dropped(&list.tags).map(|tags| List { tags, ..list.clone() });
    let no_group = dropped(&list.no_group).map(|no_group| List { no_group, ..list.clone() });
    let together = dropped(&list.together).map(|together| List { together, ..list.clone() });
    let lists = tags.chain(no_group).chain(together);
    let lists = lists.map(|smaller| replaced(fields, 1, smaller.write()));
    lists.chain(catalogs(fields)).collect()
}

/// Both tables with entries dropped at the same places.
pub fn tables(fields: &[Vec<u8>]) -> Vec<Fields> {
    let entries = |field: &[u8]| field.chunks(8).map(<[u8]>::to_vec).collect::<Vec<_>>();
    let pairs: Vec<_> = entries(&fields[0]).into_iter().zip(entries(&fields[1])).collect();
    dropped(&pairs)
        .map(|kept| {
            let (requests, replies): (Vec<_>, Vec<_>) = kept.into_iter().unzip();
            vec![requests.concat(), replies.concat(), fields[2].clone()]
        })
        .collect()
}

/// The plan with reads fewer or without a read's members, the catalog with a tag, type or member fewer, or either file
/// with bytes dropped.
pub fn plan_chunks(fields: &[Vec<u8>]) -> Vec<Fields> {
    let reads = plan::read(&fields[1]).unwrap_or_default();
    let mut plans: Vec<_> = dropped(&reads).collect();
    for place in (0..reads.len()).filter(|place| !reads[*place].members.is_empty()) {
        let mut smaller = reads.clone();
        smaller[place].members.clear();
        plans.push(smaller);
    }
    let plans = plans.iter().map(|smaller| replaced(fields, 1, plan::write(smaller)));
    let bytes = (0..2).flat_map(|place| dropped(&fields[place]).map(move |smaller| replaced(fields, place, smaller)));
    plans.chain(catalogs(fields)).chain(bytes).collect()
}

/// A plan with one read's members fewer, where both files are accepted: reads and results go together, so both stay as
/// many. Then either file with bytes dropped.
pub fn sort(fields: &[Vec<u8>]) -> Vec<Fields> {
    let (Ok(reads), Ok(_)) = (plan::read(&fields[0]), results::read(&fields[1])) else {
        return bytes(fields);
    };
    let mut cases = Vec::new();
    for place in 0..reads.len() {
        for kept in dropped(&reads[place].members) {
            let mut smaller = reads.clone();
            smaller[place].members = kept;
            cases.push(replaced(fields, 0, plan::write(&smaller)));
        }
    }
    cases.extend(bytes(fields));
    cases
}

fn catalogs(fields: &[Vec<u8>]) -> Vec<Fields> {
    let Ok(catalog) = Catalog::read(&fields[0]) else {
        return Vec::new();
    };
    let mut smaller: Vec<Catalog> = Vec::new();
    let with = |change: &dyn Fn(&mut Catalog)| {
        let mut copy = catalog.clone();
        change(&mut copy);
        copy
    };
    for tags in dropped(&catalog.tags) {
        smaller.push(with(&|c| c.tags = tags.clone()));
    }
    for types in dropped(&catalog.types) {
        smaller.push(with(&|c| c.types = types.clone()));
    }
    for (place, t) in catalog.types.iter().enumerate() {
        for members in dropped(&t.members) {
            smaller.push(with(&|c| c.types[place].members = members.clone()));
        }
    }
    smaller.iter().map(|c| replaced(fields, 0, c.write())).collect()
}

fn replaced(fields: &[Vec<u8>], place: usize, field: Vec<u8>) -> Fields {
    let mut copy = fields.to_vec();
    copy[place] = field;
    copy
}

/// The row with one stretch of items left out: all, half of it, a quarter and so on, and every stretch of up to
/// eight items.
fn dropped<T: Clone>(items: &[T]) -> impl Iterator<Item = Vec<T>> {
    let count = items.len();
    let halves = std::iter::successors(Some(count), |w| (*w > 16).then(|| w / 2)).map(|width| (width, width));
    let short = (1..=count.min(8)).rev().map(|width| (width, 1));
    halves.chain(short).take_while(move |_| count > 0).flat_map(move |(width, step)| {
        let starts = (0..count).step_by(step).filter(move |start| start + width <= count || step > 1);
        starts.map(move |start| [&items[..start], &items[(start + width).min(count)..]].concat())
    })
}
