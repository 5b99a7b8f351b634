//! Types that stand at the end of a catalog as full as it may be, and names that lead through them: each step of such a
//! name takes long where a type is found by going over all that stand before it, member by member.

use oracle::catalog::{Catalog, LIMIT, MOST_TYPES, Node, Type};
use oracle::hand::shapes::{atomic, structure, type_of};

/// How many struct members lead from the outermost type to the innermost.
const STEPS: usize = 15;
/// The bytes of a type without members and with a name of two bytes.
const TYPE: usize = 8;
/// The bytes of a node with no name and no type.
const NODE: usize = 6;

/// 128 structs; those of each chain of types have two numbers each.
pub fn pair_catalog() -> Catalog {
    let numbers = || vec![atomic("x", "DINT", &[]), atomic("y", "DINT", &[])];
    let members = |of: usize| match of < STEPS {
        true => vec![structure("c", &letter(of + 1), 12, &[]), atomic("x", "DINT", &[])],
        false => numbers(),
    };
    let types = (0..=STEPS).map(|of| type_of(&letter(of), 12, members(of))).collect();
    filled((0..128).map(|n| structure(&letters(n), &letter(0), 12, &[])).collect(), types)
}

/// Both numbers of each innermost struct. Brackets name it again and again, since it has no dimensions.
pub fn pairs() -> Vec<String> {
    let tag = |n: usize| format!("{}{}.{}", letters(n / 2), behind(9), ["x", "y"][n % 2]);
    (0..256).map(tag).collect()
}

fn behind(brackets: usize) -> String {
    format!("{}{}", ".c".repeat(STEPS), "[1]".repeat(brackets))
}

/// One struct. The innermost type has two members that are atomic and name that type as theirs: names may go on
/// through them as long as they like, and that is no nesting of types.
pub fn deep_catalog() -> Catalog {
    let last = letter(STEPS);
    let mut types: Vec<Type> =
        (0..STEPS).map(|of| type_of(&letter(of), 12, vec![structure("c", &letter(of + 1), 12, &[])])).collect();
    types.push(type_of(&last, 12, vec![atomic("c", &last, &[]), atomic("d", &last, &[])]));
    filled(vec![structure("a", &letter(0), 12, &[])], types)
}

/// So many names through all struct members and so many atomic ones, which tell one name from another.
pub fn deep(count: usize, atomics: usize) -> Vec<String> {
    let member = |n: usize, at: usize| if at < 8 && n >> at & 1 == 1 { ".d" } else { ".c" };
    let name = |n: usize| format!("a{}{}", behind(0), (0..atomics).map(|at| member(n, at)).collect::<String>());
    (0..count).map(name).collect()
}

/// These tags and types behind as many others, of as many members, as there is room for.
fn filled(tags: Vec<Node>, types: Vec<Type>) -> Catalog {
    let mut left = LIMIT - Catalog { tags: tags.clone(), types: types.clone() }.write().len();
    let count = MOST_TYPES - types.len();
    let mut all: Vec<Type> = (0..count)
        .map(|n| {
            let room = left / (count - n) - TYPE;
            let members = small(room);
            left -= TYPE + members.iter().map(|m| NODE + m.name.len()).sum::<usize>();
            type_of(&letters(n).to_ascii_uppercase(), 12, members)
        })
        .collect();
    all.extend(types);
    Catalog { tags, types: all }
}

/// Members with the shortest names there are, as far as there is room.
fn small(mut room: usize) -> Vec<Node> {
    let bytes = (32..127).filter(|b: &u8| !b.is_ascii_uppercase());
    let names =
        std::iter::once(String::new()).chain(bytes.map(|b| char::from(b).to_string())).chain((0..150).map(letters));
    let fits = |name: &String| {
        let cost = NODE + name.len();
        let fits = cost <= room;
        room -= if fits { cost } else { 0 };
        fits
    };
    names.take_while(fits).map(|name| Node { name, ..Node::default() }).collect()
}

fn letter(n: usize) -> String {
    char::from(b'a' + n as u8).to_string()
}

/// Two letters for a number below 676.
fn letters(n: usize) -> String {
    [n / 26, n % 26].map(letter).concat()
}

#[cfg(test)]
mod tests {
    use oracle::catalog::{Catalog, LIMIT};

    #[test]
    fn the_catalogs_are_full() {
        for catalog in [super::pair_catalog(), super::deep_catalog()] {
            let file = catalog.write();
            assert!(file.len() > LIMIT - 20, "{}", file.len());
            assert!(Catalog::read(&file).is_ok());
            assert!(catalog.types.iter().map(|t| t.members.len()).sum::<usize>() > 8000);
        }
    }

    #[test]
    fn the_names_differ() {
        for mut names in [super::pairs(), super::deep(256, 15), super::deep(256, 52)] {
            names.sort();
            names.dedup();
            assert_eq!(names.len(), 256);
            assert!(names.iter().all(|name| name.len() <= 136));
        }
    }
}
