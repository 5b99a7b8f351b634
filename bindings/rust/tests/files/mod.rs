//! The inputs of the tests, laid out byte by byte.
#![allow(dead_code)]

pub const MOTOR_CATALOG: &[u8] = include_bytes!("../../../../examples/motor.catalog");
pub const MOTOR_LIST: &[u8] = include_bytes!("../../../../examples/motor.list");
pub const PLANT_CATALOG: &[u8] = include_bytes!("../../../../examples/plant.catalog");
pub const PLANT_LIST: &[u8] = include_bytes!("../../../../examples/plant.list");

pub const ATOMIC: u8 = 0;
pub const STRUCT: u8 = 1;

pub fn short(n: usize) -> [u8; 2] {
    u16::try_from(n).unwrap().to_be_bytes()
}

pub fn text(name: &str) -> Vec<u8> {
    [&[u8::try_from(name.len()).unwrap()], name.as_bytes()].concat()
}

/// A node without dimensions, instance id and structure size.
pub fn node(name: &str, of: &str, kind: u8) -> Vec<u8> {
    [text(name), text(of), vec![kind, 0, 0, 0]].concat()
}

/// A type of so many bytes that can be read whole.
pub fn kind_of(name: &str, size: usize, members: &[Vec<u8>]) -> Vec<u8> {
    [&text(name)[..], &short(size), &[0], &short(members.len()), &members.concat()].concat()
}

pub fn catalog(tags: &[Vec<u8>], types: &[Vec<u8>]) -> Vec<u8> {
    [&[1][..], &short(tags.len()), &short(types.len()), &tags.concat(), &types.concat()].concat()
}

/// A list with whole maximum 60,000 and budget 4,000, with no names but those of the tags.
pub fn list(tags: &[String]) -> Vec<u8> {
    let tags: Vec<_> = tags.iter().map(|tag| text(tag)).collect();
    [&[1, 0, 0, 0xea, 0x60, 0x0f, 0xa0, 0, 0, 0, 0][..], &short(tags.len()), &tags.concat()].concat()
}

/// A read of a plan with its members, which are laid out already.
pub fn read(name: &str, members: &[Vec<u8>]) -> Vec<u8> {
    [&text(name)[..], &short(members.len()), &members.concat()].concat()
}

pub fn plan(reads: &[Vec<u8>]) -> Vec<u8> {
    [&[1][..], &short(reads.len()), &reads.concat()].concat()
}

/// A value of a kind, from its length field on.
pub fn value(kind: u8, content: &[u8]) -> Vec<u8> {
    [&u32::try_from(1 + content.len()).unwrap().to_be_bytes()[..], &[kind], content].concat()
}

pub fn leaf(content: &[u8]) -> Vec<u8> {
    value(0, content)
}

pub fn array(items: &[Vec<u8>]) -> Vec<u8> {
    value(1, &[&short(items.len())[..], &items.concat()].concat())
}

pub fn structure(members: &[(&str, Vec<u8>)]) -> Vec<u8> {
    let members: Vec<_> = members.iter().map(|(name, value)| [text(name), value.clone()].concat()).collect();
    value(2, &[&short(members.len())[..], &members.concat()].concat())
}

pub fn value_file(value: &[u8]) -> Vec<u8> {
    [&[1], value].concat()
}

/// Each result starts with its status byte.
pub fn results(all: &[Vec<u8>]) -> Vec<u8> {
    [&[1][..], &short(all.len()), &all.concat()].concat()
}

/// What a controller could send for the three reads of the motor list.
pub fn motor_results() -> Vec<u8> {
    let motor = structure(&[("Speed", leaf(&[1, 0, 0, 0])), ("Amps", leaf(&[2, 0, 0, 0]))]);
    let trend = array(&[leaf(&[3, 0, 0, 0]), leaf(&[4, 0, 0, 0]), leaf(&[5, 0, 0, 0])]);
    results(&[[vec![0], motor].concat(), [vec![0], trend].concat(), vec![1]])
}
