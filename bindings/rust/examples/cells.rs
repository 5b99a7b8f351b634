//! From a catalog and a list to a value in each cell.
//!
//!     cargo run --example cells [CATALOG LIST]
//!
//! The list is planned, the plan's reads are packed into groups, a made-up controller answers them, and what came back is sorted
//! and shown, a line for each tag. The controller knows the tags of examples/motor.list; any other read comes back in error.

use std::error::Error;
use std::path::PathBuf;
use std::process::ExitCode;
use std::{env, fs};

use ruvangixo::{Entry, Groups, Plan, Refusal, Sorted, value_at};

/// What a controller sends, before it is laid out as a file.
enum Value {
    Dint(i32),
    Real(f32),
    Array(Vec<Value>),
    Struct(Vec<(&'static str, Value)>),
}

impl Value {
    /// A 4-byte length of what follows, a kind byte, then the bytes, items or members. A leaf has the controller's own bytes.
    fn write(&self) -> Vec<u8> {
        let (kind, content) = match self {
            Value::Dint(n) => (0, n.to_le_bytes().to_vec()),
            Value::Real(x) => (0, x.to_le_bytes().to_vec()),
            Value::Array(items) => (1, counted(items, Value::write)),
            Value::Struct(members) => {
                (2, counted(members, |(name, value)| [&[length(name)], name.as_bytes(), &value.write()].concat()))
            }
        };
        let length = u32::try_from(1 + content.len()).expect("values made up here are short");
        [&length.to_be_bytes()[..], &[kind], &content].concat()
    }
}

fn length(name: &str) -> u8 {
    u8::try_from(name.len()).expect("names made up here are short")
}

/// A 2-byte count, then each.
fn counted<T>(all: &[T], each: impl Fn(&T) -> Vec<u8>) -> Vec<u8> {
    let count = u16::try_from(all.len()).expect("a plan has at most 256 reads");
    count.to_be_bytes().into_iter().chain(all.iter().flat_map(each)).collect()
}

/// The made-up controller: what it has for the name of a read, or nothing, which is an error.
fn ask(name: &str) -> Option<Value> {
    match name {
        "Motor" => Some(Value::Struct(vec![("Speed", Value::Dint(1480)), ("Amps", Value::Real(12.5))])),
        "Trend[3]{3}" => Some(Value::Array((3..6).map(|n| Value::Dint(n * 100)).collect())),
        _ => None,
    }
}

/// A value as the sheet shows it: what stands behind the length field and the kind byte, by the format of the cell.
fn show(tag: &str, value: &[u8]) -> String {
    let bytes = &value[5..];
    match (bytes.first_chunk(), tag.ends_with("Amps")) {
        (Some(bits), true) => f32::from_le_bytes(*bits).to_string(),
        (Some(bits), false) => i32::from_le_bytes(*bits).to_string(),
        (None, _) => format!("{bytes:02x?}"),
    }
}

fn main() -> ExitCode {
    let Err(fault) = run() else { return ExitCode::SUCCESS };
    match fault.downcast_ref::<Refusal>() {
        Some(refusal) => eprintln!("refused with {}: {refusal}", refusal.number()),
        None => eprintln!("{fault}"),
    }
    ExitCode::FAILURE
}

fn run() -> Result<(), Box<dyn Error>> {
    let bundled = |name: &str| PathBuf::from(env!("CARGO_MANIFEST_DIR")).join("../../examples").join(name);
    let mut words = env::args().skip(1);
    let catalog = fs::read(words.next().map_or_else(|| bundled("motor.catalog"), PathBuf::from))?;
    let list = fs::read(words.next().map_or_else(|| bundled("motor.list"), PathBuf::from))?;

    // Plan. A list that is not refused has its budget in bytes 5 and 6.
    let file = ruvangixo::plan(&catalog, &list)?;
    let plan = Plan::read(&file).ok_or("no plan")?;
    let budget = u16::from_be_bytes([list[5], list[6]]);

    // Pack. Each group would be sent as one request.
    let groups = Groups::read(&ruvangixo::plan_chunks(&catalog, &file, budget)?).ok_or("no groups")?;
    println!("{} reads, {} packets", plan.reads.len(), groups.packets);
    for (group, reads) in groups.groups.iter().enumerate() {
        let names: Vec<&str> = reads.iter().map(|&read| plan.reads[usize::from(read)].name).collect();
        println!("group {}: {}", group + 1, names.join(" "));
    }

    // What came back, in the order of the plan's reads: a status byte, and a value behind 0.
    let answers: Vec<Option<Value>> = plan.reads.iter().map(|read| ask(read.name)).collect();
    let result = |answer: &Option<Value>| match answer {
        Some(value) => [vec![0], value.write()].concat(),
        None => vec![1],
    };
    let results = [vec![1], counted(&answers, result)].concat();

    // Sort: an entry for each member, read by read.
    let sorted = Sorted::read(&ruvangixo::sort(&file, &results)?).ok_or("no sorted answer")?;
    let mut entries = sorted.entries.iter();
    for (read, answer) in plan.reads.iter().zip(&answers) {
        for member in &read.members {
            let tag = member.tag;
            match (entries.next().ok_or("an entry for each member")?, answer) {
                (Entry::Cut(place), _) => {
                    let value = value_at(&results, usize::try_from(*place)?).ok_or("a value where a cut is told")?;
                    println!("{tag} = {}", show(tag, value));
                    // The same by the tag's path, in a value file of the read's value alone.
                    let (Some(answer), Some(path)) = (answer, &member.path) else { continue };
                    let alone = [vec![1], answer.write()].concat();
                    assert_eq!(ruvangixo::dig(&alone, path.bytes)?, Some(value));
                }
                (Entry::Received, Some(value)) => println!("{tag} = {}", show(tag, &value.write())),
                (Entry::Received, None) => println!("{tag}: error"),
                (Entry::Retry, _) => println!("{tag}: to be read again by itself"),
            }
        }
    }
    for &read in &sorted.failed {
        println!("failed: {}", plan.reads[usize::from(read)].name);
    }
    Ok(())
}
