//! What the calls answer: each by example, the most that an answer can have, and calls on several threads.

mod files;

use std::thread;

use files::*;
use ruvangixo::{Entry, Groups, Key, Plan, Sorted};

fn tags(plan: &Plan) -> Vec<String> {
    plan.reads.iter().flat_map(|read| read.members.iter().map(|member| member.tag.to_owned())).collect()
}

#[test]
fn plans_the_motor() {
    let file = ruvangixo::plan(MOTOR_CATALOG, MOTOR_LIST).unwrap();
    let plan = Plan::read(&file).unwrap();
    assert_eq!(plan.reads.iter().map(|read| read.name).collect::<Vec<_>>(), ["Motor", "Trend[3]{3}", "Odd.5"]);
    assert_eq!(tags(&plan), ["Motor.Speed", "Motor.Amps", "Trend[3]", "Trend[5]", "Odd.5"]);
    let keys =
        |read: usize, member: usize| plan.reads[read].members[member].path.as_ref().map(|path| path.keys.clone());
    assert_eq!(keys(0, 0), Some(vec![Key::Member("Speed")]));
    assert_eq!(keys(0, 1), Some(vec![Key::Member("Amps")]));
    assert_eq!(keys(1, 0), Some(vec![Key::Index(0)]));
    assert_eq!(keys(1, 1), Some(vec![Key::Index(2)]));
    assert_eq!(keys(2, 0), None);
}

#[test]
fn plans_the_plant() {
    let file = ruvangixo::plan(PLANT_CATALOG, PLANT_LIST).unwrap();
    let plan = Plan::read(&file).unwrap();
    assert_eq!((plan.reads.len(), tags(&plan).len()), (97, 239));
    let budget = u16::from_be_bytes([PLANT_LIST[5], PLANT_LIST[6]]);
    let groups = Groups::read(&ruvangixo::plan_chunks(PLANT_CATALOG, &file, budget).unwrap()).unwrap();
    assert_eq!(groups.packets, 2);
    let mut reads = groups.groups.concat();
    reads.sort_unstable();
    assert_eq!(reads, (0..97).collect::<Vec<_>>());
}

#[test]
fn plans_into_a_buffer() {
    let file = ruvangixo::plan(MOTOR_CATALOG, MOTOR_LIST).unwrap();
    let mut out = [0xd7; 200];
    assert_eq!(ruvangixo::plan_into(MOTOR_CATALOG, MOTOR_LIST, &mut out), Ok(file.len()));
    assert_eq!(out[..file.len()], file);
    assert!(out[file.len()..].iter().all(|&byte| byte == 0xd7));
    // A buffer of just the length.
    let mut exact = vec![0; file.len()];
    assert_eq!(ruvangixo::plan_into(MOTOR_CATALOG, MOTOR_LIST, &mut exact), Ok(file.len()));
    assert_eq!(exact, file);
}

#[test]
fn plans_nothing() {
    assert_eq!(ruvangixo::plan(MOTOR_CATALOG, &list(&[])), Ok(vec![1, 0, 0]));
    assert_eq!(ruvangixo::plan(&catalog(&[], &[]), &list(&[])), Ok(vec![1, 0, 0]));
    // The least list: no maximum, no budget, no names.
    assert_eq!(ruvangixo::plan(MOTOR_CATALOG, &[1, 0, 0, 0, 0, 0, 0, 0, 0, 0, 0, 0, 0]), Ok(vec![1, 0, 0]));
}

#[test]
fn packs_tables() {
    // The second read goes alone: 52 + 60 is over the budget.
    let file = ruvangixo::chunks(&[14, 14, 14, 14], &[12, 60, 12, 40], 100).unwrap();
    let groups = Groups::read(&file).unwrap();
    assert_eq!(groups.groups, [vec![0, 2], vec![3], vec![1]]);
    assert_eq!(groups.packets, ruvangixo::packets(&[14, 14, 14, 14], &[12, 60, 12, 40], 100).unwrap());
    // A packet for each shared group, and for the lone read 2 for its reply of 60 in pieces of 48, and 2 more.
    assert_eq!(groups.packets, 2 + 4);
    assert_eq!(ruvangixo::chunks(&[], &[], 100), Ok(vec![1, 0, 0, 0, 0, 0, 0, 0, 0, 0, 0]));
    // The largest sizes and the least budget: each byte of a reply is a packet, and each read takes 2 more.
    let largest = [1 << 40; 256];
    assert_eq!(ruvangixo::packets(&largest, &largest, 0), Ok(256 * ((1 << 40) + 2)));
}

#[test]
fn packs_a_plan() {
    let plan = ruvangixo::plan(MOTOR_CATALOG, MOTOR_LIST).unwrap();
    let groups = |budget| Groups::read(&ruvangixo::plan_chunks(MOTOR_CATALOG, &plan, budget).unwrap()).unwrap();
    assert_eq!(groups(4000), Groups { packets: 1, groups: vec![vec![0, 1, 2]] });
    assert_eq!(groups(0).groups, [[0], [1], [2]]);
}

#[test]
fn cuts() {
    let inner = structure(&[("a", leaf(b"small")), ("A", leaf(b"large")), ("B", leaf(b"b"))]);
    let file = value_file(&array(&[leaf(b"first"), inner.clone()]));
    let dug = |path: &[u8]| ruvangixo::dig(&file, path).unwrap();
    assert_eq!(dug(&[0]), Some(&file[1..]));
    assert_eq!(dug(&[1, 1, 0, 0, 0, 1]), Some(&inner[..]));
    // Exact spelling first, else any that is alike.
    assert_eq!(dug(&[2, 1, 0, 0, 0, 1, 0, 1, b'A']), Some(&leaf(b"large")[..]));
    assert_eq!(dug(&[2, 2, 0, 0, 0, 1, 0, 1, b'b']), Some(&leaf(b"b")[..]));
    assert_eq!(dug(&[1, 1, 0, 0, 0, 2]), None);
    assert_eq!(dug(&[1, 0, 1, b'a']), None);
    // The part is the caller's own memory.
    assert_eq!(dug(&[1, 1, 0, 0, 0, 0]).unwrap().as_ptr(), file[8..].as_ptr());
}

#[test]
fn sorts() {
    let plan = ruvangixo::plan(MOTOR_CATALOG, MOTOR_LIST).unwrap();
    let results = motor_results();
    let sorted = Sorted::read(&ruvangixo::sort(&plan, &results).unwrap()).unwrap();
    assert_eq!(sorted.failed, []);
    let shown = sorted.entries.iter().map(|&entry| match entry {
        Entry::Cut(place) => ruvangixo::value_at(&results, place as usize).unwrap().to_vec(),
        Entry::Retry => b"retry".to_vec(),
        Entry::Received => b"received".to_vec(),
    });
    let shown: Vec<_> = shown.collect();
    let leaves = [1, 2, 3, 5].map(|n| leaf(&[n, 0, 0, 0]));
    assert_eq!(shown[..4], leaves);
    assert_eq!(shown[4], b"received");
    // A read that came back in error fails; so does one whose value lacks what a path names.
    let others = files::results(&[vec![1], [vec![0], array(&[leaf(b"3")])].concat(), vec![2]]);
    let sorted = Sorted::read(&ruvangixo::sort(&plan, &others).unwrap()).unwrap();
    assert_eq!(sorted.failed, [0, 1]);
    assert!(matches!(sorted.entries[..], [Entry::Retry, Entry::Retry, Entry::Cut(_), Entry::Retry, Entry::Received]));
}

#[test]
fn reads_keys_of_each_kind() {
    let path = [3, 0, 1, b'a', 1, 0, 1, 2, 3, 2, 0xff, 0, 0, 4];
    let file = plan(&[read("R", &[[text("t"), vec![1], path.to_vec()].concat()])]);
    let plan = Plan::read(&file).unwrap();
    let found = plan.reads[0].members[0].path.as_ref().unwrap();
    assert_eq!(found.bytes, path);
    assert_eq!(found.keys, [Key::Member("a"), Key::Index(0x0001_0203), Key::First(0xff00_0004)]);
}

#[test]
fn the_longest_path() {
    let key = [vec![0], text(&"a".repeat(128))].concat();
    let path = [vec![64], vec![key; 64].concat()].concat();
    assert_eq!(path.len(), 8_321);
    assert_eq!(ruvangixo::dig(&value_file(&leaf(b"")), &path), Ok(None));
}

#[test]
fn the_longest_groups() {
    let table = [0; 256];
    let file = ruvangixo::chunks(&table, &table, 0).unwrap();
    assert_eq!(file.len(), ruvangixo::GROUPS_MOST);
    assert_eq!(Groups::read(&file).unwrap().groups.len(), 256);
}

#[test]
fn the_longest_sorted_answer() {
    // As many members as a plan file has room for, each of three bytes: an empty tag and a path of no keys.
    let member = vec![0, 1, 0];
    let mut reads = vec![read("", &vec![member.clone(); 256]); 84];
    reads.push(read("", &vec![member; 255]));
    let plan = plan(&reads);
    assert_eq!(plan.len(), 65_535);
    let results = results(&vec![[vec![0], leaf(b"")].concat(); 85]);
    let file = ruvangixo::sort(&plan, &results).unwrap();
    assert_eq!(file.len(), ruvangixo::SORTED_MOST);
    let sorted = Sorted::read(&file).unwrap();
    assert_eq!(sorted.entries.len(), 21_759);
    assert!(sorted.entries.iter().all(|entry| matches!(entry, Entry::Cut(_))));
}

#[test]
fn the_longest_sorted_answer_of_what_was_planned() {
    let names: Vec<_> = (0..256).map(|n| format!("m{n}")).collect();
    let members: Vec<_> = names.iter().map(|name| node(name, "DINT", ATOMIC)).collect();
    let catalog = catalog(&[node("S", "T", STRUCT)], &[kind_of("T", 1024, &members)]);
    let tags: Vec<_> = names.iter().map(|name| format!("S.{name}")).collect();
    let plan = ruvangixo::plan(&catalog, &list(&tags)).unwrap();
    assert_eq!(Plan::read(&plan).unwrap().reads.len(), 1);
    let members: Vec<_> = names.iter().map(|name| (name.as_str(), leaf(b"1234"))).collect();
    let results = results(&[[vec![0], structure(&members)].concat()]);
    assert_eq!(ruvangixo::sort(&plan, &results).unwrap().len(), ruvangixo::SORTED_PLANNED_MOST);
}

#[test]
fn a_long_list() {
    // 256 members of one struct, whose names fill the list. Each stands in the plan twice, as a tag and as a key.
    let names: Vec<_> = (0..256).map(|n| format!("{n:a>60}")).collect();
    let members: Vec<_> = names.iter().map(|name| node(name, "DINT", ATOMIC)).collect();
    let catalog = catalog(&[node("S", "T", STRUCT)], &[kind_of("T", 1024, &members)]);
    let list = list(&names.iter().map(|name| format!("S.{name}")).collect::<Vec<_>>());
    assert_eq!(list.len(), 13 + 256 * 63);
    let file = ruvangixo::plan(&catalog, &list).unwrap();
    assert_eq!(file.len(), 3 + 4 + 256 * (63 + 2 + 62));
    assert!(ruvangixo::plan_chunks(&catalog, &file, 4000).is_ok());
}

#[test]
fn any_threads() {
    let expected = ruvangixo::plan(PLANT_CATALOG, PLANT_LIST).unwrap();
    thread::scope(|scope| {
        for _ in 0..4 {
            scope.spawn(|| {
                for _ in 0..5 {
                    assert_eq!(ruvangixo::plan(PLANT_CATALOG, PLANT_LIST).as_ref(), Ok(&expected));
                }
            });
        }
    });
}

#[test]
fn a_mebibyte_of_stack_is_enough() {
    // A struct of 4,096 names, 39 levels down.
    let names: Vec<_> = (0..4096).map(|n| format!("{n:03x}")).collect();
    let members: Vec<_> = names.iter().map(|name| (name.as_str(), leaf(b""))).collect();
    let mut value = structure(&members);
    for _ in 1..39 {
        value = array(&[value]);
    }
    let call = move || {
        let file = value_file(&value);
        ruvangixo::dig(&file, &[0]).map(|part| part.is_some())
    };
    let thread = thread::Builder::new().stack_size(1 << 20).spawn(call).unwrap();
    assert_eq!(thread.join().unwrap(), Ok(true));
}
