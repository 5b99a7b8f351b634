//! Each of the eleven causes, through each call that can refuse by it; and what a refusal leaves as it was.

mod files;

use std::error::Error;

use files::*;
use ruvangixo::Refusal;

/// The place of a text in a file that has it once.
fn place(file: &[u8], what: &[u8]) -> u64 {
    let mut places = (0..file.len()).filter(|&at| file[at..].starts_with(what));
    let first = places.next().unwrap();
    assert_eq!(places.next(), None);
    first as u64
}

/// The refusal of a call that writes. Buffers have to be as they were.
fn untouched(call: impl Fn(&mut [u8]) -> Result<usize, Refusal>) -> Refusal {
    let refusals = [0, 1, 50, 70_000].map(|room| {
        let mut out = vec![0xd7; room];
        let refusal = call(&mut out).unwrap_err();
        assert!(out.iter().all(|&byte| byte == 0xd7));
        refusal
    });
    // However short the buffer is, it is looked at last.
    assert!(refusals.iter().all(|refusal| *refusal == refusals[0]));
    refusals[0]
}

fn of_catalog(catalog: &[u8]) -> Refusal {
    let refusal = untouched(|out| ruvangixo::plan_into(catalog, MOTOR_LIST, out));
    // The plan is not looked at where the catalog is bad.
    assert_eq!(untouched(|out| ruvangixo::plan_chunks_into(catalog, b"no plan", 4000, out)), refusal);
    assert_eq!(ruvangixo::plan(catalog, b"no list"), Err(refusal));
    refusal
}

fn of_list(list: &[u8]) -> Refusal {
    let refusal = untouched(|out| ruvangixo::plan_into(MOTOR_CATALOG, list, out));
    assert_eq!(ruvangixo::plan(MOTOR_CATALOG, list), Err(refusal));
    refusal
}

fn of_plan(plan: &[u8]) -> Refusal {
    let refusal = untouched(|out| ruvangixo::plan_chunks_into(MOTOR_CATALOG, plan, 4000, out));
    assert_eq!(untouched(|out| ruvangixo::sort_into(plan, b"no results", out)), refusal);
    assert_eq!(ruvangixo::plan_chunks(MOTOR_CATALOG, plan, 4000), Err(refusal));
    refusal
}

fn of_results(results: &[u8]) -> Refusal {
    let plan = ruvangixo::plan(MOTOR_CATALOG, MOTOR_LIST).unwrap();
    let refusal = untouched(|out| ruvangixo::sort_into(&plan, results, out));
    assert_eq!(ruvangixo::sort(&plan, results), Err(refusal));
    refusal
}

fn of_value(value: &[u8]) -> Refusal {
    // The path is not looked at where the value is bad.
    ruvangixo::dig(value, &[65]).unwrap_err()
}

fn of_path(path: &[u8]) -> Refusal {
    ruvangixo::dig(&value_file(&leaf(b"")), path).unwrap_err()
}

fn of_tables(requests: &[u64], replies: &[u64]) -> Refusal {
    let refusal = untouched(|out| ruvangixo::chunks_into(requests, replies, 500, out));
    assert_eq!(ruvangixo::packets(requests, replies, 500), Err(refusal));
    assert_eq!(ruvangixo::chunks(requests, replies, 500), Err(refusal));
    refusal
}

fn padded(file: &[u8], length: usize) -> Vec<u8> {
    let mut file = file.to_vec();
    file.resize(length, 0);
    file
}

#[test]
fn one_file_too_long() {
    let limit = |limit| Refusal::FileTooLong { limit };
    assert_eq!(of_catalog(&padded(MOTOR_CATALOG, 65_537)), limit(65_536));
    assert_eq!(of_list(&padded(MOTOR_LIST, 16_385)), limit(16_384));
    assert_eq!(of_plan(&vec![0; 65_537]), limit(65_536));
    assert_eq!(of_results(&vec![0; 65_537]), limit(65_536));
    assert_eq!(of_value(&vec![0; 65_537]), limit(65_536));
    // At the limit, the bytes are only spare.
    assert_eq!(of_list(&padded(MOTOR_LIST, 16_384)), Refusal::OutOfFile { place: MOTOR_LIST.len() as u64 });
}

#[test]
fn two_bad_version() {
    for file in [&[][..], &[0], &[2, 0, 0]] {
        assert_eq!(of_catalog(file), Refusal::BadVersion);
        assert_eq!(of_list(file), Refusal::BadVersion);
        assert_eq!(of_plan(file), Refusal::BadVersion);
        assert_eq!(of_results(file), Refusal::BadVersion);
        assert_eq!(of_value(file), Refusal::BadVersion);
    }
}

#[test]
fn three_out_of_file() {
    let at = |place| Refusal::OutOfFile { place };
    assert_eq!(of_catalog(&[1, 0]), at(1));
    assert_eq!(of_catalog(&padded(MOTOR_CATALOG, MOTOR_CATALOG.len() + 1)), at(MOTOR_CATALOG.len() as u64));
    assert_eq!(of_list(&MOTOR_LIST[..MOTOR_LIST.len() - 1]), at(place(MOTOR_LIST, b"\x05Odd.5")));
    assert_eq!(of_plan(&[1, 0, 1]), at(3));
    assert_eq!(of_results(&[1, 0, 1, 0, 0, 0, 0, 3, 0, 1]), at(4));
    assert_eq!(of_value(&[1, 0, 0, 0, 0]), at(5));
    assert_eq!(of_value(&[&value_file(&leaf(b"x"))[..], &[9]].concat()), at(7));
    assert_eq!(of_path(&[]), at(0));
    assert_eq!(of_path(&[1, 1, 0, 0]), at(2));
    assert_eq!(of_path(&[0, 0]), at(1));
}

#[test]
fn four_not_allowed() {
    let at = |place| Refusal::NotAllowed { place };
    // A kind byte, an AOI byte and a byte of a name.
    let with_kind = catalog(&[node("A", "DINT", 3)], &[]);
    assert_eq!(of_catalog(&with_kind), at(5 + 2 + 5));
    let mut with_aoi = catalog(&[], &[kind_of("T", 4, &[])]);
    with_aoi[9] = 3;
    assert_eq!(of_catalog(&with_aoi), at(9));
    assert_eq!(of_list(&list(&["a\u{7f}".to_owned()])), at(15));
    assert_eq!(of_plan(&plan(&[read("A", &[vec![0, 2]])])), at(8));
    assert_eq!(of_results(&[1, 0, 1, 3]), at(3));
    assert_eq!(of_value(&value_file(&value(4, b""))), at(5));
    assert_eq!(of_path(&[1, 3]), at(1));
}

#[test]
fn five_over_limit() {
    let at = |place| Refusal::OverLimit { place };
    assert_eq!(of_catalog(&[1, 4, 1, 0, 0]), at(1));
    assert_eq!(of_catalog(&[1, 0, 0, 0, 129]), at(3));
    assert_eq!(of_list(&list(&["a".repeat(129)])), at(13));
    assert_eq!(of_plan(&[1, 1, 1]), at(1));
    assert_eq!(of_plan(&plan(&[read(&"a".repeat(137), &[])])), at(3));
    assert_eq!(of_value(&value_file(&structure(&[(&"a".repeat(129), leaf(b""))]))), at(8));
    assert_eq!(of_path(&[65]), at(0));
    let table = [0; 257];
    assert_eq!(of_tables(&table, &[]), at(256));
    assert_eq!(of_tables(&[], &table), at(256));
    assert_eq!(of_tables(&[1, 2, (1 << 40) + 1], &[]), at(2));
    assert_eq!(of_tables(&[1, 2], &[1, u64::MAX]), at(1));
}

#[test]
fn six_names_alike() {
    let at = |place| Refusal::NamesAlike { place };
    let tags = catalog(&[node("Pump", "DINT", ATOMIC), node("pUMP", "DINT", ATOMIC)], &[]);
    assert_eq!(of_catalog(&tags), at(place(&tags, b"\x04pUMP")));
    let members = kind_of("T", 8, &[node("a", "DINT", ATOMIC), node("A", "DINT", ATOMIC)]);
    let members = catalog(&[], &[members]);
    assert_eq!(of_catalog(&members), at(place(&members, b"\x01A")));
    assert_eq!(of_catalog(&catalog(&[], &[kind_of("T", 8, &[]), kind_of("T", 8, &[])])), at(12));
    // Types, and members of a value, are alike only if they are the same.
    let file = catalog(&[], &[kind_of("T", 8, &[]), kind_of("t", 8, &[])]);
    assert!(ruvangixo::plan(&file, MOTOR_LIST).is_ok());
    let twice = value_file(&structure(&[("a", leaf(b"")), ("A", leaf(b"")), ("a", leaf(b""))]));
    assert_eq!(of_value(&twice), at(22));
    assert_eq!(of_results(&[&[1, 0, 1, 0][..], &twice[1..]].concat()), at(25));
}

#[test]
fn seven_types_too_deep() {
    let at = |place| Refusal::TypesTooDeep { place };
    let circle = catalog(&[], &[kind_of("T", 8, &[node("m", "T", STRUCT)])]);
    assert_eq!(of_catalog(&circle), at(5));
    // 17 types in a row are one too many, 16 are not.
    let row = |count: usize| {
        let types = (0..count).map(|n| kind_of(&format!("T{n}"), 8, &[node("m", &format!("T{}", n + 1), STRUCT)]));
        catalog(&[], &types.collect::<Vec<_>>())
    };
    assert_eq!(of_catalog(&row(17)), at(5));
    assert!(ruvangixo::plan(&row(16), MOTOR_LIST).is_ok());
}

#[test]
fn eight_index_too_large() {
    let at = |place| Refusal::IndexTooLarge { place };
    assert_eq!(of_list(&list(&["Trend[1000001]".to_owned()])), at(20));
    assert!(ruvangixo::plan(MOTOR_CATALOG, &list(&["Trend[1000000]".to_owned()])).is_ok());
    let counted = |count: &str| plan(&[read(&format!("Trend[3]{{{count}}}"), &[])]);
    assert_eq!(of_plan(&counted("1000002")), at(13));
    assert!(ruvangixo::plan_chunks(MOTOR_CATALOG, &counted("1000001"), 4000).is_ok());
}

/// A buffer one byte short: the bytes needed, and nothing written.
fn one_short(answer: &[u8], call: impl Fn(&mut [u8]) -> Result<usize, Refusal>) {
    let needed = Refusal::OutputTooShort { needed: answer.len() as u64 };
    for room in [0, answer.len() / 2, answer.len() - 1] {
        let mut out = vec![0xd7; room];
        assert_eq!(call(&mut out), Err(needed));
        assert!(out.iter().all(|&byte| byte == 0xd7));
    }
    let mut out = vec![0xd7; answer.len()];
    assert_eq!(call(&mut out), Ok(answer.len()));
    assert_eq!(out, answer);
}

#[test]
fn nine_output_too_short() {
    let plan = ruvangixo::plan(MOTOR_CATALOG, MOTOR_LIST).unwrap();
    one_short(&plan, |out| ruvangixo::plan_into(MOTOR_CATALOG, MOTOR_LIST, out));
    let groups = ruvangixo::plan_chunks(MOTOR_CATALOG, &plan, 4000).unwrap();
    one_short(&groups, |out| ruvangixo::plan_chunks_into(MOTOR_CATALOG, &plan, 4000, out));
    let groups = ruvangixo::chunks(&[14, 15], &[12, 13], 64).unwrap();
    one_short(&groups, |out| ruvangixo::chunks_into(&[14, 15], &[12, 13], 64, out));
    let sorted = ruvangixo::sort(&plan, &motor_results()).unwrap();
    one_short(&sorted, |out| ruvangixo::sort_into(&plan, &motor_results(), out));
}

#[test]
fn ten_too_many_levels() {
    let mut nested = leaf(b"");
    for _ in 1..40 {
        nested = array(&[nested]);
    }
    assert!(ruvangixo::dig(&value_file(&nested), &[0]).is_ok());
    // One level more: the leaf is on level 41, behind 40 arrays of seven bytes.
    let nested = array(&[nested]);
    assert_eq!(of_value(&value_file(&nested)), Refusal::TooManyLevels { place: 1 + 40 * 7 });
    assert_eq!(of_results(&[&[1, 0, 1, 0], &nested[..]].concat()), Refusal::TooManyLevels { place: 4 + 40 * 7 });
}

#[test]
fn eleven_counts_differ() {
    let smaller = |smaller| Refusal::CountsDiffer { smaller };
    assert_eq!(of_tables(&[1, 2, 3], &[1, 2]), smaller(2));
    assert_eq!(of_tables(&[], &[1, 2]), smaller(0));
    assert_eq!(of_results(&[1, 0, 2, 1, 1]), smaller(2));
    assert_eq!(of_results(&[1, 0, 4, 1, 1, 1, 1]), smaller(3));
}

#[test]
fn told_to_people() {
    let n = 77;
    let all = [
        Refusal::FileTooLong { limit: n },
        Refusal::BadVersion,
        Refusal::OutOfFile { place: n },
        Refusal::NotAllowed { place: n },
        Refusal::OverLimit { place: n },
        Refusal::NamesAlike { place: n },
        Refusal::TypesTooDeep { place: n },
        Refusal::IndexTooLarge { place: n },
        Refusal::OutputTooShort { needed: n },
        Refusal::TooManyLevels { place: n },
        Refusal::CountsDiffer { smaller: n },
    ];
    for (number, refusal) in (1..).zip(all) {
        let returned = if number == 2 { 0 } else { n };
        assert_eq!((refusal.number(), refusal.returned()), (number, returned));
        let error: Box<dyn Error> = Box::new(refusal);
        assert!(error.to_string().contains(&returned.to_string()), "{error}");
    }
}
