//! The bench lists of the port's document, each line asserted of the Rust through the files.

mod common;

use common::{chunks, groups_of, plan_lines, reads, sizes};
use oracle::hand::catalogs::{bench, bench_with_motor};
use oracle::hand::plans::{FIVE, list};
use oracle::{groups, names, plan};

fn lines(tags: &[&str]) -> Vec<String> {
    plan_lines(&bench(), &list(tags))
}

#[test]
fn an_empty_list_has_no_reads_and_no_packets() {
    assert!(reads(&bench(), &list(&[])).is_empty());
    assert_eq!(chunks(&[], 4000), (0, vec![]));
}

#[test]
fn bits_and_empty_brackets_and_dots_at_the_end_have_no_tokens() {
    for name in ["X.5", "X[]", "X."] {
        assert_eq!(names::tokens(name.as_bytes()), Ok(vec![0]), "{name}");
    }
}

#[test]
fn requests_of_a_program_tag_and_of_a_far_element() {
    assert_eq!(sizes(&bench(), "Program:Main.A[2].b").0, 30);
    assert_eq!(sizes(&bench(), "Trend[70000]").0, 16);
}

#[test]
fn a_gap_of_448_bytes_is_bridged_and_one_of_452_is_not() {
    assert_eq!(lines(&["Trend[0]", "Trend[113]"]), ["Trend[0]{114} <- Trend[0] at [0], Trend[113] at [113]"]);
    assert_eq!(lines(&["Trend[0]", "Trend[114]"]), ["Trend[0] <- Trend[0]", "Trend[114] <- Trend[114]"]);
}

#[test]
fn leading_zeros_are_another_tag_of_the_same_element() {
    assert_eq!(lines(&["Trend[3]", "Trend[03]"]), ["Trend[3]{1} <- Trend[3] at [0], Trend[03] at [0]"]);
}

#[test]
fn two_members_merge_in_464_bytes_and_not_in_465() {
    let tags = list(&["Motor.Speed", "Motor.Amps"]);
    let merged = ["Motor <- Motor.Speed at .Speed, Motor.Amps at .Amps"];
    assert_eq!(plan_lines(&bench_with_motor(464), &tags), merged);
    assert_eq!(plan_lines(&bench_with_motor(465), &tags).len(), 2);
}

#[test]
fn one_read_at_the_budget_and_one_byte_below_it() {
    assert_eq!(chunks(&[(14, 12)], 64), (1, vec![vec![0]]));
    assert_eq!(chunks(&[(14, 12)], 63), (4, vec![vec![0]]));
}

#[test]
fn two_spellings_of_one_tag_are_two_plain_reads() {
    assert_eq!(lines(&["Motor.Speed", "motor.SPEED"]), ["Motor.Speed <- Motor.Speed", "motor.SPEED <- motor.SPEED"]);
}

#[test]
fn the_five_tags_of_the_plan_program() {
    let expected = [
        "Motor <- Motor.Speed at .Speed, Motor.Amps at .Amps",
        "Trend[3]{3} <- Trend[3] at [0], Trend[5] at [2]",
        "Odd.5 <- Odd.5",
    ];
    assert_eq!(lines(FIVE), expected);
    let file = plan::answer(&bench().write(), &list(FIVE).write()).expect("accepted");
    let groups = groups::plan_chunks(&bench().write(), &file, 4000).expect("accepted");
    assert_eq!(groups_of(&groups), (1, vec![vec![0, 1, 2]]));
}
