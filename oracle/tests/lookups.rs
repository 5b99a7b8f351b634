//! Lookups and sizes where one could expect something else of the Rust.

mod common;

use common::{plan_lines, reads, sizes};
use oracle::hand::catalogs::{bench, flat, kinds, nested, spoilt};
use oracle::hand::plans::list;
use oracle::{groups, lookup, names, plan};

/// The type of what a name finds, empty for nothing.
fn found(catalog: &oracle::catalog::Catalog, name: &str) -> String {
    let answer = lookup::info(&catalog.write(), name.as_bytes()).expect("accepted");
    match answer[0] {
        0 => String::new(),
        _ => String::from_utf8_lossy(&answer[2..2 + usize::from(answer[1])]).into_owned(),
    }
}

/// The last field of the sizes: what the struct of this name takes, read whole.
fn whole(catalog: &oracle::catalog::Catalog, name: &str) -> bool {
    let answer = lookup::sizes(&catalog.write(), name.as_bytes()).expect("accepted");
    let element = if answer[16] == 0 { 17 } else { 25 };
    answer[element] == 1
}

#[test]
fn a_full_name_comes_first() {
    assert_eq!(sizes(&flat(), "A[3]").1, 9);
    assert_eq!(plan_lines(&flat(), &list(&["A[3]", "A[4]"])), ["A[3]{2} <- A[3] at [0], A[4] at [1]"]);
    let under = ["Motor <- Motor.Zed at .Zed, Motor.Speed at .Speed"];
    assert_eq!(plan_lines(&flat(), &list(&["Motor.Zed", "Motor.Speed"])), under);
}

#[test]
fn a_listed_type_is_stepped_through_whatever_the_kind() {
    assert_eq!(found(&kinds(), "Stepped.Amps"), "REAL");
    assert_eq!(found(&kinds(), "Text.Speed"), "DINT");
    assert!(!whole(&kinds(), "Stepped") && !whole(&kinds(), "Text"));
}

#[test]
fn every_dot_splits() {
    assert_eq!(found(&flat(), "X."), "INT");
    assert_eq!(found(&flat(), "X.5"), "SINT");
    assert_eq!(names::tokens(b"X."), Ok(vec![0]));
}

#[test]
fn a_program_part_is_any_bytes_through_the_first_dot() {
    assert_eq!(found(&flat(), "Program:a b[c{.X.Speed"), "DINT");
    assert_eq!(found(&flat(), "Program:.X"), "INT");
    assert_eq!(found(&flat(), "PROGRAM:WHOLE"), "INT");
    assert_eq!(names::tokens(b"Program:a b[c{.X.Speed").expect("a name")[0], 2);
    assert_eq!(names::tokens(b"Program:whole"), Ok(vec![0]));
    assert_eq!(sizes(&flat(), "Program:.X").0, 8 + 4 + 2 + 8);
}

#[test]
fn types_match_exactly_and_an_unclosed_bracket_hides_the_rest() {
    assert_eq!(sizes(&kinds(), "Low").1, 12);
    assert_eq!(found(&bench(), "Trend[3.x"), "DINT");
    assert_eq!(found(&bench(), "Trend{3.x"), "DINT");
}

#[test]
fn an_add_on_instruction_spoils_what_holds_it() {
    for (name, reads_whole) in
        [("S", false), ("O", true), ("In1", false), ("In2[1]", false), ("Ok", true), ("Ok.g", false)]
    {
        assert_eq!(whole(&spoilt(), name), reads_whole, "{name}");
    }
}

#[test]
fn ranges_of_bits_count_words() {
    assert_eq!(sizes(&kinds(), "Bools{33}").1, 16);
    assert_eq!(sizes(&kinds(), "Bool{33}").1, 16);
    assert_eq!(sizes(&kinds(), "BoolStruct{40}").1, 16);
    assert_eq!(sizes(&kinds(), "Words{64}").1, 16);
    assert_eq!(sizes(&kinds(), "Word{64}").1, 64 * 4 + 8);
    assert_eq!(sizes(&kinds(), "Bools{0}").1, 8);
}

#[test]
fn a_range_is_sized_though_it_has_no_tokens() {
    assert_eq!(names::tokens(b"X{3}"), Ok(vec![0]));
    assert_eq!(sizes(&flat(), "X{3}"), (12, 3 * 7 + 10));
    assert_eq!(sizes(&flat(), "X{3}{2}"), (14, 2 * 8 + 8));
    assert_eq!(names::range(b"{2}"), Ok(vec![0]));
    assert_eq!(names::range(b"X{x}"), Ok(vec![0]));
    assert_eq!(sizes(&kinds(), "Nothing{9}").1, 9 * 4 + 8);
    assert_eq!(sizes(&kinds(), "Nothing").1, 12);
}

#[test]
fn only_structs_and_strings_have_a_size_of_their_own() {
    assert_eq!(sizes(&kinds(), "Sized").1, 12);
    assert_eq!(sizes(&kinds(), "Bare").1, 14);
    assert_eq!(sizes(&kinds(), "Name").1, 98);
}

#[test]
fn a_merged_struct_counts_its_type_in_the_plan_and_its_node_in_the_groups() {
    let tags = list(&["Huge[1].Speed", "Huge[1].Amps"]);
    assert_eq!(reads(&nested(), &tags)[0].name, "Huge[1]");
    let file = plan::answer(&nested().write(), &tags.write()).expect("accepted");
    let groups = groups::plan_chunks(&nested().write(), &file, 4000).expect("accepted");
    assert_eq!(common::groups_of(&groups), (4, vec![vec![0]]));
}

#[test]
fn requests_by_instance_id() {
    for (name, request) in [("Id1", 12), ("Id2", 14), ("Id3[300]", 14), ("Id4[1,256,3]", 20), ("Low[1]", 14)] {
        assert_eq!(sizes(&kinds(), name).0, request, "{name}");
    }
    assert_eq!(sizes(&kinds(), "X.5").0, 14);
}
