//! Candidates, runs, barred and together names where one could expect something else of the Rust.

mod common;

use common::{plan_lines, reads};
use oracle::catalog::Catalog;
use oracle::hand::catalogs::{bench, bench_with_motor, nested};
use oracle::hand::plans::list;
use oracle::hand::shapes::{atomic, texts, with_id};
use oracle::list::List;
use oracle::planner::reach::{pack, read_size, request_size};

/// The names of the reads.
fn names(catalog: &Catalog, list: &List) -> Vec<String> {
    reads(catalog, list).into_iter().map(|r| r.name).collect()
}

fn plain(tags: &[&str]) -> Vec<String> {
    names(&nested(), &list(tags))
}

#[test]
fn the_second_spelling_is_dropped_and_not_the_second_occurrence() {
    let three = reads(&bench(), &list(&["Motor.Speed", "Motor.Amps", "Motor.Speed"]));
    assert_eq!((three.len(), three[0].members.len()), (1, 3));
    let two = names(&bench(), &list(&["motor.speed", "Motor.Speed", "Motor.Amps"]));
    assert_eq!(two, ["motor", "Motor.Speed"]);
}

#[test]
fn a_run_has_the_last_spelling_and_a_struct_the_first() {
    assert_eq!(names(&bench(), &list(&["Trend[1]", "Trend[2]", "tREND[9000]"])), ["tREND[1]{2}", "tREND[9000]"]);
    let lines = plan_lines(&bench(), &list(&["MOTOR.speed", "Motor.Amps"]));
    assert_eq!(lines, ["MOTOR <- MOTOR.speed at .speed, Motor.Amps at .Amps"]);
    let lines = plan_lines(&bench(), &list(&["Trend[01]", "Trend[2]"]));
    assert_eq!(lines, ["Trend[1]{2} <- Trend[01] at [0], Trend[2] at [1]"]);
}

#[test]
fn elements_written_otherwise_meet_only_further_out() {
    assert_eq!(plain(&["Outer.Arr[3].Speed", "Outer.Arr[3].Amps"]), ["Outer.Arr[3]"]);
    assert_eq!(plain(&["Outer.Arr[3].Speed", "Outer.Arr[03].Amps"]), ["Outer"]);
}

#[test]
fn dimensions_are_not_looked_at() {
    assert_eq!(plain(&["D[9]", "D[8]"]), ["D[8]{2}"]);
    assert_eq!(plain(&["Grid[1].Speed", "Grid[1].Amps"]), ["Grid[1]"]);
    assert_eq!(plain(&["D[1][2]", "D[1][3]"]), ["D[1][2]{2}"]);
    assert_eq!(plain(&["E[1]", "E[2]"]), ["E[1]", "E[2]"]);
    assert_eq!(plain(&["Grid.Speed", "Grid.Amps"]), ["Grid.Speed", "Grid.Amps"]);
}

#[test]
fn words_of_bits_stop_the_climb_and_bytes_do_not() {
    let words = ["Outer.Words[1]", "Outer.Words[2]", "Outer.In.Speed"];
    assert_eq!(plain(&words), words);
    assert_eq!(plain(&["Outer.Bytes[1]", "Outer.Bytes[2]"]), ["Outer"]);
    let several = ["Grid[1,2].Speed", "Grid[1,2].Amps"];
    assert_eq!(plain(&several), ["Grid[1,2]"]);
}

#[test]
fn a_listed_struct_is_free_of_the_maximum() {
    let of = |tags: &[&str]| names(&bench(), &List { whole_max: 0, ..list(tags) });
    assert_eq!(of(&["Motor", "Motor.Speed"]), ["Motor"]);
    assert_eq!(of(&["Motor.Speed", "Motor.Amps"]), ["Motor.Speed", "Motor.Amps"]);
}

fn barring(no_group: &[&str], together: &[&str], tags: &[&str]) -> Vec<String> {
    let list = List { no_group: texts(no_group), together: texts(together), ..list(tags) };
    names(&nested(), &list)
}

#[test]
fn what_a_barred_name_bars() {
    let motor = ["Outer.In.Speed", "Outer.In.Amps"];
    let data = ["Outer.Data[1]", "Outer.Data[2]"];
    assert_eq!(barring(&["outer.in"], &[], &motor), ["Outer"]);
    assert_eq!(barring(&["Outer.In"], &[], &motor), ["Outer.In"]);
    assert_eq!(barring(&["outer", "outer.in"], &["Outer", "Outer.In"], &motor), motor);
    assert_eq!(barring(&["outer", "outer.data"], &[], &data), data);
    assert_eq!(barring(&["outer", "outer.data[1]{2}"], &[], &data), data);
    assert_eq!(barring(&["outer", "outer.data[1]{3}"], &[], &data), ["Outer.Data[1]{2}"]);
}

#[test]
fn together_ignores_maximum_and_cost_but_not_the_packet() {
    let tags = ["Motor.Speed", "Motor.Amps"];
    let list = List { whole_max: 0, together: texts(&["MOTOR"]), ..list(&tags) };
    assert_eq!(names(&bench_with_motor(3938), &list), ["Motor"]);
    assert_eq!(names(&bench_with_motor(3939), &list), tags);
    let outermost = barring(&[], &["outer.in", "outer"], &["Outer.In.Speed", "Outer.In.Amps", "Outer.Data[1]"]);
    assert_eq!(outermost, ["Outer"]);
    assert_eq!(barring(&[], &["Outer"], &["Outer.In.Speed", "Outer.In.Speed"]).len(), 2);
}

/// Twelve places of one array, two elements at each but the first two, and room for one merge.
#[test]
fn keys_sort_as_bytes_and_single_places_are_numbered() {
    let mut tags: Vec<String> = (0..12).map(|c| format!("Trend[{}]", 1000 * c)).collect();
    tags.extend((2..12).map(|c| format!("Trend[{}]", 1000 * c + 100)));
    let list = List { tags, budget: 52 + 22 * 12 + 388, ..list(&[]) };
    let merged: Vec<String> = names(&bench(), &list).into_iter().filter(|n| n.contains('{')).collect();
    assert_eq!(merged, ["Trend[10000]{101}"]);
}

/// A run is asked for by its first element `A[0]`, by instance id, and not by its own name `A[0]{2}`, which has no
/// tokens and would be spelled out. Both elements fill one packet to the byte, so they merge only if the run takes one
/// too: spelled out it would go alone, in three packets. It is no stored case: among them it would shift the lists
/// that are taken from every seventh.
#[test]
fn a_run_is_sized_by_its_first_element() {
    let array = "L".repeat(60);
    let catalog = Catalog { tags: vec![with_id(300, atomic(&array, "SINT", &[1000]))], types: vec![] };
    let (first, second, run) = (format!("{array}[0]"), format!("{array}[1]"), format!("{array}[0]{{2}}"));
    let list = List { tags: vec![first.clone(), second.clone()], budget: 70, ..list(&[]) };
    assert_eq!(plan_lines(&catalog, &list), [format!("{run} <- {first} at [0], {second} at [1]")]);
    let rust = catalog.to_rust();
    assert_eq!([&first, &second].map(|tag| read_size(tag, &rust)), [(14, 9); 2]);
    assert_eq!((read_size(&run, &rust), request_size(&run, &rust)), ((14, 10), 76));
    let packets = |sizes: &[(usize, usize)]| pack(sizes, 70).1;
    assert_eq!([packets(&[(14, 9); 2]), packets(&[(14, 10)]), packets(&[(76, 10)])], [1, 1, 3]);
}
