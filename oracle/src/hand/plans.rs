//! Lists to be planned: the bench lists, and one list or more for each point where the Rust's plan may surprise.

use super::catalogs::{bench, bench_with_motor, flat, kinds, nested, spoilt};
use super::shapes::{atomic, structure, texts};
use crate::catalog::Catalog;
use crate::kinds::Fields;
use crate::list::List;

pub fn all() -> Vec<Fields> {
    let mut cases = bench_lists();
    cases.extend(spellings());
    cases.extend(lookups());
    cases.extend(climbing());
    cases.extend(barred());
    cases.extend(together());
    cases.extend(runs());
    cases.extend(limits());
    cases.extend(long());
    cases.extend(ties());
    cases
}

/// A list of these tags with the bench's budget and whole maximum.
pub fn list(tags: &[&str]) -> List {
    List { whole_max: 500, budget: 4000, tags: texts(tags), ..List::default() }
}

fn case(catalog: &Catalog, list: List) -> Fields {
    vec![catalog.write(), list.write()]
}

fn cases(catalog: &Catalog, lists: &[&[&str]]) -> Vec<Fields> {
    lists.iter().map(|tags| case(catalog, list(tags))).collect()
}

pub const FIVE: &[&str] = &["Motor.Speed", "Motor.Amps", "Trend[3]", "Trend[5]", "Odd.5"];

fn bench_lists() -> Vec<Fields> {
    let lists: &[&[&str]] = &[
        &[],
        &["X.5", "X[]", "X."],
        &["Program:Main.A[2].b"],
        &["Trend[70000]"],
        &["Trend[0]", "Trend[113]"],
        &["Trend[0]", "Trend[114]"],
        &["Trend[3]", "Trend[03]"],
        &["Motor.Speed", "motor.SPEED"],
        FIVE,
    ];
    let mut all = cases(&bench(), lists);
    for size in [12, 463, 464, 465, 500, 501] {
        all.extend(cases(&bench_with_motor(size), &[&["Motor.Speed", "Motor.Amps"]]));
    }
    all
}

fn spellings() -> Vec<Fields> {
    let lists: &[&[&str]] = &[
        &["Motor.Speed", "Motor.Amps", "Motor.Speed"],
        &["motor.speed", "Motor.Speed", "Motor.Amps"],
        &["Motor.Speed", "Motor.Speed"],
        &["MOTOR.speed", "Motor.Amps"],
        &["motor.Amps", "MOTOR.Speed", "Motor.AMPS"],
        &["trend[1]", "TREND[2]", "Trend[3]"],
        &["Trend[1]", "Trend[2]", "tREND[9000]"],
        &["Trend[1]", "trend[1]", "Trend[2]"],
        &["Trend[1]", "Trend[1]", "Trend[2]"],
        &["Trend[01]", "Trend[1]", "Trend[001]"],
        &["Trend[2]", "Trend[1]", "TREND[2]", "Trend[0]"],
        &["Program:Main.A[2].b", "program:main.a[2].B"],
        &["Program:Main.A[2]", "program:main.a[2].b", "Program:Main.A[02].b"],
        &["", "", "Motor.Speed", " ", "Motor.Amps"],
    ];
    cases(&bench(), lists)
}

fn lookups() -> Vec<Fields> {
    let mut all = cases(
        &flat(),
        &[
            &["A[3]", "A[4]"],
            &["A[3]", "a[3]", "A[03]"],
            &["Motor.Zed", "Motor.Speed"],
            &["Motor.Zed", "Motor.Speed", "Motor.Amps"],
            &["X{3}", "X.", "X.5", "X.Speed", "X"],
            &["X{3}{2}", "X.Speed"],
            &["Program:a b[c{.X.Speed", "Program:a b[c{.X"],
            &["Program:.X[0]", "Program:.X[3]", "program:.x[2]"],
            &["Program:whole", "Program:whole.x"],
        ],
    );
    all.extend(cases(
        &spoilt(),
        &[
            &["S.a", "S", "O.a", "O"],
            &["In1.s.a", "In1.x", "In1.s"],
            &["In2[1].one[0].x", "In2[1].one[1].x", "In2[1]"],
            &["Ok.s.a", "Ok.o.a", "Ok.g"],
            &["Ok.o.a", "Ok.o", "Ok.g", "Ok"],
        ],
    ));
    all
}

/// Merges that tie, with room for one of them: by reads saved, then by key.
fn ties() -> Vec<Fields> {
    let catalog = Catalog {
        tags: vec![atomic("A", "DINT", &[1000]), atomic("Z", "DINT", &[1000]), atomic("b", "REAL", &[1000])],
        types: vec![],
    };
    let lists: &[&[&str]] = &[
        &["A[0]", "A[100]", "Z[0]", "Z[100]", "Z[200]"],
        &["Z[0]", "Z[100]", "A[0]", "A[100]", "A[200]"],
        &["Z[0]", "Z[100]", "A[0]", "A[100]"],
        &["Z[0]", "Z[100]", "b[0]", "b[100]", "A[0]", "A[100]"],
        &["B[7]", "B[107]", "z[0]", "z[100]", "z[200]", "a[0]", "a[100]", "a[200]"],
        &["A[0]", "A[100]", "A[200]", "A[300]", "Z[0]", "Z[100]", "Z[200]"],
        &["A[0]", "A[101]", "Z[0]", "Z[100]", "Z[200]"],
        &["A[0]", "A[1]", "Z[0]", "Z[1]", "Z[2]", "b[5]", "b[6]"],
    ];
    let budgets = [500, 501, 900, 1000, 1300, 1700, 2500];
    let all = lists.iter().flat_map(|tags| budgets.map(|budget| List { budget, ..list(tags) }));
    all.map(|list| case(&catalog, list)).collect()
}

/// Names as long as they may be: many brackets in a row, and runs and structs behind a long name.
fn long() -> Vec<Fields> {
    let row = |last: &str| format!("Outer.Data{}{last}", "[1]".repeat(37));
    let mut catalog = nested();
    let name = "L".repeat(119);
    catalog.tags.push(atomic(&name, "SINT", &[1_000_000]));
    catalog.tags.push(structure(&"S".repeat(120), "Motor", 12, &[4]));
    let mut lists = vec![vec![row("[1]"), row("[2]"), "Outer.In.Speed".to_owned()], vec![row("[1]"), row("[3]")]];
    lists.push((0..100).map(|i| format!("{name}[{}]", 887_700 + 451 * i)).collect());
    lists.push(vec![format!("{}[1].Speed", "S".repeat(119)), format!("{}[1]", "S".repeat(120))]);
    lists.push(vec![format!("{}[0]", "S".repeat(120)), format!("{}[00]", "S".repeat(120))]);
    lists.into_iter().map(|tags| case(&catalog, List { tags, ..list(&[]) })).collect()
}

fn climbing() -> Vec<Fields> {
    cases(
        &nested(),
        &[
            &["Outer.In.Speed", "Outer.In.Amps"],
            &["Outer.In.Speed", "Outer.Data[3]"],
            &["Outer.Arr[3].Speed", "Outer.Arr[03].Amps"],
            &["Outers[3].In.Speed", "Outers[03].In.Amps"],
            &["Outer.Arr[1].Speed", "Outer.Arr[1].Amps", "Outer.Arr[2].Speed"],
            &["Grid[1].Speed", "Grid[1].Amps"],
            &["Grid[1,2].Speed", "Grid[1,2].Amps"],
            &["Grid[1,2].Speed", "Grid[1,3].Amps", "Grid[1,2]"],
            &["Grid.Speed", "Grid.Amps"],
            &["Grid[1][2].Speed", "Grid[1][2].Amps"],
            &["D[1][2]", "D[1][3]"],
            &["D[9]", "D[8]", "D[7]"],
            &["E[1]", "E[2]", "E[1,1]", "E[1,2]"],
            &["Outer.Words[1]", "Outer.Words[2]", "Outer.In.Speed"],
            &["Outer.Bytes[1]", "Outer.Bytes[2]", "Outer.In.Speed"],
            &["Outer.Bits[1].f", "Outer.Bits[1].g", "Outer.Bits[1].g[3]", "Outer.Bits[1].g[4]"],
            &["Outer.Data[3]", "Outer.Data[4]", "Outer.Data[30]"],
            &["Outer.Data[3]", "Outer.Data[4]", "Outer.In.Speed", "Outer.In", "Outer"],
            &["Huge[1].Speed", "Huge[1].Amps", "Huge[2]"],
            &["Outers[1].In.Speed", "Outers[1].Data[1]", "Outers[2].In.Amps", "Outers[2].In.Speed", "Outers"],
        ],
    )
}

fn barred() -> Vec<Fields> {
    let inner: &[&str] = &["Outer.In.Speed", "Outer.In.Amps", "Outer.Data[1]", "Outer.Data[2]"];
    let names: &[&[&str]] = &[
        &["outer.in"],
        &["outer"],
        &["Outer"],
        &["outer", "outer.in"],
        &["outer", "outer.in", "outer.data"],
        &["outer", "outer.data[1]{2}"],
        &["outer", "outer.data[01]{2}", "outer.data[1]{3}"],
        &["outer", "Outer.Data[1]{2}"],
        &["outer.data[1]"],
    ];
    let mut all = Vec::new();
    for no_group in names {
        for together in [&[][..], &["Outer"], &["OUTER.in"]] {
            let mut list = list(inner);
            list.no_group = texts(no_group);
            list.together = texts(together);
            all.push(case(&nested(), list));
        }
    }
    all
}

fn together() -> Vec<Fields> {
    let tags: &[&str] = &["Outer.In.Speed", "Outer.In.Amps", "Outer.Arr[1].Speed", "Outer.Arr[1].Amps", "D[1]"];
    let mut all = Vec::new();
    for names in [&["outer"][..], &["OUTER.IN"], &["Outer.In", "Outer"], &["outer.arr[1]"], &["outer.arr[01]"], &["D"]]
    {
        for (whole_max, budget) in [(0, 4000), (500, 302), (500, 301), (0, 74), (0, 73), (0, 0)] {
            let mut list = list(tags);
            list.together = texts(names);
            (list.whole_max, list.budget) = (whole_max, budget);
            all.push(case(&nested(), list));
        }
    }
    let apart: &[&str] = &["Outer.In.Speed", "Outer.Data[1]", "D[1]", "Outer.In.Amps", "Outer.Arr[1].Speed"];
    for budget in [301, 302, 4000] {
        let both = List { together: texts(&["outer.in", "outer", "outer.arr[1]"]), budget, ..list(apart) };
        all.push(case(&nested(), both));
    }
    for budget in [462, 474, 480, 485, 486, 500] {
        let tags = list(&["Motor.Speed", "Motor.Amps", "Trend[0]", "Trend[100]"]);
        all.push(case(&bench_with_motor(400), List { together: texts(&["motor"]), budget, ..tags }));
    }
    let mut dear = list(&["Motor.Speed", "Motor.Amps"]);
    dear.together = texts(&["motor"]);
    all.push(case(&bench_with_motor(3938), dear.clone()));
    all.push(case(&bench_with_motor(3939), dear));
    all
}

fn runs() -> Vec<Fields> {
    let mut all = cases(
        &kinds(),
        &[
            &["Bools[1]", "Bools[2]", "Words[1]", "Words[2]", "Bytes[1]", "Bytes[2]"],
            &["Low[1]", "Low[2]", "Two[1]", "Two[2]", "Two[1,1]", "Two[1,2]"],
            &["Id3[0]", "Id3[451]", "Id3[903]"],
            &["Id2[0]", "Id2[1]", "Id4[1]", "Id4[2]", "Bare[1].Speed", "Bare[1].Amps"],
            &["Big[0].Speed", "Big[0].Amps", "Stepped.Speed", "Stepped.Amps", "Text.Speed", "Text.Amps"],
        ],
    );
    let mut many: Vec<String> = (0..12).map(|c| format!("Trend[{}]", 1000 * c)).collect();
    many.extend((2..12).map(|c| format!("Trend[{}]", 1000 * c + 100)));
    for budget in [700, 1000, 1400, 4000] {
        let mut list = list(&[]);
        list.tags = many.clone();
        list.budget = budget;
        all.push(case(&bench(), list));
    }
    all
}

/// Maxima and budgets at which a plan changes.
fn limits() -> Vec<Fields> {
    let mut all = Vec::new();
    for whole_max in [0, 11, 12, 13, u32::MAX] {
        for tags in [&["Motor.Speed", "Motor.Amps"][..], &["Motor", "Motor.Speed"]] {
            let list = List { whole_max, ..list(tags) };
            all.push(case(&bench(), list));
        }
    }
    for budget in [0, 1, 51, 52, 53, 63, 64, 73, 74, 75, 76, 84, 100, 65_535] {
        all.push(case(&bench(), List { budget, ..list(FIVE) }));
        let spread = list(&["Motor.Speed", "Motor.Amps", "Trend[0]", "Trend[100]"]);
        all.push(case(&bench_with_motor(400), List { budget, ..spread }));
    }
    for budget in [461, 462, 463, 500, 528, 529] {
        let spread = list(&["Motor.Speed", "Motor.Amps", "Trend[0]", "Trend[100]"]);
        all.push(case(&bench_with_motor(400), List { budget, ..spread }));
    }
    all
}
