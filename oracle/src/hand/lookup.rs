//! Names looked up and sized in small catalogs.

use super::catalogs::{bench, flat, kinds, spoilt};
use crate::catalog::Catalog;
use crate::kinds::Fields;

pub fn all() -> Vec<Fields> {
    let mut cases = Vec::new();
    add(&mut cases, &bench(), BENCH);
    add(&mut cases, &flat(), FLAT);
    add(&mut cases, &kinds(), KINDS);
    add(&mut cases, &spoilt(), SPOILT);
    add(&mut cases, &Catalog::default(), &["", "A", "A{3}", "Program:X"]);
    cases
}

fn add(cases: &mut Vec<Fields>, catalog: &Catalog, names: &[&str]) {
    let file = catalog.write();
    cases.extend(names.iter().map(|name| vec![file.clone(), name.as_bytes().to_vec()]));
}

const BENCH: &[&str] = &[
    "Program:Main.A[2].b",
    "program:MAIN.a[2].B",
    "Trend[70000]",
    "Trend[255]",
    "Trend[256]",
    "Trend[3]{3}",
    "Trend[3]{0}",
    "Trend{1000001}",
    "Motor",
    "MOTOR",
    "Motor.Speed",
    "motor.SPEED",
    "Motor.Speed.5",
    "Motor.",
    "Odd.5",
    "Trend[3",
    "Trend[3.x",
    "Trend{3",
    "Motor[1{2].Speed",
    "Motor{3}",
    "Motor{3}{2}",
];

const FLAT: &[&str] = &[
    "A[3]",
    "a[3]",
    "A[03]",
    "A[4]",
    "A[3]{2}",
    "Motor.Zed",
    "motor.zed",
    "Motor.Zed.x",
    "Motor.Speed",
    "X.",
    "X.5",
    "X.speed",
    "X{3}",
    "X{3}{2}",
    "Program:a b[c{.X.Speed",
    "PROGRAM:A B[C{.x[1].SPEED",
    "Program:.X",
    "Program:.X[1]{3}",
    "Program:whole",
    "Program:Whole{2}",
    "Program:whole.x",
];

const KINDS: &[&str] = &[
    "Low",
    "Low[1]{2}",
    "Bools",
    "Bools{32}",
    "Bools{33}",
    "Bools{0}",
    "Bool{33}",
    "Words{64}",
    "Words",
    "Word{64}",
    "Bytes{8}",
    "Two[1,2]",
    "Two[1]",
    "BoolStruct{40}",
    "BoolStruct",
    "Bare",
    "Bare[1]{3}",
    "Bare.Speed",
    "Sized",
    "Sized{2}",
    "Stepped",
    "Stepped.Amps",
    "Text",
    "Text.Speed",
    "Text{2}",
    "Big[1]",
    "Big[0]{2}",
    "Ghost",
    "Ghost.x",
    "Ghost{4}",
    "Name",
    "Name{3}",
    "Name.LEN",
    "Id1",
    "Id2",
    "Id3[300]",
    "Id4[1,256,3]",
    "Nothing",
    "Nothing{9}",
];

const SPOILT: &[&str] = &[
    "S",
    "O",
    "In1",
    "In1.s",
    "In1.x",
    "In2[1]",
    "In2[1].one[0]",
    "In2[1].one[0].s.a",
    "Ok",
    "Ok.s.a",
    "Ok.o",
    "Ok.g",
];
