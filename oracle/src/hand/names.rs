//! Names for the lexical calls.

use crate::kinds::Fields;

const NAMES: &[&str] = &[
    "",
    "X",
    "_",
    "9",
    "X.5",
    "X[]",
    "X.",
    ".X",
    "X..Y",
    "X.Y",
    "X.Y.Z",
    "X.[1]",
    "[1]",
    "X[1]",
    "X[1]Y",
    "X[1].Y",
    "X[1][2]",
    "X[1,2]",
    "X[1,2,3].Y[04]",
    "X[1,]",
    "X[,1]",
    "X[1 ]",
    "X[+1]",
    "X[-1]",
    "X[1",
    "X]1[",
    "X[1]]",
    "X[[1]]",
    "X Y",
    "X{3}",
    "X{3}{2}",
    "{2}",
    "X{x}",
    "X{}",
    "X{3",
    "X3}",
    "X{3}.Y",
    "X{0}",
    "X{007}",
    "X{18446744073709551615}",
    "X{18446744073709551616}",
    "X{+3}",
    "X[3]{5}",
    "{{2}",
    "}{2}",
    "X[18446744073709551615]",
    "X[18446744073709551616]",
    "X[00000000000000000000000000000000018446744073709551615]",
    "X[0,18446744073709551616]",
    "Trend[3]",
    "Trend[03]",
    "Trend[70000]",
    "Program:Main.A[2].b",
    "program:main.A",
    "PROGRAM:.X",
    "Program:.",
    "Program:",
    "Program:Main",
    "Program:Main.",
    "Program:a b[c{.X.Speed",
    "Program:a]b.X[1]",
    "Program:Main.[1]",
    "Program:Main.5",
    "Program:1.2.X",
    "Program;Main.A",
    "Program:X{3}",
    "Program:Main.X{3}",
    "Program",
    "Program.X",
    "A[1]{2}[3]",
    "A[b{c]d}e",
    "A{b[c}d]e",
    "A]b}c",
    "A[.B].C{.D}",
    "A[1].B{",
    "A.b-c",
    "a:b",
    "~",
];

pub fn all() -> Vec<Fields> {
    let word = "a".repeat(136);
    let program = format!("Program:{}.X", "p".repeat(126));
    let dots = vec!["a"; 68].join(".");
    let commas = format!("A[{}]", vec!["1"; 66].join(","));
    let digits = format!("A[{}1]", "0".repeat(132));
    let count = format!("A{{{}1}}", "0".repeat(132));
    let brackets = "A".to_owned() + &"[1]".repeat(45);
    let long = [word, program, dots, commas, digits, count, brackets];
    let names = NAMES.iter().map(|n| n.to_string()).chain(long);
    names.map(|name| vec![name.into_bytes()]).collect()
}
