//! The catalogs of the cases made by hand.

use super::shapes::{atomic, motor_type, string, structure, type_of, with_id};
use crate::catalog::{ATOMIC, Catalog, Node, STRING, STRUCT};

/// The catalog of the bench lists: Motor with id 5, Trend with id 300, and a tag of a program with id 7.
pub fn bench() -> Catalog {
    Catalog {
        tags: vec![
            with_id(5, structure("Motor", "Motor", 12, &[])),
            with_id(300, atomic("Trend", "DINT", &[200_000])),
            with_id(7, structure("Program:Main.A", "Part", 8, &[10])),
        ],
        types: vec![motor_type(12), type_of("Part", 8, vec![atomic("b", "DINT", &[])])],
    }
}

/// The bench catalog with a Motor of another size.
pub fn bench_with_motor(size: u16) -> Catalog {
    let mut catalog = bench();
    catalog.types[0].size = size;
    catalog.tags[0].size = Some(size);
    catalog
}

/// Tags spelled like elements, members, bits and ranges, and members with such names.
pub fn flat() -> Catalog {
    let members = vec![atomic("", "INT", &[]), atomic("5", "SINT", &[]), atomic("Speed", "DINT", &[])];
    Catalog {
        tags: vec![
            atomic("A", "DINT", &[10]),
            atomic("A[3]", "SINT", &[]),
            structure("Motor", "Motor", 12, &[]),
            atomic("Motor.Zed", "LINT", &[]),
            structure("X", "Odd", 7, &[]),
            atomic("X{3}", "LREAL", &[]),
            structure("Program:a b[c{.X", "Odd", 9, &[]),
            atomic("Program:.X", "INT", &[4]),
            atomic("program:whole", "INT", &[]),
        ],
        types: vec![motor_type(12), type_of("Odd", 16, members)],
    }
}

/// Every kind with and without a size, and types that do not go with their kind.
pub fn kinds() -> Catalog {
    let kind = |kind, node: Node| Node { kind, ..node };
    Catalog {
        tags: vec![
            atomic("Low", "dint", &[3]),
            atomic("Bools", "BOOL", &[4]),
            atomic("Bool", "BOOL", &[]),
            atomic("Words", "DWORD", &[4]),
            atomic("Word", "DWORD", &[]),
            atomic("Bytes", "BYTE", &[4]),
            atomic("Two", "DINT", &[4, 5]),
            kind(STRUCT, atomic("BoolStruct", "BOOL", &[])),
            kind(STRUCT, atomic("Bare", "Motor", &[3])),
            kind(ATOMIC, structure("Sized", "DINT", 99, &[])),
            kind(ATOMIC, atomic("Stepped", "Motor", &[])),
            kind(STRING, atomic("Text", "Motor", &[])),
            structure("Big", "Motor", 4000, &[2]),
            structure("Ghost", "Ghost", 20, &[]),
            string("Name"),
            with_id(65_535, atomic("Id1", "LWORD", &[])),
            with_id(65_536, atomic("Id2", "LWORD", &[7])),
            with_id(255, atomic("Id3", "USINT", &[7])),
            with_id(256, atomic("Id4", "USINT", &[7, 7, 7])),
        ],
        types: vec![motor_type(12)],
    }
}

/// Types that do not read whole because of an AOI one, two or three levels down.
pub fn spoilt() -> Catalog {
    let mut secret = type_of("Secret", 8, vec![atomic("a", "DINT", &[])]);
    secret.aoi = 2;
    let mut open = type_of("Open", 8, vec![atomic("a", "DINT", &[])]);
    open.aoi = 1;
    let text = Node { kind: STRING, ..structure("s", "Secret", 8, &[]) };
    Catalog {
        tags: vec![
            structure("S", "Secret", 8, &[]),
            structure("O", "Open", 8, &[]),
            structure("In1", "One", 16, &[]),
            structure("In2", "Two", 20, &[4]),
            structure("Ok", "Fine", 24, &[]),
        ],
        types: vec![
            type_of("Two", 20, vec![structure("one", "One", 16, &[2])]),
            type_of("One", 16, vec![structure("s", "Secret", 8, &[]), atomic("x", "DINT", &[])]),
            secret,
            open,
            type_of("Fine", 24, vec![text, structure("o", "Open", 8, &[]), structure("g", "Ghost", 4, &[])]),
        ],
    }
}

/// Structs in structs, in arrays, in arrays of several dimensions, and arrays of bits on the way.
pub fn nested() -> Catalog {
    let members = vec![
        structure("In", "Motor", 12, &[]),
        structure("Arr", "Motor", 12, &[8]),
        atomic("Words", "DWORD", &[2]),
        atomic("Bytes", "BYTE", &[4]),
        atomic("Data", "INT", &[40]),
        structure("Bits", "Flags", 4, &[3]),
    ];
    Catalog {
        tags: vec![
            structure("Outer", "Outer", 240, &[]),
            structure("Outers", "Outer", 240, &[10]),
            structure("Grid", "Motor", 12, &[4, 4]),
            atomic("D", "DINT", &[4]),
            atomic("E", "DINT", &[4, 4]),
            structure("Huge", "Motor", 4000, &[4]),
        ],
        types: vec![
            motor_type(12),
            type_of("Flags", 4, vec![atomic("f", "BOOL", &[]), atomic("g", "BOOL", &[32])]),
            type_of("Outer", 240, members),
        ],
    }
}
