//! The exported functions of the port's static library. Each returns one number: the top byte is the refusal's
//! number, 0 for done, the low 56 bits are what is returned.

use crate::guard::Lent;
use crate::kinds::Fields;
use crate::names::LONGEST;
use crate::packed::{self, ChunksCall, PacketsCall};
use crate::planned::{self, PlannedCall};
use crate::random::Random;
use crate::refusals::SentBack;
use crate::{cuts, listed};

/// A call with one input and an output, each a pointer and a length.
pub type NameCall = unsafe extern "C" fn(*const u8, usize, *mut u8, usize) -> u64;

/// A call with two inputs, which answers in the number that it returns.
pub type LookupCall = unsafe extern "C" fn(*const u8, usize, *const u8, usize) -> u64;

/// A call with two files, which writes its answer.
pub type FilesCall = unsafe extern "C" fn(*const u8, usize, *const u8, usize, *mut u8, usize) -> u64;

/// A call with a catalog alone.
pub type CatalogCall = unsafe extern "C" fn(*const u8, usize) -> u64;

/// The functions that are compared or timed.
#[derive(Clone, Copy)]
pub struct Library {
    pub tokens: NameCall,
    pub strip: NameCall,
    pub range: NameCall,
    pub catalog: CatalogCall,
    pub request_size: LookupCall,
    pub reply_size: LookupCall,
    pub struct_size: LookupCall,
    pub plan: FilesCall,
    pub chunks: ChunksCall,
    pub packets: PacketsCall,
    pub plan_chunks: PlannedCall,
    pub dig: LookupCall,
    pub sort: FilesCall,
}

/// What a call returned, or what it changed that it may not change.
pub type Returned = Result<u64, String>;

/// A refusal, and the cause as the table of cases names it.
#[derive(Clone, Copy, Debug, PartialEq, Eq)]
pub struct Refusal {
    pub sent_back: SentBack,
    pub cause: &'static str,
}

impl Refusal {
    /// What the library has to return for it.
    pub fn returned(&self) -> u64 {
        returned(self.sent_back)
    }

    /// That of two inputs, of which the first is looked at first. The causes are the first alone, the second alone and
    /// both.
    pub fn of_two(first: Option<SentBack>, second: Option<SentBack>, causes: [&'static str; 3]) -> Option<Self> {
        match (first, second) {
            (Some(sent_back), None) => Some(Refusal { sent_back, cause: causes[0] }),
            (None, Some(sent_back)) => Some(Refusal { sent_back, cause: causes[1] }),
            (Some(sent_back), Some(_)) => Some(Refusal { sent_back, cause: causes[2] }),
            (None, None) => None,
        }
    }
}

/// A refusal's number in the top byte, and what it returns.
pub fn returned((number, returned): SentBack) -> u64 {
    u64::from(number) << 56 | returned
}

/// How the library is called for one kind of case.
pub struct Call {
    pub name: &'static str,
    /// The kind whose cases it takes.
    pub kind: &'static str,
    /// What of the Rust's answer it gives.
    pub part: fn(Vec<u8>) -> Vec<u8>,
    /// Calls it; an error says which input was changed.
    pub call: fn(&Library, &[Vec<u8>], &mut Lent<u8>) -> Returned,
    /// Whether the answer is written to the lent output, rather than returned.
    pub writes: bool,
    /// The refusal that comes before the output is looked at.
    pub refusal: fn(&[Vec<u8>]) -> Option<Refusal>,
    /// A change that brings an input to a limit, mostly over it, or damages it.
    pub spoil: fn(&mut Random, &mut [Vec<u8>]),
    /// How many cases in a hundred are spoilt.
    pub spoilt: usize,
    /// How its cases are made, where that is not how the kind's stored ones are.
    pub generate: Option<fn(&mut Random) -> Fields>,
}

/// A further call of the library is added here, with its function in `Library`.
pub const CALLS: &[Call] = &[
    Call {
        name: "tokens",
        kind: "tokens",
        part: |answer| answer,
        call: |library, fields, out| named(library.tokens, fields, out),
        writes: true,
        refusal: too_long,
        spoil: lengthen,
        spoilt: 4,
        generate: None,
    },
    Call {
        name: "strip",
        kind: "strip",
        part: |answer| answer,
        call: |library, fields, out| named(library.strip, fields, out),
        writes: true,
        refusal: |_| None,
        spoil: lengthen,
        spoilt: 4,
        generate: None,
    },
    Call {
        name: "range",
        kind: "range",
        part: |answer| answer,
        call: |library, fields, out| named(library.range, fields, out),
        writes: true,
        refusal: too_long,
        spoil: lengthen,
        spoilt: 4,
        generate: None,
    },
    Call {
        name: "request_size",
        kind: "sizes",
        part: |answer| answer[..8].to_vec(),
        call: |library, fields, _| looked_up(library.request_size, fields),
        writes: false,
        refusal: too_long,
        spoil: lengthen,
        spoilt: 4,
        generate: None,
    },
    Call {
        name: "reply_size",
        kind: "sizes",
        part: |answer| answer[8..16].to_vec(),
        call: |library, fields, _| looked_up(library.reply_size, fields),
        writes: false,
        refusal: too_long,
        spoil: lengthen,
        spoilt: 4,
        generate: None,
    },
    Call {
        name: "struct_size",
        kind: "sizes",
        part: struct_part,
        call: |library, fields, _| looked_up(library.struct_size, fields),
        writes: false,
        refusal: too_long,
        spoil: lengthen,
        spoilt: 4,
        generate: None,
    },
    Call {
        name: "plan",
        kind: "plan",
        part: |answer| answer,
        call: |library, fields, out| two_files(library.plan, fields, out),
        writes: true,
        refusal: listed::refusal,
        spoil: listed::spoil,
        spoilt: 30,
        generate: None,
    },
    Call {
        name: "chunks",
        kind: "chunks",
        part: |answer| answer,
        call: |library, fields, out| packed::chunks(library.chunks, fields, out),
        writes: true,
        refusal: packed::refusal,
        spoil: packed::spoil,
        spoilt: 30,
        generate: None,
    },
    Call {
        name: "packets",
        kind: "packets",
        part: |answer| answer,
        call: |library, fields, _| packed::packets(library.packets, fields),
        writes: false,
        refusal: packed::refusal,
        spoil: packed::spoil,
        spoilt: 30,
        generate: None,
    },
    Call {
        name: "plan_chunks",
        kind: "plan_chunks",
        part: |answer| answer,
        call: |library, fields, out| planned::plan_chunks(library.plan_chunks, fields, out),
        writes: true,
        refusal: planned::refusal,
        spoil: planned::damage,
        spoilt: 30,
        generate: Some(planned::generate),
    },
    Call {
        name: "dig",
        kind: "dig",
        part: |answer| answer,
        call: |library, fields, _| looked_up(library.dig, fields),
        writes: false,
        refusal: cuts::dig_refusal,
        spoil: cuts::spoil_dig,
        spoilt: 30,
        generate: Some(cuts::generate_dig),
    },
    Call {
        name: "sort",
        kind: "sort",
        part: |answer| answer,
        call: |library, fields, out| two_files(library.sort, fields, out),
        writes: true,
        refusal: cuts::sort_refusal,
        spoil: cuts::spoil_sort,
        spoilt: 30,
        generate: Some(cuts::generate_sort),
    },
];

/// The last of the sizes, behind that of an element; all 56 bits set where there is none.
pub fn struct_part(answer: Vec<u8>) -> Vec<u8> {
    let at = if answer[16] == 0 { 17 } else { 25 };
    match answer[at] {
        0 => vec![0xff; 7],
        _ => answer[at + 1..].to_vec(),
    }
}

pub fn named(function: NameCall, fields: &[Vec<u8>], out: &mut Lent<u8>) -> Returned {
    let name = Lent::new(&fields[0], 0xd7);
    // The pointers and lengths are those of two live vectors that nothing else holds.
    let returned = unsafe { function(name.pointer(), name.len(), out.pointer_mut(), out.len()) };
    match name.untouched() {
        true => Ok(returned),
        false => Err("the name or what stands beside it was changed".to_owned()),
    }
}

pub fn looked_up(function: LookupCall, fields: &[Vec<u8>]) -> Returned {
    let first = Lent::new(&fields[0], 0xd7);
    let second = Lent::new(&fields[1], 0xd7);
    // The pointers and lengths are those of two live vectors that nothing else holds.
    let returned = unsafe { function(first.pointer(), first.len(), second.pointer(), second.len()) };
    match first.untouched() && second.untouched() {
        true => Ok(returned),
        false => Err("an input or what stands beside it was changed".to_owned()),
    }
}

pub fn two_files(function: FilesCall, fields: &[Vec<u8>], out: &mut Lent<u8>) -> Returned {
    let first = Lent::new(&fields[0], 0xd7);
    let second = Lent::new(&fields[1], 0xd7);
    let (p, q) = (first.pointer(), second.pointer());
    // The pointers and lengths are those of three live vectors that nothing else holds.
    let returned = unsafe { function(p, first.len(), q, second.len(), out.pointer_mut(), out.len()) };
    match first.untouched() && second.untouched() {
        true => Ok(returned),
        false => Err("a file or what stands beside it was changed".to_owned()),
    }
}

/// The name is the last input.
fn too_long(fields: &[Vec<u8>]) -> Option<Refusal> {
    let refusal = Refusal { sent_back: (5, 0), cause: "refused: a name too long" };
    (fields[fields.len() - 1].len() > LONGEST).then_some(refusal)
}

fn lengthen(random: &mut Random, fields: &mut [Vec<u8>]) {
    let length = random.within(LONGEST + 1, LONGEST + 200);
    let Some(name) = fields.last_mut() else { return };
    while name.len() < length {
        let byte = *random.pick(b"aZ_9.[],{} ");
        name.push(byte);
    }
}

/// The static library, where this program is built with it.
#[cfg(feature = "compare")]
pub fn linked() -> Result<Library, String> {
    unsafe extern "C" {
        fn ruvangixo_tokens(name: *const u8, length: usize, out: *mut u8, room: usize) -> u64;
        fn ruvangixo_strip(name: *const u8, length: usize, out: *mut u8, room: usize) -> u64;
        fn ruvangixo_range(name: *const u8, length: usize, out: *mut u8, room: usize) -> u64;
        fn ruvangixo_catalog(catalog: *const u8, size: usize) -> u64;
        fn ruvangixo_request_size(catalog: *const u8, size: usize, name: *const u8, length: usize) -> u64;
        fn ruvangixo_reply_size(catalog: *const u8, size: usize, name: *const u8, length: usize) -> u64;
        fn ruvangixo_struct_size(catalog: *const u8, size: usize, name: *const u8, length: usize) -> u64;
        fn ruvangixo_plan(c: *const u8, n: usize, l: *const u8, m: usize, out: *mut u8, room: usize) -> u64;
        fn ruvangixo_chunks(t: *const u64, n: usize, u: *const u64, m: usize, b: u16, out: *mut u8, room: usize)
        -> u64;
        fn ruvangixo_packets(t: *const u64, n: usize, u: *const u64, m: usize, b: u16) -> u64;
        fn ruvangixo_plan_chunks(c: *const u8, n: usize, p: *const u8, m: usize, b: u16, o: *mut u8, r: usize) -> u64;
        fn ruvangixo_dig(value: *const u8, size: usize, path: *const u8, length: usize) -> u64;
        fn ruvangixo_sort(p: *const u8, n: usize, r: *const u8, m: usize, out: *mut u8, room: usize) -> u64;
    }
    Ok(Library {
        tokens: ruvangixo_tokens,
        strip: ruvangixo_strip,
        range: ruvangixo_range,
        catalog: ruvangixo_catalog,
        request_size: ruvangixo_request_size,
        reply_size: ruvangixo_reply_size,
        struct_size: ruvangixo_struct_size,
        plan: ruvangixo_plan,
        chunks: ruvangixo_chunks,
        packets: ruvangixo_packets,
        plan_chunks: ruvangixo_plan_chunks,
        dig: ruvangixo_dig,
        sort: ruvangixo_sort,
    })
}

#[cfg(not(feature = "compare"))]
pub fn linked() -> Result<Library, String> {
    Err("built without the library; the script `compare` builds it in".to_owned())
}
