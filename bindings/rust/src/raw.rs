//! The exported functions, each behind a safe one on slices. Nothing else in this crate is unsafe.
//!
//! Every SAFETY comment rests on the same two facts. A slice's pointer is not null, is aligned, and leads to as many entries
//! as the slice has; an exclusive slice overlaps no other. And the library is proved to read inside the lengths that it is
//! given, to write inside that of `out` alone, and to keep no pointer behind the call.

mod exported {
    unsafe extern "C" {
        pub fn ruvangixo_plan(c: *const u8, n: usize, l: *const u8, m: usize, out: *mut u8, room: usize) -> u64;
        pub fn ruvangixo_chunks(
            requests: *const u64,
            n: usize,
            replies: *const u64,
            m: usize,
            budget: u16,
            out: *mut u8,
            room: usize,
        ) -> u64;
        pub fn ruvangixo_plan_chunks(
            c: *const u8,
            n: usize,
            p: *const u8,
            m: usize,
            budget: u16,
            out: *mut u8,
            room: usize,
        ) -> u64;
        pub fn ruvangixo_packets(requests: *const u64, n: usize, replies: *const u64, m: usize, budget: u16) -> u64;
        pub fn ruvangixo_dig(value: *const u8, n: usize, path: *const u8, m: usize) -> u64;
        pub fn ruvangixo_sort(p: *const u8, n: usize, r: *const u8, m: usize, out: *mut u8, room: usize) -> u64;
    }
}

pub fn plan(catalog: &[u8], list: &[u8], out: &mut [u8]) -> u64 {
    let (c, n, l, m) = (catalog.as_ptr(), catalog.len(), list.as_ptr(), list.len());
    // SAFETY: pointers and lengths of three slices, of which the exclusive one is written.
    unsafe { exported::ruvangixo_plan(c, n, l, m, out.as_mut_ptr(), out.len()) }
}

pub fn chunks(requests: &[u64], replies: &[u64], budget: u16, out: &mut [u8]) -> u64 {
    let (a, n, b, m) = (requests.as_ptr(), requests.len(), replies.as_ptr(), replies.len());
    // SAFETY: pointers and lengths, in entries, of two tables, and those of an exclusive slice, which is written.
    unsafe { exported::ruvangixo_chunks(a, n, b, m, budget, out.as_mut_ptr(), out.len()) }
}

pub fn plan_chunks(catalog: &[u8], plan: &[u8], budget: u16, out: &mut [u8]) -> u64 {
    let (c, n, p, m) = (catalog.as_ptr(), catalog.len(), plan.as_ptr(), plan.len());
    // SAFETY: pointers and lengths of three slices, of which the exclusive one is written.
    unsafe { exported::ruvangixo_plan_chunks(c, n, p, m, budget, out.as_mut_ptr(), out.len()) }
}

pub fn packets(requests: &[u64], replies: &[u64], budget: u16) -> u64 {
    // SAFETY: pointers and lengths, in entries, of two tables; nothing is written.
    unsafe { exported::ruvangixo_packets(requests.as_ptr(), requests.len(), replies.as_ptr(), replies.len(), budget) }
}

pub fn dig(value: &[u8], path: &[u8]) -> u64 {
    // SAFETY: pointers and lengths of two slices; nothing is written.
    unsafe { exported::ruvangixo_dig(value.as_ptr(), value.len(), path.as_ptr(), path.len()) }
}

pub fn sort(plan: &[u8], results: &[u8], out: &mut [u8]) -> u64 {
    let (p, n, r, m) = (plan.as_ptr(), plan.len(), results.as_ptr(), results.len());
    // SAFETY: pointers and lengths of three slices, of which the exclusive one is written.
    unsafe { exported::ruvangixo_sort(p, n, r, m, out.as_mut_ptr(), out.len()) }
}
