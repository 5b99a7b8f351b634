//! C signatures of calls that the tests make up, right ones and wrong ones. A function in one of these macros names its
//! parameters only; it becomes an `unsafe extern "C" fn` that returns a `u64`.

/// Calls that are lent two inputs of `$of`, with a count behind each, and write groups for a budget.
macro_rules! group_calls {
    ($of:ty; $(
        $(#[$doc:meta])*
        $vis:vis fn $name:ident(
            $a:ident, $n:ident, $b:ident, $m:ident, $budget:ident, $out:ident, $room:ident
        ) $body:block
    )*) => { $(
        $(#[$doc])*
        $vis unsafe extern "C" fn $name(
            $a: *const $of, $n: usize, $b: *const $of, $m: usize, $budget: u16, $out: *mut u8, $room: usize,
        ) -> u64 $body
    )* };
}

/// Calls of the type `ChunksCall`.
macro_rules! chunks_calls {
    ($($calls:tt)*) => { $crate::signatures::group_calls! { u64; $($calls)* } };
}

/// Calls of the type `PlannedCall`.
macro_rules! planned_calls {
    ($($calls:tt)*) => { $crate::signatures::group_calls! { u8; $($calls)* } };
}

/// Calls of the type `PacketsCall`.
macro_rules! packets_calls {
    ($(
        $(#[$doc:meta])*
        $vis:vis fn $name:ident($t:ident, $n:ident, $u:ident, $m:ident, $budget:ident) $body:block
    )*) => { $(
        $(#[$doc])*
        $vis unsafe extern "C" fn $name(
            $t: *const u64, $n: usize, $u: *const u64, $m: usize, $budget: u16,
        ) -> u64 $body
    )* };
}

pub(crate) use {chunks_calls, group_calls, packets_calls, planned_calls};
