//! The archive's C functions, called over slices.
//!
//! Each function here has the arguments of its namesake in `volume`. All are
//! safe to call with any bytes: a slice goes over as its pointer and length,
//! and slices that are borrowed at the same time never overlap. An empty slice
//! goes over as a null pointer, which the interface allows.

#![allow(clippy::too_many_arguments)]

use std::ptr::{null, null_mut};

#[link(name = "scale", kind = "static", modifiers = "-bundle")]
extern "C" {}

fn pointer(slice: &[u8]) -> *const u8 {
    match slice {
        [] => null(),
        _ => slice.as_ptr(),
    }
}

fn pointer_mut(slice: &mut [u8]) -> *mut u8 {
    match slice {
        [] => null_mut(),
        _ => slice.as_mut_ptr(),
    }
}

/// Defines a function over slices and numbers by the C function of this
/// symbol. The arguments are taken one by one into the last two groups: the C
/// function's types, and what is passed for them.
macro_rules! call {
    ($symbol:ident $name:ident $all:tt) => {
        call!($symbol $name $all $all () ());
    };
    ($symbol:ident $name:ident $all:tt ($slice:ident: &[u8], $($rest:tt)*)
        ($($types:tt)*) ($($passed:tt)*)) => {
        call!($symbol $name $all ($($rest)*)
            ($($types)* *const u8, usize,) ($($passed)* pointer($slice), $slice.len(),));
    };
    ($symbol:ident $name:ident $all:tt ($slice:ident: &mut [u8], $($rest:tt)*)
        ($($types:tt)*) ($($passed:tt)*)) => {
        call!($symbol $name $all ($($rest)*)
            ($($types)* *mut u8, usize,) ($($passed)* pointer_mut($slice), $slice.len(),));
    };
    ($symbol:ident $name:ident $all:tt ($number:ident: $type:ident, $($rest:tt)*)
        ($($types:tt)*) ($($passed:tt)*)) => {
        call!($symbol $name $all ($($rest)*)
            ($($types)* $type,) ($($passed)* $number,));
    };
    ($symbol:ident $name:ident ($($argument:ident: $type:ty,)*) ()
        ($($c_type:ty,)*) ($($passed:expr,)*)) => {
        pub fn $name($($argument: $type),*) -> u64 {
            extern "C" {
                fn $symbol($(_: $c_type),*) -> u64;
            }
            unsafe { $symbol($($passed),*) }
        }
    };
}

call!(bm_format format (image: &mut [u8], kind: u32,));
call!(bm_check check (image: &[u8], out: &mut [u8],));
call!(bm_check_system check_system (area: &[u8], out: &mut [u8],));
call!(bm_free_space free_space (image: &[u8], out: &mut [u8],));
call!(bm_entry entry (image: &[u8], slot: u32, out: &mut [u8],));
call!(bm_find find (image: &[u8], pattern: &[u8], slot: u32, mask: u32,));
call!(bm_open open (image: &[u8], table: &mut [u8], name: &[u8], access: u32,));
call!(bm_create create (
    image: &mut [u8], table: &mut [u8], name: &[u8], attribute: u32,
    hour: u32, minute: u32, step: u32, year: u32, month: u32, day: u32,
));
call!(bm_read read (image: &[u8], table: &mut [u8], handle: u32, buffer: &mut [u8],));
call!(bm_write write (image: &mut [u8], table: &mut [u8], handle: u32, data: &[u8],));
call!(bm_seek seek (
    image: &[u8], table: &mut [u8], handle: u32, method: u32, offset: i32,
));
call!(bm_close close (
    image: &mut [u8], table: &mut [u8], handle: u32,
    hour: u32, minute: u32, step: u32, year: u32, month: u32, day: u32,
));
call!(bm_delete delete (image: &mut [u8], table: &[u8], name: &[u8],));
call!(bm_rename rename (image: &mut [u8], table: &[u8], old: &[u8], new: &[u8],));
call!(bm_mode mode (
    image: &mut [u8], table: &[u8], name: &[u8], function: u32, attribute: u32,
));
call!(bm_view_number view_number (image: &[u8], name: &[u8], offset: u32,));
call!(bm_rescue rescue (image: &[u8], name: &[u8], out: &mut [u8],));
