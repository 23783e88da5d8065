//! The probe's library, its calls taken with slices.

use crate::probe::*;

pub fn with_output(call: OfFile, file: &[u8], out: &mut [u8]) -> u64 {
    // SAFETY: the pointers and lengths are those of two slices, of which the second is lent for writing and so lies apart.
    unsafe { call(file.as_ptr(), file.len(), out.as_mut_ptr(), out.len()) }
}

pub fn load(file: &[u8]) -> u64 {
    // SAFETY: the pointer and the length are those of a slice, and the call only reads it.
    unsafe { probe_load(file.as_ptr(), file.len()) }
}

pub fn imm(file: &[u8], out: &mut [u8]) -> u64 {
    with_output(probe_imm, file, out)
}

pub fn armv8(file: &[u8], out: &mut [u8]) -> u64 {
    with_output(probe_armv8, file, out)
}

pub fn tso(file: &[u8], out: &mut [u8]) -> u64 {
    with_output(probe_tso, file, out)
}

pub fn translate(file: &[u8], out: &mut [u8]) -> u64 {
    with_output(probe_translate, file, out)
}

pub fn judge(file: &[u8], out: &mut [u8]) -> u64 {
    with_output(probe_judge, file, out)
}

pub fn page(file: &[u8], ring: &[u8], out: &mut [u8]) -> u64 {
    // SAFETY: the pointers and lengths are those of three slices, of which the third is lent for writing and so lies apart.
    unsafe { probe_page(file.as_ptr(), file.len(), ring.as_ptr(), ring.len(), out.as_mut_ptr(), out.len()) }
}
