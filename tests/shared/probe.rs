//! The calls of include/probe.h. A module of the batch driver and the benchmark, which do not use all of it.
#![allow(dead_code)]

extern "C" {
    pub fn probe_load(file: *const u8, length: usize) -> u64;
    pub fn probe_imm(file: *const u8, length: usize, out: *mut u8, room: usize) -> u64;
    pub fn probe_armv8(file: *const u8, length: usize, out: *mut u8, room: usize) -> u64;
    pub fn probe_tso(file: *const u8, length: usize, out: *mut u8, room: usize) -> u64;
    pub fn probe_translate(file: *const u8, length: usize, out: *mut u8, room: usize) -> u64;
    pub fn probe_judge(file: *const u8, length: usize, out: *mut u8, room: usize) -> u64;
    pub fn probe_page(file: *const u8, length: usize, ring: *const u8, count: usize, out: *mut u8, room: usize) -> u64;
    pub fn probe_why(file: *const u8, length: usize, model: u64, out: *mut u8, room: usize) -> u64;
}

pub type OfFile = unsafe extern "C" fn(*const u8, usize, *mut u8, usize) -> u64;
pub type OfRing = unsafe extern "C" fn(*const u8, usize, *const u8, usize, *mut u8, usize) -> u64;
pub type OfModel = unsafe extern "C" fn(*const u8, usize, u64, *mut u8, usize) -> u64;
