//! The proved library's calls on a table, as `speed_exports` exports them. Not every program here makes each.
#![allow(dead_code)]

/// A refusal's number, or 0 and what the call gives.
#[repr(C)]
#[derive(Clone, Copy, PartialEq, Eq, Debug)]
pub struct Answer { pub refusal: u32, pub value: u32, pub second: u32 }

extern "C" {
    fn speed_table_bytes() -> usize;
    fn speed_new_table(run: *mut u8, n: usize) -> Answer;
    fn speed_load_top(run: *mut u8, n: usize, origin: *const u8, on: usize, header: *const u8, hn: usize) -> Answer;
    fn speed_load_framed(run: *mut u8, n: usize, container: u32, origin: *const u8, on: usize, src: *const u8, sn: usize, marks: u32, allow: *const u8, an: usize, sandbox: *const u8, bn: usize, header: *const u8, hn: usize) -> Answer;
    fn speed_unload(run: *mut u8, n: usize, serial: u32) -> Answer;
    fn speed_question(run: *const u8, n: usize, serial: u32, feature: u32, origin: *const u8, on: usize) -> Answer;
    fn speed_enabled_features(run: *const u8, n: usize, serial: u32) -> Answer;
    fn speed_list_beneath(run: *const u8, n: usize, serial: u32, out: *mut u32, m: usize) -> Answer;
    fn speed_forecast(run: *const u8, n: usize, container: u32, src: *const u8, sn: usize, marks: u32, allow: *const u8, an: usize, sandbox: *const u8, bn: usize) -> Answer;
    fn speed_tidy(s: *const u8, n: usize, out: *mut u8, m: usize) -> u64;
}

/// A frame's attributes; marks: 1 for allowfullscreen, 2 for a sandbox attribute.
#[derive(Clone, Copy)]
pub struct Frame<'a> { pub src: &'a [u8], pub marks: u32, pub allow: &'a [u8], pub sandbox: &'a [u8] }

pub fn table_bytes() -> usize { unsafe { speed_table_bytes() } }
pub fn new_table(t: &mut [u8]) -> Answer { unsafe { speed_new_table(t.as_mut_ptr(), t.len()) } }
pub fn load_top(t: &mut [u8], origin: &[u8], header: &[u8]) -> Answer { unsafe { speed_load_top(t.as_mut_ptr(), t.len(), origin.as_ptr(), origin.len(), header.as_ptr(), header.len()) } }
pub fn load_framed(t: &mut [u8], container: u32, origin: &[u8], f: Frame, header: &[u8]) -> Answer {
    unsafe { speed_load_framed(t.as_mut_ptr(), t.len(), container, origin.as_ptr(), origin.len(), f.src.as_ptr(), f.src.len(), f.marks, f.allow.as_ptr(), f.allow.len(), f.sandbox.as_ptr(), f.sandbox.len(), header.as_ptr(), header.len()) }
}
pub fn unload(t: &mut [u8], serial: u32) -> Answer { unsafe { speed_unload(t.as_mut_ptr(), t.len(), serial) } }
pub fn question(t: &[u8], serial: u32, feature: u32, origin: &[u8]) -> Answer { unsafe { speed_question(t.as_ptr(), t.len(), serial, feature, origin.as_ptr(), origin.len()) } }
pub fn enabled_features(t: &[u8], serial: u32) -> Answer { unsafe { speed_enabled_features(t.as_ptr(), t.len(), serial) } }
pub fn list_beneath(t: &[u8], serial: u32, out: &mut [u32]) -> Answer { unsafe { speed_list_beneath(t.as_ptr(), t.len(), serial, out.as_mut_ptr(), out.len()) } }
pub fn forecast(t: &[u8], container: u32, f: Frame) -> Answer {
    unsafe { speed_forecast(t.as_ptr(), t.len(), container, f.src.as_ptr(), f.src.len(), f.marks, f.allow.as_ptr(), f.allow.len(), f.sandbox.as_ptr(), f.sandbox.len()) }
}
/// The length of the form, or 2^32 and the refusal's number.
pub fn tidy(s: &[u8], out: &mut [u8]) -> u64 { unsafe { speed_tidy(s.as_ptr(), s.len(), out.as_mut_ptr(), out.len()) } }
