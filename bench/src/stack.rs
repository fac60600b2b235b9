//! The most stack that each call takes: it runs on painted memory, and the paint that is left is counted.
use crate::proved::{self, Frame};
use crate::texts::Texts;
use crate::common::Rng;
use std::arch::asm;

const ROOM: usize = 1 << 20;

type Work<'a> = dyn FnMut() + 'a;
extern "C" fn enter(work: *mut &mut Work) { unsafe { (*work)() } }

/// The bytes of stack that `work` takes.
fn used(work: &mut Work) -> usize {
    let mut room = vec![0xa5u8; ROOM];
    let top = (room.as_mut_ptr() as usize + ROOM) & !15;
    let mut work = work;
    unsafe {
        asm!("mov r12, rsp", "mov rsp, {top}", "call {enter}", "mov rsp, r12", top = in(reg) top, enter = in(reg) enter as extern "C" fn(*mut &mut Work), in("rdi") &mut work as *mut &mut Work as *mut u8, out("r12") _, clobber_abi("C"));
    }
    ROOM - room.iter().position(|&b| b != 0xa5).unwrap_or(ROOM)
}

pub fn main() {
    let none = used(&mut || {});
    let mut t = Texts { r: Rng(5), long: false };
    let mut most: Vec<(&str, usize)> = ["tidy", "new_table", "load_top", "load_framed", "unload", "question", "enabled_features", "list_beneath", "forecast"].iter().map(|&n| (n, 0)).collect();
    let mut note = |name: &str, work: &mut Work| { let n = used(work) - none; let row = most.iter_mut().find(|r| r.0 == name).unwrap(); row.1 = row.1.max(n); };
    let mut run = vec![0u8; proved::table_bytes()];
    let (mut out, mut serials) = (vec![0u8; 4096], vec![0u32; 64]);
    let sandboxes = ["", "allow-scripts allow-same-origin", "allow-forms allow-popups"];
    for round in 0..60 {
        if round % 3 == 0 { note("new_table", &mut || { proved::new_table(&mut run); }); }
        let (h, allow) = (if round % 7 == 0 { crate::header(4096) } else { t.header().into_bytes() }, t.allow());
        note("tidy", &mut || { proved::tidy(&h, &mut out); });
        let origin = t.origin();
        let mut top = 0;
        note("load_top", &mut || top = proved::load_top(&mut run, origin.as_bytes(), &h).value);
        for i in 0..20u32 {
            let marks = (i + round) % 4;
            let sandbox = if marks < 2 { "" } else { sandboxes[i as usize % 3] };
            let f = Frame { src: origin.as_bytes(), marks, allow: allow.as_bytes(), sandbox: sandbox.as_bytes() };
            let o = match i % 3 { 0 => "null", 1 => "", _ => &origin };
            note("load_framed", &mut || { proved::load_framed(&mut run, top + i / 2, o.as_bytes(), f, &h); });
            note("forecast", &mut || { proved::forecast(&run, top + i / 2, f); });
            note("question", &mut || { proved::question(&run, top + i / 2, i % 18, o.as_bytes()); });
            note("enabled_features", &mut || { proved::enabled_features(&run, top + i); });
            note("list_beneath", &mut || { proved::list_beneath(&run, top, &mut serials); });
        }
        if round % 3 == 2 { note("unload", &mut || { proved::unload(&mut run, top); }); }
    }
    println!("| call | stack, bytes |\n|---|---|");
    for (name, n) in most { println!("| `{name}` | {n} |"); }
}
