//! The readers of include/qsense.h, as tools/readers.c exports them.

use crate::layout::{BUFFER, HAZARD, HEAD, LEAD, NODE, STORE};

extern "C" {
    fn readers_head(words: *const u32, len: usize, out: *mut u32);
    fn readers_processes(words: *const u32, len: usize, count: u32, out: *mut u32);
    fn readers_hazards(words: *const u32, len: usize, process: u32, count: u32, out: *mut u32);
    fn readers_stores(words: *const u32, len: usize, process: u32, count: u32, out: *mut u32);
    fn readers_nodes(words: *const u32, len: usize, count: u32, out: *mut u32);
}

/// What the readers say of the head, of so many processes with so many hazards and places for stores each, and of so many nodes, in the
/// order of the words. There need not be so many.
pub fn read(words: &[u32], processes: u32, hazards: u32, stores: u32, nodes: u32) -> Vec<u32> {
    let (at, len) = (words.as_ptr(), words.len());
    let mut leads = vec![0; LEAD * processes as usize];
    let mut head = vec![0; HEAD];
    let mut last = vec![0; NODE * nodes as usize];
    unsafe {
        readers_head(at, len, head.as_mut_ptr());
        readers_processes(at, len, processes, leads.as_mut_ptr());
        readers_nodes(at, len, nodes, last.as_mut_ptr());
    }
    let mut all = head;
    for (process, lead) in (0..).zip(leads.chunks_exact(LEAD)) {
        let mut own = vec![0; HAZARD * hazards as usize];
        let mut pending = vec![0; STORE * stores as usize];
        unsafe {
            readers_hazards(at, len, process, hazards, own.as_mut_ptr());
            readers_stores(at, len, process, stores, pending.as_mut_ptr());
        }
        all.extend(lead.iter().chain(&own).chain(&pending));
    }
    all.extend(last);
    all
}

/// The same, of as many as a domain with these numbers of processes, hazards and nodes has.
pub fn read_all(words: &[u32], [processes, hazards, nodes]: [u32; 3]) -> Vec<u32> {
    read(words, processes, hazards, BUFFER as u32, nodes)
}
