//! One process publishes a node, another claims and uses it; then the first retires it, asks why it waits, and frees it by a scan in
//! portions.

#[repr(C)]
struct Answer {
    refusal: u32,
    value: u32,
}

#[repr(C)]
struct Why {
    refusal: u32,
    answer: u32,
    state: u32,
    ticks: u32,
    process: u32,
    hazard: u32,
    behind: u32,
    behind_process: u32,
}

#[repr(C)]
struct Portion {
    refusal: u32,
    freed: u32,
    examined: u32,
    next: u32,
    left: u32,
}

// as in include/qsense.h
extern "C" {
    fn qsense_length(n: u32, k: u32, m: u32) -> u32;
    fn qsense_make(words: *mut u32, len: usize, n: u32, k: u32, m: u32, t: u32, q: u32, c: u32, e: u32) -> Answer;
    fn qsense_step(words: *mut u32, len: usize, kind: u32, process: u32, hazard: u32, node: u32, guest: u32) -> Answer;
    fn qsense_reachable(words: *const u32, len: usize) -> Answer;
    fn qsense_why(words: *const u32, len: usize, node: u32) -> Why;
    fn qsense_portion(words: *mut u32, len: usize, process: u32, start: u32, limit: u32) -> Portion;
}

fn step(words: &mut [u32], [kind, process, hazard, node, guest]: [u32; 5]) -> Answer {
    unsafe { qsense_step(words.as_mut_ptr(), words.len(), kind, process, hazard, node, guest) }
}

fn why(words: &[u32], node: u32) -> Why {
    unsafe { qsense_why(words.as_ptr(), words.len(), node) }
}

fn portion(words: &mut [u32], process: u32, start: u32, limit: u32) -> Portion {
    unsafe { qsense_portion(words.as_mut_ptr(), words.len(), process, start, limit) }
}

fn main() {
    let words = &mut vec![0; unsafe { qsense_length(2, 1, 2) } as usize][..];
    let made = unsafe { qsense_make(words.as_mut_ptr(), words.len(), 2, 1, 2, 3, 1, 1, 0) };
    step(words, [1, 0, 0, 0, 70]); // process 0 allocates node 0 for guest 70
    step(words, [2, 0, 0, 0, 0]); // and publishes it
    step(words, [3, 1, 0, 0, 0]); // process 1 protects it by its hazard 0
    step(words, [4, 1, 0, 0, 0]); // and checks that it is still Reachable
    let used = step(words, [5, 1, 0, 0, 0]); // from now on it may use it
    let twice = step(words, [1, 1, 0, 0, 71]); // node 0 is not Free
    let reachable = unsafe { qsense_reachable(words.as_ptr(), words.len()) };
    println!("made {}, guest {}, refused {}, reachable {}", made.refusal, used.value, twice.refusal, reachable.value);
    step(words, [10, 1, 0, 0, 0]); // process 1 flushes its store: the hazard is visible
    step(words, [7, 0, 0, 0, 0]); // process 0 removes node 0
    step(words, [8, 0, 0, 0, 0]); // and retires it
    let young = why(words, 0); // 2: too young to be freed
    for _ in 0..young.ticks {
        step(words, [11, 0, 0, 0, 0]);
    }
    let seen = why(words, 0); // 3: old enough, and visible in a hazard
    print!("why {}, {} ticks; ", young.answer, young.ticks);
    println!("then why {}, process {}, hazard {}", seen.answer, seen.process, seen.hazard);
    step(words, [6, 1, 0, 0, 0]); // process 1 clears its hazard
    step(words, [10, 1, 0, 0, 0]); // and flushes that store
    let mut node = 0;
    while node < 2 {
        let part = portion(words, 0, node, 1); // process 0 scans, one node a portion, to the last of 2
        assert_eq!(part.refusal, 0);
        let Portion { freed, examined, next, left, .. } = part;
        println!("from {node}: freed {freed}, examined {examined}, next {next}, left {left}");
        node = next; // other steps may come between
    }
}
