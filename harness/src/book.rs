//! Step books and their print, by the paper: bytes from steps, steps from bytes, and what the model answers.

use crate::layout::{word_count, CLOCK, PATH};
use crate::library::Calls;
use crate::model::mistake::Rules;
use crate::model::Model;
use crate::params::Params;
use crate::step::{Answer, Step};
use std::fmt::Write;

pub const MARK: &[u8; 4] = b"QBAK";
pub const GREATEST: usize = 65_536;
/// The bytes of the parameters, of a step, of the trailer.
pub const PARAMS: usize = 4 * Params::COUNT;
pub const STEP: usize = 12;
pub const TRAILER: usize = 12;

/// How many steps fit in a book.
pub const MOST_STEPS: usize = (GREATEST - distance(0)) / STEP;

/// From the end of a book of so many steps back to its parameters.
pub const fn distance(count: usize) -> usize {
    PARAMS + STEP * count + TRAILER
}

/// A book of these steps, whose kind, process and hazard fit a byte; `unread` goes to the byte that nobody reads.
pub fn write(params: Params, steps: &[Step], unread: u8) -> Vec<u8> {
    let mut bytes: Vec<u8> = params.numbers().iter().flat_map(|number| number.to_le_bytes()).collect();
    for step in steps {
        bytes.extend([step.kind as u8, step.process as u8, step.hazard as u8, unread]);
        bytes.extend(step.node.to_le_bytes());
        bytes.extend(step.guest.to_le_bytes());
    }
    bytes.extend(trailer(steps.len() as u32, distance(steps.len()) as u32));
    bytes
}

pub fn trailer(count: u32, distance: u32) -> Vec<u8> {
    [count.to_le_bytes(), distance.to_le_bytes(), *MARK].concat()
}

/// The parameters and steps of a book, or the number of its refusal.
fn read(bytes: &[u8]) -> Result<(Params, Vec<Step>), u32> {
    if bytes.len() > GREATEST {
        return Err(18);
    }
    let trailer = bytes.len().checked_sub(TRAILER).ok_or(19u32)?;
    let (count, back) = (word(bytes, trailer) as usize, word(bytes, trailer + 4) as usize);
    if bytes[trailer + 8..] != MARK[..] || back != distance(count) || back > bytes.len() {
        return Err(19);
    }
    let start = bytes.len() - back;
    let params = Params::from_numbers(std::array::from_fn(|place| word(bytes, start + 4 * place)));
    if !params.in_range() {
        return Err(1);
    }
    let steps = (0..count).map(|number| step(&bytes[start + PARAMS + STEP * number..]));
    Ok((params, steps.collect()))
}

fn word(bytes: &[u8], at: usize) -> u32 {
    u32::from_le_bytes(bytes[at..at + 4].try_into().expect("four bytes"))
}

fn step(bytes: &[u8]) -> Step {
    let [kind, process, hazard] = [bytes[0], bytes[1], bytes[2]].map(u32::from);
    Step { kind, process, hazard, node: word(bytes, 4), guest: word(bytes, 8) }
}

/// The steps of a book.
pub fn steps(bytes: &[u8]) -> Result<Vec<Step>, u32> {
    Ok(read(bytes)?.1)
}

/// The first so many steps of a book, as a book.
pub fn cut(bytes: &[u8], count: usize) -> Result<Vec<u8>, u32> {
    let (params, steps) = read(bytes)?;
    Ok(write(params, &steps[..count], 0))
}

/// The model after a book's last step, or the number of the book's refusal.
pub fn end(bytes: &[u8]) -> Result<Model, u32> {
    let (params, steps) = read(bytes)?;
    let mut model = Model::fresh(params, Rules::default());
    for step in steps {
        model.step(step);
    }
    Ok(model)
}

/// The words after a book's last step by the library's calls.
pub fn end_by_calls(calls: &Calls, bytes: &[u8]) -> Result<Vec<u32>, u32> {
    let (params, steps) = read(bytes)?;
    let mut desk = made(calls, params);
    for step in steps {
        desk.take(step);
    }
    Ok(desk.words)
}

/// What takes the steps of a book.
trait Desk {
    /// The answer, and the panel after it.
    fn take(&mut self, step: Step) -> (Answer, u32);
    /// Clock, path and panel.
    fn end(&self) -> [u32; 3];
}

impl Desk for Model {
    fn take(&mut self, step: Step) -> (Answer, u32) {
        (self.step(step), self.domain.reachable())
    }

    fn end(&self) -> [u32; 3] {
        [self.domain.clock, self.domain.path as u32, self.domain.reachable()]
    }
}

struct Words<'a> {
    calls: &'a Calls,
    words: Vec<u32>,
}

impl Desk for Words<'_> {
    fn take(&mut self, step: Step) -> (Answer, u32) {
        (self.calls.step(&mut self.words, step), self.calls.reachable(&self.words).value)
    }

    fn end(&self) -> [u32; 3] {
        [self.words[CLOCK], self.words[PATH], self.calls.reachable(&self.words).value]
    }
}

/// What `desk` is to print for these bytes.
pub fn print(bytes: &[u8]) -> String {
    print_by(bytes, |params| Model::fresh(params, Rules::default()))
}

/// The same by the library's calls.
pub fn print_by_calls(calls: &Calls, bytes: &[u8]) -> String {
    print_by(bytes, |params| made(calls, params))
}

fn made(calls: &Calls, params: Params) -> Words<'_> {
    let mut words = vec![0; word_count(params)];
    calls.make(&mut words, params);
    Words { calls, words }
}

fn print_by<D: Desk>(bytes: &[u8], fresh: impl Fn(Params) -> D) -> String {
    let (params, steps) = match read(bytes) {
        Ok(book) => book,
        Err(number) => return format!("refused {number}\n"),
    };
    let mut desk = fresh(params);
    let mut text = format!("desk {params}\n");
    for (number, step) in steps.into_iter().enumerate() {
        let (answer, panel) = desk.take(step);
        writeln!(text, "{number} {} {answer} {panel}", step.kind).expect("a string");
    }
    let [clock, path, panel] = desk.end();
    writeln!(text, "end {clock} {path} {panel}").expect("a string");
    text
}
