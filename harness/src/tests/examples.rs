//! The books of examples/ by the model and by the library's calls, and why a card waits in the middle of them. What is to be printed was
//! written by hand.

use crate::book::{cut, end, end_by_calls, print, print_by_calls, steps};
use crate::library::Calls;
use crate::portion::{Portion, PortionAnswer};
use crate::report::Report;
use std::path::Path;

pub const NAMES: [&str; 14] = [
    "first", "fallback", "kept", "epoch", "mail", "repost", "night", "late", "waits", "portions", "rounds", "recipe",
    "stays", "stuck",
];

pub fn all(report: &mut Report, calls: &Calls, folder: &Path) {
    for name in NAMES {
        report.test(&format!("examples/{name}.book"), || {
            let (book, expected) = read(folder, name)?;
            match (print(&book) == expected, print_by_calls(calls, &book) == expected) {
                (true, true) => Ok(format!("{} lines", expected.lines().count())),
                (false, _) => Err("the model prints something else".into()),
                (_, false) => Err("the library answers something else".into()),
            }
        });
    }
    for name in ["waits", "recipe", "stays", "stuck"] {
        report.test(&format!("examples/{name}.why"), || asked(calls, folder, name));
    }
    report.test("examples/portions.book, all numbers of its portions", || portions(calls, folder));
}

/// Of examples/portions.book the portions by the number of their step, with refusal, freed, examined, next and left: by hand.
const PORTIONS: [(usize, [u32; 5]); 12] = [
    (41, [0, 0, 2, 2, 5]),
    (43, [0, 2, 2, 2, 5]),
    (47, [0, 1, 3, 5, 2]),
    (49, [0, 1, 2, 8, 0]),
    (51, [23, 0, 0, 0, 0]),
    (52, [7, 0, 0, 0, 0]),
    (53, [0, 2, 3, 8, 0]),
    (55, [0, 0, 1, 3, 0]),
    (57, [0, 0, 0, 8, 0]),
    (58, [0, 1, 1, 3, 0]),
    (59, [0, 1, 1, 6, 0]),
    (60, [0, 0, 0, 8, 0]),
];

fn portions(calls: &Calls, folder: &Path) -> Result<String, String> {
    let (book, _) = read(folder, "portions")?;
    let refused = |number| format!("the book is refused with {number}");
    let portions = (0..).zip(steps(&book).map_err(refused)?);
    let portions: Vec<_> = portions.filter_map(|(number, step)| Some((number, Portion::of(step)?))).collect();
    for (&(number, asked), (place, numbers)) in portions.iter().zip(PORTIONS) {
        let before = cut(&book, number).map_err(refused)?;
        let (mut model, mut words) = (end(&before).map_err(refused)?, end_by_calls(calls, &before).map_err(refused)?);
        let (told, found) = (model.portion(asked), calls.portion(&mut words, asked));
        if number != place || [told, found] != [PortionAnswer::from_numbers(numbers); 2] {
            return Err(format!(
                "step {number}, {asked}: {told} by the model, {found} by the library; step {place} {numbers:?}"
            ));
        }
    }
    match portions.len() == PORTIONS.len() {
        true => Ok(format!("{} portions", portions.len())),
        false => Err(format!("{} portions in the book", portions.len())),
    }
}

/// An example's book, and what is to be printed for it.
pub fn read(folder: &Path, name: &str) -> Result<(Vec<u8>, String), String> {
    let (book, out) = (file(folder, name, "book")?, file(folder, name, "out")?);
    Ok((book, String::from_utf8_lossy(&out).into_owned()))
}

fn file(folder: &Path, name: &str, extension: &str) -> Result<Vec<u8>, String> {
    let path = folder.join(name).with_extension(extension);
    std::fs::read(&path).map_err(|error| format!("{}: {error}", path.display()))
}

/// Each line of an example's questions: after how many steps, the card, and what is to be printed.
fn asked(calls: &Calls, folder: &Path, name: &str) -> Result<String, String> {
    let (book, questions) = (file(folder, name, "book")?, file(folder, name, "why")?);
    let (questions, mut count) = (String::from_utf8_lossy(&questions).into_owned(), 0);
    for question in questions.lines().filter(|line| !line.starts_with('#')) {
        let wrong = |what: &str| format!("'{question}': {what}");
        let [steps, card, line] = *question.splitn(3, ' ').collect::<Vec<_>>() else {
            return Err(wrong("not of three parts"));
        };
        let [steps, card] = [steps, card].map(|word| word.parse().map_err(|_| wrong("no number")));
        let (steps, card): (u32, u32) = (steps?, card?);
        let refused = |number| wrong(&format!("the book is refused with {number}"));
        let book = cut(&book, steps as usize).map_err(refused)?;
        let (model, words) = (end(&book).map_err(refused)?, end_by_calls(calls, &book).map_err(refused)?);
        let why = model.why(card);
        if why.line(card) != format!("{line}\n") {
            return Err(wrong(&format!("the model prints {}", why.line(card))));
        }
        if calls.why(&words, card) != why.answer() {
            return Err(wrong(&format!("the library answers {}", calls.why(&words, card))));
        }
        count += 1;
    }
    Ok(format!("{count} lines"))
}
