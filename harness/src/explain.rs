//! What the program `why` is to print of a card, for any bytes: those of a step book or of a domain's words.

use crate::book::{end, GREATEST, MARK};
use crate::model::mistake::Rules;
use crate::model::why::why_words;
use crate::why::Why;

/// The most digits of a card.
pub const DIGITS: usize = 9;
const WORD: usize = 4;

pub fn print(card: u32, bytes: &[u8]) -> String {
    explain(card, bytes).line(card)
}

fn explain(card: u32, bytes: &[u8]) -> Why {
    if bytes.len() > GREATEST {
        return Why::Refused(18);
    }
    if bytes.ends_with(MARK) {
        return end(bytes).map_or_else(Why::Refused, |model| model.why(card));
    }
    if !bytes.len().is_multiple_of(WORD) {
        return Why::Refused(3);
    }
    let words = bytes.chunks_exact(WORD).map(|word| u32::from_le_bytes(word.try_into().expect("four bytes")));
    why_words(&words.collect::<Vec<_>>(), [card], Rules::default())[0]
}

/// A domain's words as the program reads them.
pub fn bytes_of(words: &[u32]) -> Vec<u8> {
    words.iter().flat_map(|word| word.to_le_bytes()).collect()
}
