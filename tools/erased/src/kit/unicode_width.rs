//! The width of texts, as in the crate unicode-width.

use super::unicode::{is_modifier_base, width};

/// The width of a text.
pub trait UnicodeWidthStr {
    /// Returns the number of columns that the text takes in a terminal. It must have only what
    /// `is_shown` of the lister accepts and printable ASCII: no mark, joiner, selector, or
    /// character that is written from right to left.
    fn width(&self) -> usize;
}

impl UnicodeWidthStr for str {
    fn width(&self) -> usize {
        let mut columns = 0;
        // The vowel of Kirat Rai that the characters after the current one are equivalent to.
        let (mut vowel, mut next) = (None, '\0');
        for c in self.chars().rev() {
            let joined;
            (joined, vowel) = vowel_before(c, vowel);
            if !(joined || is_tone(c, next) || is_emoji(c, next)) {
                columns += width(c) as usize;
            }
            next = c;
        }
        columns
    }
}

/// The vowel signs of Kirat Rai.
const VOWEL_AA: char = '\u{16d63}';
const VOWEL_E: char = '\u{16d67}';
const VOWEL_AI: char = '\u{16d68}';
const VOWEL_O: char = '\u{16d69}';

/// Returns whether a vowel sign of Kirat Rai joins the one after it, and so takes no column, and
/// which vowel sign the character before it then precedes.
fn vowel_before(c: char, after: Option<char>) -> (bool, Option<char>) {
    match (c, after) {
        (VOWEL_AA | VOWEL_O, Some(VOWEL_E)) | (VOWEL_AA, Some(VOWEL_AI)) => (true, None),
        (VOWEL_E, Some(VOWEL_E)) => (true, Some(VOWEL_AI)),
        (VOWEL_AI, Some(VOWEL_E)) => (false, Some(VOWEL_E)),
        (VOWEL_E | VOWEL_AI, _) => (false, Some(c)),
        _ => (false, None),
    }
}

/// Returns whether two letters of Lisu are one sign of a tone, which takes one column.
fn is_tone(c: char, next: char) -> bool {
    ('\u{a4f8}'..='\u{a4fb}').contains(&c) && ('\u{a4fc}'..='\u{a4fd}').contains(&next)
}

/// Returns whether an emoji and a modifier of its skin tone are one emoji.
fn is_emoji(c: char, next: char) -> bool {
    is_modifier_base(c) && ('\u{1f3fb}'..='\u{1f3ff}').contains(&next)
}
