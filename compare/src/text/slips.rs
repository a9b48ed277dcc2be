//! Words that are nearly right.

use super::{PROPOSAL, VOTE, WORDS};

/// The words that the lines of an opening start with.
pub const OPENING_WORDS: [&str; 3] = ["offices", "trusted", "leaders"];

/// The words of the steps.
pub fn step_words() -> impl Iterator<Item = &'static str> {
    WORDS[1..].iter().map(|&(word, _)| word)
}

/// A word that a line of a text can start with.
pub fn is_word(word: &str) -> bool {
    OPENING_WORDS.contains(&word) || step_words().any(|step| step == word)
}

/// The same with slips of the pen.
pub fn is_nearly_a_word(word: &str) -> bool {
    let mut words = OPENING_WORDS.into_iter().chain(step_words());
    words.any(|right| is_near(word, right))
}

/// The step that was meant.
pub fn meant_step(word: &str) -> Option<&'static str> {
    nearest(word, step_words())
}

/// The kind of message that was meant.
pub fn meant_kind(word: &str) -> Option<&'static str> {
    nearest(word, [PROPOSAL, VOTE].into_iter())
}

fn nearest(word: &str, words: impl Iterator<Item = &'static str>) -> Option<&'static str> {
    let near = words.filter(|right| is_near(word, right));
    near.min_by_key(|right| slips(&word.to_lowercase(), right))
}

/// One slip for each three letters of the right word, or its beginning.
fn is_near(word: &str, right: &str) -> bool {
    let word = word.to_lowercase();
    let begins = word.len() >= 3 && right.starts_with(&word);
    // A far longer word need not be measured.
    let in_reach = word.len() <= 2 * right.len();
    begins || in_reach && slips(&word, right) <= right.len() / 3
}

/// How many letters have to be put in, left out or changed to get from one word
/// to the other; two neighbours that changed places are one slip.
fn slips(word: &str, right: &str) -> usize {
    let (word, right): (Vec<char>, Vec<char>) = (word.chars().collect(), right.chars().collect());
    let mut table = vec![vec![0; right.len() + 1]; word.len() + 1];
    for i in 0..=word.len() {
        for j in 0..=right.len() {
            table[i][j] = match (i, j) {
                (0, _) => j,
                (_, 0) => i,
                _ => {
                    let changed = usize::from(word[i - 1] != right[j - 1]);
                    let least = (table[i - 1][j] + 1).min(table[i][j - 1] + 1);
                    let least = least.min(table[i - 1][j - 1] + changed);
                    let swapped = i > 1
                        && j > 1
                        && word[i - 1] == right[j - 2]
                        && word[i - 2] == right[j - 1];
                    match swapped {
                        true => least.min(table[i - 2][j - 2] + 1),
                        false => least,
                    }
                }
            };
        }
    }
    table[word.len()][right.len()]
}
