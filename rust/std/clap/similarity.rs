//! Which known words are similar to a mistyped one.

use crate::rattle_std::alloc::{AllocError, Global};
use crate::rattle_std::{Vec, vec_in};

/// Returns the known words whose similarity to this word is above 0.7, the most similar one last. Each stands between
/// its similarity and what belongs to it.
pub(super) fn similar_words<'w, T>(
    word: &str,
    known: impl Iterator<Item = (&'w str, T)>,
) -> Result<Vec<(f64, &'w str, T)>, AllocError> {
    let mut similar: Vec<(f64, &str, T)> = Vec::new(Global);
    for (candidate, item) in known {
        let similarity = jaro(word, candidate)?;
        if similarity > 0.7 {
            let place = similar.partition_point(|(other, ..)| *other <= similarity);
            similar.insert(place, (similarity, candidate, item))?;
        }
    }
    Ok(similar)
}

/// Returns the Jaro similarity of two words, from 0 if no characters match to 1 if the words are equal.
///
/// Equal characters match if they are less than half the length of the longer word apart. The similarity is the mean of
/// the share of each word that matches and of the share of the matches that are in the same order in both words.
fn jaro(first: &str, second: &str) -> Result<f64, AllocError> {
    let (first_len, second_len) = (first.chars().count(), second.chars().count());
    let reach = (first_len.max(second_len) / 2).saturating_sub(1);
    let mut is_matched = vec_in![Global; false; second_len]?;
    let mut matches = Vec::new(Global);
    for (place, character) in first.chars().enumerate() {
        let mut near = second.chars().enumerate().take(place + reach + 1).skip(place.saturating_sub(reach));
        if let Some((other, _)) = near.find(|(other, equal)| *equal == character && !is_matched[*other]) {
            is_matched[other] = true;
            matches.push(character)?;
        }
    }
    if matches.is_empty() {
        return Ok(0.0);
    }
    let in_second = second.chars().zip(&is_matched).filter(|(_, is_matched)| **is_matched);
    let pairs = matches.iter().zip(in_second);
    let moved = pairs.filter(|(one, (other, _))| *one != other).count();
    let (count, in_order) = (matches.len() as f64, (matches.len() - moved / 2) as f64);
    Ok((count / first_len as f64 + count / second_len as f64 + in_order / count) / 3.0)
}
