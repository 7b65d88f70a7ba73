//! What a misspelt word may have been meant for.

/// Longer words are not compared.
const LONGEST: usize = 32;

/// The candidate that is nearest to the word, if one is near enough to be meant.
pub fn nearest<'a>(word: &str, candidates: impl Iterator<Item = &'a str>) -> Option<&'a str> {
    let apart = |candidate: &'a str| Some((distance(word, candidate)?, candidate));
    let near = candidates.filter_map(apart).filter(|(apart, _)| *apart <= allowed(word));
    near.min_by_key(|(apart, _)| *apart).map(|(_, candidate)| candidate)
}

/// Of a short word nearly every letter must be right.
fn allowed(word: &str) -> usize {
    match word.len() {
        0..=1 => 0,
        2..=5 => 1,
        _ => 2,
    }
}

/// How many letters must be put in, left out, exchanged or swapped with their neighbour; small
/// letters are as capitals. None for words that are far too long or too different in length.
fn distance(one: &str, other: &str) -> Option<usize> {
    let letters = |word: &str| word.bytes().map(|byte| byte.to_ascii_lowercase()).collect();
    let (one, other): (Vec<u8>, Vec<u8>) = (letters(one), letters(other));
    if one.len() > LONGEST || one.len().abs_diff(other.len()) > 2 {
        return None;
    }
    // Of the beginnings of `one` to each beginning of `other`, row by row.
    let mut rows: Vec<Vec<usize>> = vec![(0..=other.len()).collect()];
    for at in 1..=one.len() {
        let mut row = vec![at];
        for to in 1..=other.len() {
            let changed = usize::from(one[at - 1] != other[to - 1]);
            let mut least =
                (rows[at - 1][to - 1] + changed).min(rows[at - 1][to].min(row[to - 1]) + 1);
            let swapped =
                at > 1 && to > 1 && one[at - 1] == other[to - 2] && one[at - 2] == other[to - 1];
            if swapped {
                least = least.min(rows[at - 2][to - 2] + 1);
            }
            row.push(least);
        }
        rows.push(row);
    }
    rows.last().and_then(|row| row.last()).copied()
}

/// The question after an error, or nothing.
pub fn did_you_mean(candidate: Option<&str>) -> String {
    candidate.map_or_else(String::new, |candidate| format!("; did you mean {candidate}?"))
}

#[cfg(test)]
mod tests {
    use super::*;

    fn near(word: &str) -> Option<&'static str> {
        nearest(word, ["raise", "gather", "CARD", "p"].into_iter())
    }

    #[test]
    fn slips_are_near() {
        for slip in ["rais", "raised", "riase", "raize", "Raise"] {
            assert_eq!(near(slip), Some("raise"), "{slip}");
        }
        assert_eq!(near("gahter"), Some("gather"));
        assert_eq!(near("gatheres"), Some("gather"));
        assert_eq!(near("card"), Some("CARD"));
        assert_eq!(near("P"), Some("p"));
    }

    #[test]
    fn other_words_are_not() {
        for other in ["q", "rose", "lower", "gath", "CODE", ""] {
            assert_eq!(near(other), None, "{other}");
        }
        assert_eq!(near(&"p".repeat(1000)), None);
    }
}
