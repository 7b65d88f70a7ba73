//! What a program prints that runs a file's picks as one run: the sums of the counts, and the tables left.

/// The text of such a program, from the text of netrun: its lines for picks give way to one line with their sums.
pub fn summed(text: &[u8]) -> Vec<u8> {
    if text.starts_with(b"load ") {
        return text.to_vec();
    }
    let (mut added, mut taken, mut rest) = (0, 0, Vec::new());
    for line in text.split_inclusive(|byte| *byte == b'\n') {
        match counts(line) {
            Some((more, less)) => (added, taken) = (added + more, taken + less),
            None => rest.extend_from_slice(line),
        }
    }
    [format!("run {added} {taken}\n").into_bytes(), rest].concat()
}

/// The counts in a pick's line, none in another line; a refused pick has no counts.
fn counts(line: &[u8]) -> Option<(u64, u64)> {
    let line = std::str::from_utf8(line).ok()?.trim_end().strip_prefix("pick ")?;
    let mut words = line.split(' ').skip(1);
    if words.next() != Some("done") {
        return Some((0, 0));
    }
    let mut count = || words.next()?.parse().ok();
    Some((count()?, count()?))
}

#[cfg(test)]
mod tests {
    use super::summed;

    #[test]
    fn counts_are_summed_and_tables_stay() {
        let text = b"pick 0 done 1 2\npick 1 no 11\npick 2 done 3 0\ntable 1 CARD 1\nrow pick 7\n";
        assert_eq!(summed(text), b"run 4 2\ntable 1 CARD 1\nrow pick 7\n");
    }

    #[test]
    fn a_refused_file_has_its_one_line() {
        assert_eq!(summed(b"load 4 at 0\n"), b"load 4 at 0\n");
    }

    #[test]
    fn no_picks_have_sums_of_nothing() {
        assert_eq!(summed(b""), b"run 0 0\n");
    }
}
