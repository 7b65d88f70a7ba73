//! The scheduler's picks.

/// A choice of a thread place and a row place.
#[derive(Clone, Copy, PartialEq, Eq, Debug)]
pub struct Pick {
    pub thread: u8,
    pub row: u8,
}

impl Pick {
    pub const SIZE: usize = 2;

    /// The picks in the bytes that `tivgeral_picks` puts out.
    pub fn read_all(bytes: &[u8]) -> Vec<Pick> {
        let picks: &[[u8; Pick::SIZE]] = bytes.as_chunks().0;
        picks.iter().map(|[thread, row]| Pick { thread: *thread, row: *row }).collect()
    }
}

#[cfg(test)]
mod tests {
    use super::*;

    #[test]
    fn threads_and_rows() {
        let picks = [Pick { thread: 4, row: 255 }, Pick { thread: 0, row: 1 }];
        assert_eq!(Pick::read_all(&[4, 255, 0, 1]), picks);
        assert_eq!(Pick::read_all(&[]), []);
    }
}
