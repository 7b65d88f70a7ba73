//! What the engine answers to a pick, and to a call that it refuses.

/// Why a file is refused (1..9), and the place of the record at fault. Of the calls' other numbers
/// 14 comes from `page` and `page_into` alone: no such table, and the place is 0. 21 comes from
/// `trace` and `picks_into`, and 22 from `page_into`, since the others lend buffers that have room:
/// the place is the length that is needed. 100 comes from `Call::on` alone, which takes picks as bytes.
#[derive(Clone, Copy, PartialEq, Eq, Debug)]
pub struct Refused {
    pub number: u8,
    pub place: usize,
}

/// What became of a pick.
#[derive(Clone, Copy, PartialEq, Eq, Debug)]
pub enum Answer {
    /// Carried out, with the rows added and taken.
    Done { added: u64, taken: u64 },
    /// Refused by this number (11..20); the net stays as it was.
    Refused(u8),
}

impl Answer {
    pub const SIZE: usize = 24;

    /// The answers in the bytes that `tivgeral_answers` puts out.
    pub fn read_all(bytes: &[u8]) -> Vec<Answer> {
        bytes.as_chunks().0.iter().map(Answer::read).collect()
    }

    /// Number, rows added and rows taken, 8 bytes each. Numbers are within a byte.
    fn read(bytes: &[u8; Answer::SIZE]) -> Answer {
        let (fields, _) = bytes.as_chunks();
        match bytes[0] {
            0 => Answer::Done {
                added: u64::from_le_bytes(fields[1]),
                taken: u64::from_le_bytes(fields[2]),
            },
            number => Answer::Refused(number),
        }
    }
}

#[cfg(test)]
mod tests {
    use super::*;

    #[test]
    fn numbers_and_counts() {
        let mut bytes = [0; 2 * Answer::SIZE];
        bytes[8..10].copy_from_slice(&[2, 1]);
        bytes[16] = 3;
        bytes[24] = 14;
        let answers = [Answer::Done { added: 258, taken: 3 }, Answer::Refused(14)];
        assert_eq!(Answer::read_all(&bytes), answers);
    }
}
