//! The threads that stand after a run.

/// A thread: its site, how many entries its stack has, and the top one, which a pick would run.
#[derive(Clone, PartialEq, Eq, Debug)]
pub struct Thread {
    pub site: u8,
    pub depth: u8,
    pub node: u8,
    pub top: Top,
}

/// What the top stack entry is.
#[derive(Clone, PartialEq, Eq, Debug)]
pub enum Top {
    /// A node to run.
    Run,
    /// A loop that has begun, with the row places still to visit.
    Loop { left: Vec<u8> },
}

impl Thread {
    pub const SIZE: usize = 24;

    /// The threads in the bytes that `tivgeral_threads` puts out.
    pub fn read_all(bytes: &[u8]) -> Vec<Thread> {
        bytes.as_chunks().0.iter().map(Thread::read).collect()
    }

    /// Site, depth, kind of the top entry, its node, four zeros, a byte for each row place.
    fn read(bytes: &[u8; Thread::SIZE]) -> Thread {
        let [site, depth, kind, node, _, _, _, _, flags @ ..] = bytes;
        let left = (0..16).zip(flags).filter(|(_, flag)| **flag == 1);
        let top = match kind {
            0 => Top::Run,
            _ => Top::Loop { left: left.map(|(place, _)| place).collect() },
        };
        Thread { site: *site, depth: *depth, node: *node, top }
    }
}

#[cfg(test)]
mod tests {
    use super::*;

    #[test]
    fn entries_to_run_and_loops() {
        let mut bytes = [0; 2 * Thread::SIZE];
        bytes[..4].copy_from_slice(&[3, 1, 0, 127]);
        bytes[24..28].copy_from_slice(&[0, 2, 1, 9]);
        bytes[33] = 1;
        bytes[47] = 1;
        let threads = [
            Thread { site: 3, depth: 1, node: 127, top: Top::Run },
            Thread { site: 0, depth: 2, node: 9, top: Top::Loop { left: vec![1, 15] } },
        ];
        assert_eq!(Thread::read_all(&bytes), threads);
    }
}
