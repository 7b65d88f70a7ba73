//! The calls that a trace asks its engine.

use embed::{Answer, Pick, Refused};

/// What a file and a list of picks come to.
pub trait Calls {
    /// The file's own picks.
    fn picks(&self, file: &[u8]) -> Result<Vec<Pick>, Refused>;

    fn answers(&self, file: &[u8], picks: &[Pick]) -> Result<Vec<Answer>, Refused>;

    /// Puts the net after the first `from` picks and after each further one into the buffer, as
    /// many as there is room for, and gives back how many bytes it put there.
    fn trace(
        &self,
        file: &[u8],
        picks: &[Pick],
        from: usize,
        out: &mut [u8],
    ) -> Result<usize, Refused>;
}

/// The proved engine.
#[cfg(feature = "proved")]
pub struct Proved;

#[cfg(feature = "proved")]
impl Calls for Proved {
    fn picks(&self, file: &[u8]) -> Result<Vec<Pick>, Refused> {
        embed::picks(file)
    }

    fn answers(&self, file: &[u8], picks: &[Pick]) -> Result<Vec<Answer>, Refused> {
        embed::answers(file, picks)
    }

    fn trace(
        &self,
        file: &[u8],
        picks: &[Pick],
        from: usize,
        out: &mut [u8],
    ) -> Result<usize, Refused> {
        embed::trace(file, picks, from, out)
    }
}
