//! The calls that other programs make. Both give how many bytes they put out.

#[cfg(feature = "proved")]
use embed::Call;

#[cfg(not(feature = "proved"))]
enum Call {
    Tables,
    Answers,
}

#[cfg(not(feature = "proved"))]
impl Call {
    fn on(self, _: &[u8], _: &[u8], _: &mut [u8]) -> (u8, usize) {
        unreachable!("the proved code is not linked")
    }
}

pub fn answers(file: &[u8], picks: &[u8], out: &mut [u8]) -> usize {
    made(Call::Answers, file, picks, out)
}

pub fn tables(file: &[u8], picks: &[u8], out: &mut [u8]) -> usize {
    made(Call::Tables, file, picks, out)
}

fn made(call: Call, file: &[u8], picks: &[u8], out: &mut [u8]) -> usize {
    let (number, place) = call.on(file, picks, out);
    assert_eq!(number, 0, "a file that loads, and a buffer with room");
    place
}
