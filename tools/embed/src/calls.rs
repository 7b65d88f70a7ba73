//! The calls of the library, each behind a safe function. The only unsafe code is here.
#![allow(unsafe_code)]

use crate::{Answer, Pick, Refused, Thread, PAGE_BYTES, PICKS_BYTES, TABLES_BYTES, THREADS_BYTES};

/// Declares calls of the library that have one signature.
macro_rules! declared {
    ($($name:ident),*) => {
        extern "C" {
            $(fn $name(
                file: *const u8,
                file_length: usize,
                picks: *const u8,
                picks_length: usize,
                out: *mut u8,
                out_length: usize,
                place: *mut usize,
            ) -> u8;)*
        }
    };
}

declared!(tivgeral_tables, tivgeral_answers, tivgeral_threads);

extern "C" {
    fn tivgeral_trace(
        file: *const u8,
        file_length: usize,
        picks: *const u8,
        picks_length: usize,
        from: usize,
        out: *mut u8,
        out_length: usize,
        place: *mut usize,
    ) -> u8;

    fn tivgeral_page(
        file: *const u8,
        file_length: usize,
        picks: *const u8,
        picks_length: usize,
        site: u8,
        name: u32,
        out: *mut u8,
        out_length: usize,
        place: *mut usize,
    ) -> u8;

    fn tivgeral_picks(
        file: *const u8,
        file_length: usize,
        out: *mut u8,
        out_length: usize,
        place: *mut usize,
    ) -> u8;
}

/// A call of `include/tivgeral.h` that tells of the net after all picks, or of the picks.
#[derive(Clone, Copy, PartialEq, Eq, Debug)]
pub enum Call {
    Tables,
    Answers,
    Threads,
    /// The table of this name, which has blanks at its end where it is shorter.
    Page {
        site: u8,
        name: [u8; 4],
    },
}

impl Call {
    /// Makes the call with any bytes and a buffer of any length: its number, and the place, which
    /// is how many bytes it put into the buffer where the number is 0.
    pub fn on(self, file: &[u8], picks: &[u8], out: &mut [u8]) -> (u8, usize) {
        let call = match self {
            Call::Tables => tivgeral_tables,
            Call::Answers => tivgeral_answers,
            Call::Threads => tivgeral_threads,
            Call::Page { site, name } => return page_on(file, picks, site, name, out),
        };
        let (f, p, o) = (file.as_ptr(), picks.as_ptr(), out.as_mut_ptr());
        let mut place = 0;
        // SAFETY: each pointer goes with the length of its own slice, and the call keeps none.
        let number = unsafe { call(f, file.len(), p, picks.len(), o, out.len(), &mut place) };
        (number, place)
    }

    /// Lends a buffer of so many bytes, which is room for all that the call can put out, and gives
    /// back what it put there.
    fn lent(self, file: &[u8], picks: &[Pick], room: usize) -> Result<Vec<u8>, Refused> {
        let picks = pick_bytes(picks);
        let mut out = vec![0; room];
        let (number, place) = self.on(file, &picks, &mut out);
        out.truncate(length(number, place)?);
        Ok(out)
    }
}

fn page_on(file: &[u8], picks: &[u8], site: u8, name: [u8; 4], out: &mut [u8]) -> (u8, usize) {
    let (f, p, o) = (file.as_ptr(), picks.as_ptr(), out.as_mut_ptr());
    let name = u32::from_be_bytes(name);
    let mut place = 0;
    // SAFETY: each pointer goes with the length of its own slice, and the call keeps none.
    let number = unsafe {
        tivgeral_page(f, file.len(), p, picks.len(), site, name, o, out.len(), &mut place)
    };
    (number, place)
}

fn pick_bytes(picks: &[Pick]) -> Vec<u8> {
    picks.iter().flat_map(|pick| [pick.thread, pick.row]).collect()
}

/// The table and row records of the net after all picks, which load again.
pub fn tables(file: &[u8], picks: &[Pick]) -> Result<Vec<u8>, Refused> {
    Call::Tables.lent(file, picks, TABLES_BYTES)
}

/// An answer for each pick.
pub fn answers(file: &[u8], picks: &[Pick]) -> Result<Vec<Answer>, Refused> {
    let bytes = Call::Answers.lent(file, picks, Answer::SIZE * picks.len())?;
    Ok(Answer::read_all(&bytes))
}

/// The threads that stand after all picks, by place.
pub fn threads(file: &[u8], picks: &[Pick]) -> Result<Vec<Thread>, Refused> {
    let bytes = Call::Threads.lent(file, picks, THREADS_BYTES)?;
    Ok(Thread::read_all(&bytes))
}

/// The page of one table that stands after all picks: a line of `LINE_BYTES` for each row, and one
/// with the sum of each Int column. The header says what a line has. A table that is not there is
/// refused by 14; its name has blanks at its end where it is shorter than four characters.
pub fn page(file: &[u8], picks: &[Pick], site: u8, name: [u8; 4]) -> Result<Vec<u8>, Refused> {
    Call::Page { site, name }.lent(file, picks, PAGE_BYTES)
}

/// Puts that page into the buffer, and gives back how many bytes it put there. A buffer that is too
/// short is refused by 22, and the place is the length that is needed. One of `PAGE_BYTES` has room
/// for any page.
pub fn page_into(
    file: &[u8],
    picks: &[Pick],
    site: u8,
    name: [u8; 4],
    out: &mut [u8],
) -> Result<usize, Refused> {
    let (number, place) = Call::Page { site, name }.on(file, &pick_bytes(picks), out);
    length(number, place)
}

/// Puts moments into the buffer, which `Moment::all` reads: the net after the first `from` picks
/// (after all of them, where there are fewer), and then after each further one, as many as there is
/// room for. Gives back how many bytes it put there. A buffer that is too short for the first
/// moment is refused by 21, and the place is then the length of the first moment. One of
/// `MOMENT_BYTES` has room for any moment.
///
/// To trace a long list in pieces, call again with `from` raised by the number of moments that came
/// back. There are `picks.len() + 1` moments in all: stop once `from` is above `picks.len()`.
pub fn trace(file: &[u8], picks: &[Pick], from: usize, out: &mut [u8]) -> Result<usize, Refused> {
    let picks = pick_bytes(picks);
    let (f, p, o) = (file.as_ptr(), picks.as_ptr(), out.as_mut_ptr());
    let mut place = 0;
    // SAFETY: each pointer goes with the length of its own slice, and the call keeps none.
    let number =
        unsafe { tivgeral_trace(f, file.len(), p, picks.len(), from, o, out.len(), &mut place) };
    length(number, place)
}

/// The picks that the file has itself. The other calls run those that they are given.
pub fn picks(file: &[u8]) -> Result<Vec<Pick>, Refused> {
    let mut out = [0; PICKS_BYTES];
    let put = picks_into(file, &mut out)?;
    Ok(Pick::read_all(&out[..put]))
}

/// Puts the file's own picks into the buffer, two bytes each, and gives back how many bytes it put
/// there. A buffer that is too short is refused by 21, and the place is the length that is needed.
/// One of `PICKS_BYTES` has room for the picks of any file.
pub fn picks_into(file: &[u8], out: &mut [u8]) -> Result<usize, Refused> {
    let (f, o) = (file.as_ptr(), out.as_mut_ptr());
    let mut place = 0;
    // SAFETY: each pointer goes with the length of its own slice, and the call keeps none.
    let number = unsafe { tivgeral_picks(f, file.len(), o, out.len(), &mut place) };
    length(number, place)
}

/// How many bytes a call put, by its number and place.
fn length(number: u8, place: usize) -> Result<usize, Refused> {
    match number {
        0 => Ok(place),
        number => Err(Refused { number, place }),
    }
}
