//! A buffer that a call writes a file to, with bytes around it that no call may touch.

use crate::random::Random;
use crate::refusal::Refusal;

/// How many bytes stand before and after a lent buffer, at the least.
pub const MARGIN: usize = 16;

/// A buffer between its margins, and the number that receives the file's length.
#[derive(Clone, Debug)]
struct Buffer {
    bytes: Vec<u8>,
    /// Where the lent bytes start.
    start: usize,
    length: u32,
}

impl Buffer {
    /// A buffer of so many bytes at any address, all of it with random content.
    fn draw(random: &mut Random, room: usize) -> Buffer {
        let start = MARGIN + random.index(MARGIN);
        let whole = start + room + MARGIN;
        let words = std::iter::repeat_with(|| random.bits().to_le_bytes());
        let mut bytes: Vec<u8> = words.take(whole.div_ceil(8)).flatten().collect();
        bytes.truncate(whole);
        Buffer {
            bytes,
            start,
            length: random.word(),
        }
    }

    /// What an answer leaves: the file at the front, and its length.
    fn hold(&mut self, file: &[u8]) {
        self.bytes[self.start..][..file.len()].copy_from_slice(file);
        self.length = file.len() as u32;
    }

    /// Where it is not as expected.
    fn difference(&self, expected: &Buffer) -> Result<(), String> {
        if self.length != expected.length {
            let (is, should) = (self.length, expected.length);
            return Err(format!("the length is {is}, expected {should}"));
        }
        let mut pairs = self.bytes.iter().zip(&expected.bytes);
        let Some(at) = pairs.position(|(is, should)| is != should) else {
            return Ok(());
        };
        let (is, should) = (self.bytes[at], expected.bytes[at]);
        let place = at as isize - self.start as isize;
        Err(format!("byte {place} is {is}, expected {should}"))
    }
}

/// Makes a call that writes a file and its length, with a buffer of so many bytes. It
/// gives the call's number; an error tells how that or the bytes are not as expected.
pub fn compare(
    random: &mut Random,
    room: usize,
    call: impl FnOnce(&mut [u8], &mut u32) -> u32,
    expected: Result<Vec<u8>, Refusal>,
) -> Result<u32, String> {
    let mut left = Buffer::draw(random, room);
    let mut lent = left.clone();
    let out = &mut lent.bytes[lent.start..][..room];
    let answer = call(out, &mut lent.length);
    let number = match expected {
        Ok(file) => {
            left.hold(&file);
            0
        }
        Err(refusal) => refusal.number(),
    };
    let told = |why| format!("in {room} bytes {why}");
    if answer != number {
        return Err(told(format!("answered {answer}, expected {number}")));
    }
    lent.difference(&left).map_err(told)?;
    Ok(answer)
}
