// Words of 16 hexadecimal digits, each with one byte after it, and the calls that are made of them.
use std::io::{self, Read, Write};

/// The longest list that is lent; what is past it is left out.
const LONGEST: usize = 8192;

/// The most words that follow a call's first.
const MOST: usize = 32768;

/// The calls of a text; one that is cut short or has too many words is none.
pub struct Reader<R: Read>(pub R);

impl<R: Read> Reader<R> {
    fn word(&mut self) -> Option<u64> {
        let mut unit = [0; 17];
        self.0.read_exact(&mut unit).ok()?;
        Some(unit[..16].iter().fold(0, |word, &digit| word << 4 | value_of(digit)))
    }

    /// A call's number, and its other words.
    pub fn call(&mut self) -> Option<(u64, Vec<u64>)> {
        let head = self.word()?;
        let count = Some(head as u32 as usize).filter(|&count| count <= MOST)?;
        let words: Option<Vec<u64>> = (0..count).map(|_| self.word()).collect();
        Some((head >> 32, words?))
    }
}

fn value_of(digit: u8) -> u64 {
    match digit {
        b'0'..=b'9' => u64::from(digit - b'0'),
        _ => u64::from(digit) - u64::from(b'a') + 10,
    }
}

/// A call's words, one after another; 0 past the last.
pub struct Arguments<'a>(pub &'a [u64]);

impl Arguments<'_> {
    pub fn next(&mut self) -> u64 {
        let Some((&word, rest)) = self.0.split_first() else {
            return 0;
        };
        self.0 = rest;
        word
    }

    pub fn float(&mut self) -> f64 {
        f64::from_bits(self.next())
    }
}

/// List k of a call that has several: word k is its place, and the next word the place behind it.
pub fn list(call: &[u64], k: usize) -> &[u64] {
    let place = |k: usize| call.get(k).map_or(0, |&place| place as u32 as usize);
    let end = place(k + 1).min(call.len());
    &call[place(k).min(end)..end]
}

/// A list that is lent.
pub fn lent(call: &[u64], k: usize) -> &[u64] {
    let list = list(call, k);
    &list[..list.len().min(LONGEST)]
}

/// The words of a call that has these lists.
pub fn listed(lists: &[&[u64]]) -> Vec<u64> {
    let mut place = lists.len() as u64 + 1;
    let mut words = vec![place];
    for list in lists {
        place += list.len() as u64;
        words.push(place);
    }
    words.extend(lists.concat());
    words
}

/// A call: its number above and the count of its other words below, then those.
pub fn write_call<W: Write>(out: &mut W, call: &[u64]) -> io::Result<()> {
    let mut words = call.to_vec();
    words[0] = call[0] << 32 | (call.len() - 1) as u64;
    write_line(out, &words)
}

/// A line: a space after each word but the last, and a newline after that.
pub fn write_line<W: Write>(out: &mut W, words: &[u64]) -> io::Result<()> {
    for (index, &word) in words.iter().enumerate() {
        let mut unit = [if index + 1 == words.len() { b'\n' } else { b' ' }; 17];
        for (place, digit) in unit[..16].iter_mut().enumerate() {
            *digit = b"0123456789abcdef"[(word >> (60 - 4 * place) & 15) as usize];
        }
        out.write_all(&unit)?;
    }
    Ok(())
}
