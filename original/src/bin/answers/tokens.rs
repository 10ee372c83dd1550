//! Reads the tokens of a line.

use v_frame::pixel::Pixel;

/// A value that was read, or a message about the fault of the line.
pub type Read<T> = Result<T, String>;

/// The tokens of a line that were not read yet.
pub struct Tokens<'a> {
    words: std::str::Split<'a, char>,
}

/// The side of an iterator from which an item is taken.
#[derive(Clone, Copy)]
pub enum Side {
    Front,
    Back,
}

impl<'a> Tokens<'a> {
    pub fn new(line: &'a str) -> Self {
        Tokens {
            words: line.split(' '),
        }
    }

    pub fn word(&mut self) -> Read<&'a str> {
        self.words
            .next()
            .ok_or_else(|| "a token is missing".to_string())
    }

    /// Reads a token that must be this one.
    pub fn keyword(&mut self, wanted: &str) -> Read<()> {
        let word = self.word()?;
        if word == wanted {
            Ok(())
        } else {
            Err(format!("expected {wanted}, found {word}"))
        }
    }

    /// Checks that no token is left.
    pub fn end(&mut self) -> Read<()> {
        match self.words.next() {
            None => Ok(()),
            Some(word) => Err(format!("one token too many: {word}")),
        }
    }

    pub fn number(&mut self) -> Read<u64> {
        number_of(self.word()?)
    }

    pub fn size(&mut self) -> Read<usize> {
        Ok(self.number()? as usize)
    }

    pub fn sizes<const N: usize>(&mut self) -> Read<[usize; N]> {
        let mut sizes = [0; N];
        for size in &mut sizes {
            *size = self.size()?;
        }
        Ok(sizes)
    }

    /// Reads a number, and then that number of entries.
    pub fn list<E>(&mut self, read: impl Fn(&mut Self) -> Read<E>) -> Read<Vec<E>> {
        let count = self.size()?;
        (0..count).map(|_| read(self)).collect()
    }

    pub fn pixel<T: Pixel>(&mut self) -> Read<T> {
        pixel_of(self.number()?)
    }

    /// Reads a pixel, or `-` for `None`.
    pub fn option<T: Pixel>(&mut self) -> Read<Option<T>> {
        match self.word()? {
            "-" => Ok(None),
            word => Ok(Some(pixel_of(number_of(word)?)?)),
        }
    }

    pub fn side(&mut self) -> Read<Side> {
        match self.word()? {
            "F" => Ok(Side::Front),
            "B" => Ok(Side::Back),
            other => Err(format!("unknown side: {other}")),
        }
    }

    /// Reads the source of a copy: a list, or a seed and a number of entries.
    pub fn source<T: Pixel>(&mut self) -> Read<Vec<T>> {
        match self.word()? {
            "list" => self.list(Tokens::pixel),
            "lcg" => {
                let seed = self.number()?;
                let count = self.size()?;
                Ok(congruence(seed).take(count).collect())
            }
            other => Err(format!("unknown source: {other}")),
        }
    }
}

fn number_of(word: &str) -> Read<u64> {
    if !word.is_empty() && word.bytes().all(|byte| byte.is_ascii_digit()) {
        word.parse()
            .map_err(|_| format!("not a number of 64 bits: {word}"))
    } else {
        Err(format!("not a number: {word}"))
    }
}

fn pixel_of<T: Pixel>(number: u64) -> Read<T> {
    u16::try_from(number)
        .ok()
        .and_then(|number| T::try_from(number).ok())
        .ok_or_else(|| format!("no pixel has the value {number}"))
}

/// Returns pixels from a linear congruential generator modulo 2^31. A `u16` is the upper 16 bits of a state, and a `u8` is the
/// lower half of these.
pub fn congruence<T: Pixel>(seed: u64) -> impl Iterator<Item = T> {
    let mut state = seed % (1 << 31);
    std::iter::repeat_with(move || {
        state = (1_103_515_245 * state + 12_345) % (1 << 31);
        let step = (state >> 15) as u16;
        if size_of::<T>() == 1 {
            T::from(step as u8)
        } else {
            T::try_from(step).unwrap_or_default()
        }
    })
}
