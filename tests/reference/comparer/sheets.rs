//! Pairings and sheets. (docs/SHEETS.md)

use super::models::Model;

/// Says of a left state and a right state whether the pair stands. Out of range nothing stands.
pub trait Pairing {
    fn stands(&self, s: usize, t: usize) -> bool;

    /// The lowest right state from `from` on and below `below` that stands with s.
    #[inline]
    fn next(&self, s: usize, from: usize, below: usize) -> Option<usize> {
        (from..below).find(|&t| self.stands(s, t))
    }
}

impl<P: Pairing + ?Sized> Pairing for &P {
    #[inline]
    fn stands(&self, s: usize, t: usize) -> bool {
        (**self).stands(s, t)
    }
    #[inline]
    fn next(&self, s: usize, from: usize, below: usize) -> Option<usize> {
        (**self).next(s, from, below)
    }
}

/// A pairing with its sides exchanged.
#[derive(Clone, Copy)]
pub struct Flipped<P>(pub P);

impl<P: Pairing> Pairing for Flipped<P> {
    #[inline]
    fn stands(&self, s: usize, t: usize) -> bool {
        self.0.stands(t, s)
    }
}

/// A third model beside a pairing: (s, u) stands with (t, v) when s stands with t and u is v.
/// States are numbered as in a merge whose right model is the third one.
#[derive(Clone, Copy)]
pub struct Beside<P> {
    pairing: P,
    third_states: usize,
}

impl<P: Pairing> Beside<P> {
    pub fn new<M: Model>(pairing: P, third: &M) -> Beside<P> {
        Beside { pairing, third_states: third.states() }
    }
}

impl<P: Pairing> Pairing for Beside<P> {
    #[inline]
    fn stands(&self, s: usize, t: usize) -> bool {
        let n = self.third_states;
        // Beside an empty model nothing stands.
        n > 0 && s % n == t % n && self.pairing.stands(s / n, t / n)
    }
}

/// Pairs kept as bits: (s, t) is bit i mod 8 of byte i ÷ 8, where i = s × columns + t.
/// A blank sheet is 0 by 0.
pub struct Sheet<B> {
    bytes: B,
    rows: usize,
    columns: usize,
}

impl<B: AsRef<[u8]> + AsMut<[u8]>> Sheet<B> {
    /// Clears exactly the bytes that the pairs need. Where a model is empty or the bytes are too few, the
    /// sheet is blank and the bytes stay.
    pub fn open<L: Model, R: Model>(mut bytes: B, left: &L, right: &R) -> Sheet<B> {
        let (rows, columns) = (left.states(), right.states());
        let need = (rows * columns + 7) / 8;
        if need == 0 || bytes.as_ref().len() < need {
            return Sheet { bytes, rows: 0, columns: 0 };
        }
        bytes.as_mut()[..need].fill(0);
        Sheet { bytes, rows, columns }
    }

    pub fn rows(&self) -> usize {
        self.rows
    }

    pub fn columns(&self) -> usize {
        self.columns
    }

    pub fn is_blank(&self) -> bool {
        self.rows == 0
    }

    /// All bytes lent, those that no pair needs too.
    pub fn bytes(&self) -> &[u8] {
        self.bytes.as_ref()
    }

    fn bit(&self, s: usize, t: usize) -> (usize, u8) {
        let index = s * self.columns + t;
        (index / 8, 1 << (index % 8))
    }

    /// Puts the pair on the sheet: 31 blank, 21 out of range, 32 it stands already.
    pub fn pair(&mut self, s: usize, t: usize) -> Result<(), u8> {
        self.within(s, t)?;
        if self.stands(s, t) {
            return Err(32);
        }
        let (byte, bit) = self.bit(s, t);
        self.bytes.as_mut()[byte] |= bit;
        Ok(())
    }

    /// Takes the pair off the sheet: 31 blank, 21 out of range, 33 it does not stand.
    pub fn unpair(&mut self, s: usize, t: usize) -> Result<(), u8> {
        self.within(s, t)?;
        if !self.stands(s, t) {
            return Err(33);
        }
        let (byte, bit) = self.bit(s, t);
        self.bytes.as_mut()[byte] &= !bit;
        Ok(())
    }

    fn within(&self, s: usize, t: usize) -> Result<(), u8> {
        if self.is_blank() {
            return Err(31);
        }
        if s >= self.rows || t >= self.columns {
            return Err(21);
        }
        Ok(())
    }
}

impl<B: AsRef<[u8]> + AsMut<[u8]>> Pairing for Sheet<B> {
    #[inline]
    fn stands(&self, s: usize, t: usize) -> bool {
        if s >= self.rows || t >= self.columns {
            return false;
        }
        let (byte, bit) = self.bit(s, t);
        self.bytes.as_ref()[byte] & bit != 0
    }

    /// Passes the rest of a byte at once where it is 0.
    fn next(&self, s: usize, from: usize, below: usize) -> Option<usize> {
        let below = below.min(self.columns);
        if s >= self.rows || from >= below {
            return None;
        }
        let bytes = self.bytes.as_ref();
        let (mut index, end) = (s * self.columns + from, s * self.columns + below);
        while index < end {
            let rest = bytes[index / 8] >> (index % 8);
            if rest == 0 {
                index = (index / 8 + 1) * 8;
                continue;
            }
            index += rest.trailing_zeros() as usize;
            return if index < end { Some(index - s * self.columns) } else { None };
        }
        None
    }
}
