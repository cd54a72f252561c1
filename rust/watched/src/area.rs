//! One lent area between guard bytes, and what a run may do to it.

use compare::Prng;
use std::ops::Range;

/// How many bytes are watched before and after an area.
const GUARD: usize = 64;
/// An area is lent at one of so many places, odd ones too.
const PLACES: usize = 4096;

/// What must have become of an area.
pub enum Fate {
    /// It is as it was.
    Kept,
    /// Every byte is zero.
    Zero,
    /// It begins with these bytes, and the others are as they were.
    Begins(Vec<u8>),
}

/// An area that is lent again and again. The noise that it is filled with is made once, and each lending shows another part of
/// it, so that no more is filled and compared than is lent.
pub struct Area {
    prng: Prng,
    noise: Vec<u8>,
    now: Vec<u8>,
    lent: Range<usize>,
}

impl Area {
    /// An area of no bytes.
    pub fn new(seed: u64) -> Area {
        let mut area = Area { prng: Prng::new(seed), noise: Vec::new(), now: Vec::new(), lent: GUARD..GUARD };
        area.make_noise(PLACES);
        area
    }

    /// So many bytes of noise at a random place, for the engine.
    pub fn lend(&mut self, length: usize, prng: &mut Prng) -> &mut [u8] {
        let start = GUARD + prng.below(PLACES);
        self.lent = start..start + length;
        let watched = self.watched();
        self.make_noise(watched.end);
        self.now[watched.clone()].copy_from_slice(&self.noise[watched]);
        &mut self.now[self.lent.clone()]
    }

    /// The lent bytes and their guard.
    fn watched(&self) -> Range<usize> {
        self.lent.start - GUARD..self.lent.end + GUARD
    }

    /// Makes noise up to a place, if there is none yet. What it is does not depend on how often it was made longer.
    fn make_noise(&mut self, end: usize) {
        let made = self.noise.len();
        if made < end {
            self.noise.resize(end.next_multiple_of(PLACES), 0);
            self.prng.fill(&mut self.noise[made..]);
            self.now.resize(self.noise.len(), 0);
        }
    }

    /// Says how the area differs from its fate, if it does.
    pub fn broken(&self, fate: &Fate) -> Option<&'static str> {
        let (Range { start, end }, watched) = (self.lent.clone(), self.watched());
        let kept = |part: Range<usize>| self.now[part.clone()] == self.noise[part];
        if !kept(watched.start..start) || !kept(end..watched.end) {
            return Some("bytes around the area changed");
        }
        let bytes = &self.now[start..end];
        match fate {
            Fate::Kept => (!kept(start..end)).then_some("the area changed"),
            // Joined rather than searched: that is many bytes at a time.
            Fate::Zero => (bytes.iter().fold(0, |joined, byte| joined | byte) != 0).then_some("a byte is not zero"),
            Fate::Begins(first) if !bytes.starts_with(first) => Some("it does not begin with the result"),
            Fate::Begins(first) => (!kept(start + first.len()..end)).then_some("bytes past the result changed"),
        }
    }
}

#[cfg(test)]
mod tests {
    use super::*;

    const LENGTH: usize = 40;

    /// Is a change of one byte seen, wherever it is?
    fn sees_every_change(fate: Fate, prepare: impl Fn(&mut [u8])) {
        let (mut area, mut prng) = (Area::new(1), Prng::new(2));
        for _ in 0..5 {
            prepare(area.lend(LENGTH, &mut prng));
            assert_eq!(area.broken(&fate), None);
            for at in area.watched() {
                area.now[at] ^= 1;
                assert!(area.broken(&fate).is_some(), "byte {at}");
                area.now[at] ^= 1;
            }
        }
    }

    #[test]
    fn every_changed_byte_is_seen() {
        sees_every_change(Fate::Kept, |_| ());
        sees_every_change(Fate::Zero, |bytes| bytes.fill(0));
        sees_every_change(Fate::Begins(vec![7; 16]), |bytes| bytes[..16].fill(7));
        sees_every_change(Fate::Begins(vec![7; LENGTH]), |bytes| bytes.fill(7));
    }

    #[test]
    fn a_result_longer_than_the_area_is_seen() {
        let mut area = Area::new(1);
        area.lend(LENGTH, &mut Prng::new(2));
        assert!(area.broken(&Fate::Begins(vec![0; LENGTH + 1])).is_some());
    }

    #[test]
    fn the_noise_is_the_same_however_the_area_grew() {
        let (mut at_once, mut by_steps) = (Area::new(1), Area::new(1));
        for length in [1000, 5000, 9001] {
            by_steps.lend(length, &mut Prng::new(3));
        }
        assert_eq!(at_once.lend(20_000, &mut Prng::new(4)), by_steps.lend(20_000, &mut Prng::new(4)));
    }
}
