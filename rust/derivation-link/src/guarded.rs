//! Lent buffers with guards on both sides, which tell whether a call wrote outside its part.

use lyra2_reference::vectors::random::Random;
use std::ops::Range;

/// The most places of a guard.
const GUARD: u64 = 24;

/// A buffer whose middle is lent. All of it is random beforehand, so that no word can be written unseen.
pub struct Guarded<T> {
    now: Vec<T>,
    before: Vec<T>,
    lent: Range<usize>,
}

impl<T: Copy + PartialEq> Guarded<T> {
    /// A buffer that lends random contents of this length.
    pub fn random(random: &mut Random, len: usize, draw: impl Fn(&mut Random) -> T) -> Guarded<T> {
        let contents: Vec<T> = (0..len).map(|_| draw(random)).collect();
        Guarded::holding(random, &contents, draw)
    }

    /// A buffer that lends these contents. The guard before them has no fixed length, so that the lent
    /// part starts at addresses of every kind.
    pub fn holding(
        random: &mut Random,
        contents: &[T],
        draw: impl Fn(&mut Random) -> T,
    ) -> Guarded<T> {
        let start = random.between(1, GUARD) as usize;
        let mut now: Vec<T> = (0..start).map(|_| draw(random)).collect();
        now.extend_from_slice(contents);
        let lent = start..now.len();
        let after = random.between(1, GUARD);
        now.extend((0..after).map(|_| draw(random)));
        let before = now.clone();
        Guarded { now, before, lent }
    }

    /// The lent part, to read.
    pub fn lent(&self) -> &[T] {
        &self.now[self.lent.clone()]
    }

    /// The lent part, to write.
    pub fn lent_mut(&mut self) -> &mut [T] {
        &mut self.now[self.lent.clone()]
    }

    /// The first places of the lent part, once all others are found to hold what they held.
    pub fn used(&self, name: &str, count: usize) -> Result<&[T], String> {
        let end = self.lent.start + count;
        let kept = |place: usize| self.now[place] == self.before[place];
        let outside = (0..self.lent.start).chain(end..self.now.len());
        match outside.into_iter().find(|&place| !kept(place)) {
            Some(place) if place < self.lent.start => {
                let distance = self.lent.start - place;
                Err(format!("{name}: changed {distance} before its start"))
            }
            Some(place) => {
                let place = place - self.lent.start;
                Err(format!(
                    "{name}: place {place} was changed, {count} are used"
                ))
            }
            None => Ok(&self.now[self.lent.start..end]),
        }
    }
}

/// The next byte; for lent bytes.
pub fn byte(random: &mut Random) -> u8 {
    random.word() as u8
}

/// The next word; for lent words.
pub fn word(random: &mut Random) -> u64 {
    random.word()
}
