//! A hash table of names with open addressing, at most half full.

use crate::arena::Arena;

#[derive(Default)]
pub struct Names {
    names: Arena,
    /// As many as a power of two.
    slots: Vec<Slot>,
}

#[derive(Clone, Copy, Default)]
struct Slot {
    hash: u32,
    /// The name's number plus one; 0 where the slot is free.
    number: u32,
}

const FIRST_SLOTS: usize = 128;

impl Names {
    #[inline]
    pub fn number(&mut self, name: &[u8]) -> u32 {
        if self.slots.len() <= 2 * self.names.len() {
            self.grow();
        }
        let hash = hash(name);
        let mut at = hash as usize & (self.slots.len() - 1);
        loop {
            let slot = self.slots[at];
            if slot.number == 0 {
                let number = self.names.put(name);
                self.slots[at] = Slot { hash, number: number + 1 };
                return number;
            }
            if slot.hash == hash && self.names.get(slot.number - 1) == name {
                return slot.number - 1;
            }
            at = (at + 1) & (self.slots.len() - 1);
        }
    }

    pub fn name(&self, number: u32) -> &[u8] {
        self.names.get(number)
    }

    #[cold]
    fn grow(&mut self) {
        let length = (4 * self.slots.len()).max(FIRST_SLOTS);
        let old = std::mem::replace(&mut self.slots, vec![Slot::default(); length]);
        for slot in old.into_iter().filter(|slot| slot.number != 0) {
            let mut at = slot.hash as usize & (length - 1);
            while self.slots[at].number != 0 {
                at = (at + 1) & (length - 1);
            }
            self.slots[at] = slot;
        }
    }
}

/// Words multiplied and folded, as in the fast hashes for compilers. Short names are read as two
/// words that may overlap.
#[inline]
fn hash(name: &[u8]) -> u32 {
    const FACTOR: u64 = 0x9e37_79b9_7f4a_7c15;
    let length = name.len();
    let mix = |hash: u64, word: u64| (hash.rotate_left(23) ^ word).wrapping_mul(FACTOR);
    let mut hash = length as u64;
    if let (Some(first), Some(last)) = (name.first_chunk(), name.last_chunk()) {
        for chunk in name[8..].chunks_exact(8) {
            hash = mix(hash, u64::from_le_bytes(chunk.try_into().expect("eight bytes")));
        }
        hash = mix(mix(hash, u64::from_le_bytes(*first)), u64::from_le_bytes(*last));
    } else if let (Some(first), Some(last)) = (name.first_chunk(), name.last_chunk()) {
        let word = u64::from(u32::from_le_bytes(*first)) << 32;
        hash = mix(hash, word | u64::from(u32::from_le_bytes(*last)));
    } else if length > 0 {
        let [first, middle, last] = [0, length / 2, length - 1].map(|at| u64::from(name[at]));
        hash = mix(hash, first << 16 | middle << 8 | last);
    }
    (hash >> 32) as u32
}
