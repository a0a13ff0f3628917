//! The value of a row of digits, as limbs of 32 bits, least first, with no top zero.
//! Underscores are passed over. The digits are those that the lexer let through.

use crate::{Idx, list_of_lists::ListOfLists};

pub fn from_radix10_in<I: Idx>(digits: &str, lists: &mut ListOfLists<I, u32>) -> I {
    lists.push_with(|limbs| put_decimal(digits.as_bytes(), limbs))
}

pub fn from_radix16_in<I: Idx>(digits: &str, lists: &mut ListOfLists<I, u32>) -> I {
    lists.push_with(|limbs| put_bits::<4>(digits.as_bytes(), limbs))
}

pub fn from_radix2_in<I: Idx>(digits: &str, lists: &mut ListOfLists<I, u32>) -> I {
    lists.push_with(|limbs| put_bits::<1>(digits.as_bytes(), limbs))
}

/// As many decimal digits as always fit into 64 bits, and their power of ten.
const CHUNK: u32 = 19;
const CHUNK_POWER: u64 = 10_u64.pow(CHUNK);

/// Digits are gathered into chunks, and what came before is multiplied once a chunk.
fn put_decimal(digits: &[u8], limbs: &mut Vec<u32>) {
    let mut wide: Vec<u64> = Vec::new();
    let (mut chunk, mut count) = (0_u64, 0);
    for digit in digits.iter().filter(|digit| **digit != b'_') {
        if count == CHUNK {
            multiply_add(&mut wide, CHUNK_POWER, chunk);
            (chunk, count) = (0, 0);
        }
        chunk = chunk * 10 + u64::from(digit - b'0');
        count += 1;
    }
    if wide.is_empty() {
        return put_halves(&[chunk], limbs);
    }
    multiply_add(&mut wide, 10_u64.pow(count), chunk);
    put_halves(&wide, limbs);
}

fn multiply_add(wide: &mut Vec<u64>, factor: u64, summand: u64) {
    let mut carry = summand;
    for limb in wide.iter_mut() {
        let product = u128::from(*limb) * u128::from(factor) + u128::from(carry);
        *limb = product as u64;
        carry = (product >> 64) as u64;
    }
    if carry > 0 {
        wide.push(carry);
    }
}

fn put_halves(wide: &[u64], limbs: &mut Vec<u32>) {
    let start = limbs.len();
    limbs.extend(wide.iter().flat_map(|limb| [*limb as u32, (limb >> 32) as u32]));
    cut_top_zeros(limbs, start);
}

/// Digits of so many bits, from the last to the first.
fn put_bits<const BITS: u32>(digits: &[u8], limbs: &mut Vec<u32>) {
    let start = limbs.len();
    let (mut limb, mut filled) = (0, 0);
    for digit in digits.iter().rev().filter(|digit| **digit != b'_') {
        limb |= digit_value(*digit) << filled;
        filled += BITS;
        if filled == u32::BITS {
            limbs.push(limb);
            (limb, filled) = (0, 0);
        }
    }
    limbs.push(limb);
    cut_top_zeros(limbs, start);
}

/// Letters, large and small, have bit 6, and 1 to 6 in the four lowest.
fn digit_value(digit: u8) -> u32 {
    u32::from((digit & 15) + 9 * (digit >> 6))
}

fn cut_top_zeros(limbs: &mut Vec<u32>, start: usize) {
    while limbs.len() > start && limbs.last() == Some(&0) {
        limbs.pop();
    }
}
