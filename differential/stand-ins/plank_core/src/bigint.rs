//! The value of a row of digits, as limbs of 32 bits, least first, with no top zero.
//! Underscores are passed over. The digits are those that the lexer let through.

use crate::{Idx, list_of_lists::ListOfLists};
use hooks::{Call, tell};

pub fn from_radix10_in<I: Idx>(digits: &str, lists: &mut ListOfLists<I, u32>) -> I {
    keep(limbs(digits, 10), lists)
}

pub fn from_radix16_in<I: Idx>(digits: &str, lists: &mut ListOfLists<I, u32>) -> I {
    keep(limbs(digits, 16), lists)
}

pub fn from_radix2_in<I: Idx>(digits: &str, lists: &mut ListOfLists<I, u32>) -> I {
    keep(limbs(digits, 2), lists)
}

fn keep<I: Idx>(limbs: Vec<u32>, lists: &mut ListOfLists<I, u32>) -> I {
    tell(Call::Number(&limbs));
    lists.push(limbs)
}

fn limbs(digits: &str, radix: u32) -> Vec<u32> {
    let mut limbs = Vec::new();
    for digit in digits.chars().filter(|digit| *digit != '_') {
        let digit = digit.to_digit(radix).expect("a digit of its radix");
        multiply_add(&mut limbs, radix, digit);
    }
    limbs
}

fn multiply_add(limbs: &mut Vec<u32>, factor: u32, summand: u32) {
    let mut carry = u64::from(summand);
    for limb in limbs.iter_mut() {
        carry += u64::from(*limb) * u64::from(factor);
        *limb = carry as u32;
        carry >>= 32;
    }
    if carry > 0 {
        limbs.push(carry as u32);
    }
}
