//! The model of counts, held against worked examples of document 02, No. 12.

use crate::counted::Token::{self, Tsb, V2};
use crate::counted::{self, Totals};

/// The images taken, the refused ones and the tokens stand before the counts.
const SUMS: usize = 3;
const TOKENS: usize = 197;
const V2_TOKENS: usize = 76;

const PRINT_AND_END: &[u8] = b"\x01\x08\x09\x08\x0A\0\x99:\x80\0\0\0";
const PRINT: &[u8] = b"\x01\x08\x07\x08\x0A\0\x99\0\0\0";
const CUT: &[u8] = b"\x01\x08\x07\x08\x0A\0\x99\0\x0D\x08\x14";

fn tokens(body: &[u8]) -> Vec<Token> {
    counted::tokens_of(body)
}

fn totals(images: &[&[u8]]) -> Totals {
    let mut list = Vec::new();
    for image in images {
        list.extend((image.len() as u32).to_le_bytes());
        list.extend(*image);
    }
    counted::totals(&list)
}

/// The count and the share of the V2 token at a place from 80 on.
fn v2(numbers: &[u64], token: u8) -> (u64, u64) {
    let place = SUMS + usize::from(token - 0x80);
    (numbers[place], numbers[place + TOKENS])
}

#[test]
fn quotes_and_remarks() {
    assert_eq!(tokens(b"\x99\"\x99\x64\x01\":\x80"), [V2(0x99), V2(0x80)]);
    assert_eq!(tokens(b"\x99\"\x8F\":\x80"), [V2(0x99), V2(0x80)]);
    assert_eq!(tokens(b"\x99\x8F\x99\x64\x01\"\x99"), [V2(0x99), V2(0x8F)]);
}

#[test]
fn pairs() {
    // Even a quote or 8F goes with 64; 8F is no TSB word, and a last 64 is nothing.
    let body = b"\x64\"\x99\x64\x8F\x64\x01\x64";
    assert_eq!(tokens(body), [Tsb(0x22), V2(0x99), Tsb(0x01)]);
    let body = b"\x64\xB1\x64\xB2\x64\xB3\xB1";
    assert_eq!(tokens(body), [Tsb(0x3E), Tsb(0x3D), Tsb(0x3C), V2(0xB1)]);
}

#[test]
fn data_counts_and_pi_does_not() {
    let body = b"\x83\x80,\xCB\xCC\xFF";
    assert_eq!(tokens(body), [V2(0x83), V2(0x80), V2(0xCB)]);
}

#[test]
fn a_refused_image_is_counted_apart() {
    let numbers = totals(&[PRINT, CUT, PRINT_AND_END, b"\x01"]).numbers();
    assert_eq!(numbers.len(), SUMS + 2 * TOKENS);
    assert_eq!(numbers[..SUMS], [4, 2, 3]);
    assert_eq!(v2(&numbers, 0x99), (2, 666));
    assert_eq!(v2(&numbers, 0x80), (1, 333));
    let counts = &numbers[SUMS..SUMS + TOKENS];
    assert_eq!(counts[V2_TOKENS..].iter().sum::<u64>(), 0);
    assert_eq!(counts.iter().sum::<u64>(), 3);
}

#[test]
fn shares_of_nothing_are_0() {
    let numbers = totals(&[]).numbers();
    assert!(numbers.iter().all(|&number| number == 0));
}

#[test]
fn the_1001st_image_is_too_many() {
    let most = totals(&[PRINT; 1000]);
    assert!(!most.too_many);
    assert_eq!(most.numbers()[..SUMS], [1000, 0, 1000]);
    for last in [PRINT, CUT] {
        let mut images = vec![PRINT; 1000];
        images.push(last);
        let more = totals(&images);
        assert!(more.too_many);
        assert_eq!(more.numbers(), most.numbers());
    }
}
