//! The items of an accepted board, told from its words by the papers; the file of each test that takes it has `widths` beside it.
#![allow(dead_code)]

use crate::widths::Widths;
use reference::format::{code, count, kind, CLOSING, MAIN};

#[derive(Clone)]
pub struct Item {
    pub code: u32,
    /// Its main number, if it has one.
    pub main: Option<u32>,
    pub time: u64,
    pub address: Vec<u32>,
    /// Signature and address.
    pub receipt: Vec<u32>,
    /// The place behind it.
    pub end: usize,
}

pub fn items(board: &[u32]) -> Vec<Item> {
    let (widths, mut place, mut mains, mut found) = (Widths::of(board), 0, 0, Vec::new());
    while kind(board[place]) != CLOSING {
        let (head, end) = (board[place], place + count(board[place]) + widths.frame());
        let is_main = kind(head) == MAIN;
        mains += u32::from(is_main);
        let (address, receipt) = (end - widths.address, end - widths.address - widths.signature);
        found.push(Item {
            code: code(head),
            main: is_main.then_some(mains),
            time: u64::from(board[receipt - 2]) << 32 | u64::from(board[receipt - 1]),
            address: board[address..end].to_vec(),
            receipt: board[receipt..end].to_vec(),
            end,
        });
        place = end;
    }
    found
}
