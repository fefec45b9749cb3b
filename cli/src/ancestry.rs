//! `tirfolma ancestry`: an item, its parent, and so on up to genesis.

use crate::args::{number, Call};
use crate::audit::answered;
use crate::board::Item;
use crate::files::Files;
use crate::json::{array, Object};
use crate::library::header::*;
use crate::library::{self, Answer, Refusal, Tables};
use crate::output::{about, finish, Status};
use crate::times::date;
use crate::types::name;
use std::path::Path;

pub fn run(call: &Call) -> Result<Status, String> {
    let item = number("ITEM", &call.operands[1])?;
    let files = Files::of(Path::new(&call.operands[0])).map_err(|e| about(&e))?;
    let mut tables = Tables::default();
    let listed = match files.size_refusal() {
        Some(refusal) => Err(refusal),
        None => library::ancestry(files.words(), item, &mut tables),
    };
    let (text, status) = match listed {
        Ok(numbers) => (list(&numbers, &files, &tables, call.has("--json")), Status::Good),
        Err(refusal) => (refused(refusal, call.has("--json")), Status::Refused),
    };
    Ok(finish(&text, status))
}

fn list(numbers: &[u32], files: &Files, tables: &Tables, json: bool) -> String {
    // The index table of an accepted board has a row for each item.
    let item = |number: u32| {
        let place = tables.index[TIRFOLMA_INDEX_ROW_WORDS * (number as usize - 1) + TIRFOLMA_ROW_PLACE];
        Item::at(&files.board.words, place as usize).expect("an accepted board has its items whole")
    };
    if !json {
        let line = |&number: &u32| format!("{number} {} {}\n", name(item(number).code()), date(item(number).time()));
        return numbers.iter().map(line).collect();
    }
    let object = |&number: &u32| {
        let item = item(number);
        Object::new()
            .number("item", number)
            .number("code", item.code())
            .text("type", &name(item.code()))
            .number("time", item.time())
            .text("date", &date(item.time()))
            .end()
    };
    Object::new().text("answer", "listed").value("list", &array(numbers.iter().map(object))).end() + "\n"
}

fn refused(refusal: Refusal, json: bool) -> String {
    match json {
        true => {
            Object::new()
                .text("answer", "refused")
                .number("number", refusal.number)
                .number("passed", refusal.items)
                .end()
                + "\n"
        }
        false => answered(Answer::Refused(refusal)) + "\n",
    }
}
