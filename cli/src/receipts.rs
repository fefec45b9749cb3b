//! `tirfolma receipts`: for each receipt of a file the main number of its cast.

use crate::args::Call;
use crate::beside::Beside;
use crate::explain::What;
use crate::json::{array, Object};
use crate::library::{self, Tables};
use crate::output::{finish, Status};

pub fn run(call: &Call) -> Result<Status, String> {
    let receipts = Beside::of(call, What::Receipts)?;
    let casts = match receipts.size_refusal() {
        Some(refusal) => Err(refusal),
        None => library::receipts(receipts.files.words(), receipts.words(), &mut Tables::default()),
    };
    let json = call.has("--json");
    let (text, status) = match casts {
        Ok(casts) => (list(&casts, json), status(&casts)),
        Err(refusal) => (receipts.refused(refusal, json), Status::Refused),
    };
    Ok(finish(&text, status))
}

fn status(casts: &[Option<u32>]) -> Status {
    match casts.iter().all(Option::is_some) {
        true => Status::Good,
        false => Status::Refused,
    }
}

fn list(casts: &[Option<u32>], json: bool) -> String {
    let numbered = (1u64..).zip(casts.iter().copied());
    if !json {
        let main = |cast: Option<u32>| cast.map_or("none".to_string(), |main| main.to_string());
        return numbered.map(|(number, cast)| format!("{number} {}\n", main(cast))).collect();
    }
    let object =
        |(number, cast): (u64, Option<u32>)| Object::new().number("receipt", number).number_or_null("main", cast).end();
    Object::new().text("answer", "answered").value("list", &array(numbered.map(object))).end() + "\n"
}
