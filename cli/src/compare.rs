//! `tirfolma compare`: a kept board held against a later one.

use crate::args::{number, Call};
use crate::files::Files;
use crate::format::{Curve, Format};
use crate::json::Object;
use crate::library::{self, Answer, Comparison, Refusal, Tables};
use crate::output::{about, finish, Status};
use std::path::Path;

pub fn run(call: &Call) -> Result<Status, String> {
    let main = call.operands.get(2).map(|word| number("MAIN", word)).transpose()?;
    let kept = Files::of(Path::new(&call.operands[0])).map_err(|e| about(&e))?;
    let later = Files::of(Path::new(&call.operands[1])).map_err(|e| about(&e))?;
    let (main, comparison) = compare(&kept, &later, main);
    let curves = [&kept, &later].map(|files| Format::of(&files.board.words).curve);
    let text = if call.has("--json") { object(main, comparison, curves) } else { line(comparison) };
    let status = if comparison == Comparison::Same { Status::Good } else { Status::Refused };
    Ok(finish(&text, status))
}

/// Also gives the main number that was asked for, where that is known. The kept board's own audit comes before anything of the later one,
/// also before the rule for the later one's files.
fn compare(kept: &Files, later: &Files, main: Option<usize>) -> (Option<usize>, Comparison) {
    let (mut kept_tables, mut later_tables) = (Tables::default(), Tables::default());
    let mains = match kept.audit(&mut kept_tables) {
        Answer::Accepted(report) => report.mains as usize,
        Answer::Refused(refusal) => return (main, Comparison::KeptRefused(refusal)),
    };
    let main = main.unwrap_or(mains);
    let comparison = match later.size_refusal() {
        Some(refusal) => Comparison::LaterRefused(refusal),
        None => library::compare(kept.words(), later.words(), main, &mut kept_tables, &mut later_tables),
    };
    (Some(main), comparison)
}

fn line(comparison: Comparison) -> String {
    match comparison {
        Comparison::Same => "same\n".to_string(),
        Comparison::Apart => "apart\n".to_string(),
        Comparison::Collision { kept, later } => format!("collision {kept} {later}\n"),
        Comparison::KeptRefused(Refusal { number, items }) => format!("kept refused {number} at {items}\n"),
        Comparison::LaterRefused(Refusal { number, items }) => format!("later refused {number} at {items}\n"),
    }
}

fn object(main: Option<usize>, comparison: Comparison, curves: [&Curve; 2]) -> String {
    let answer = |answer: &str| {
        let object = Object::new().text("answer", answer);
        match main {
            Some(main) => object.number("main", main as u64),
            None => object,
        }
    };
    let refused = |board: &str, refusal: Refusal| {
        answer("refused").text("board", board).number("number", refusal.number).number("passed", refusal.items)
    };
    let object = match comparison {
        Comparison::Same => answer("same"),
        Comparison::Apart => match curves {
            [kept, later] if kept != later => {
                answer("apart").text("kept_curve", kept.name).text("later_curve", later.name)
            }
            _ => answer("apart"),
        },
        Comparison::Collision { kept, later } => {
            answer("collision").number("kept_main", kept).number("later_main", later)
        }
        Comparison::KeptRefused(refusal) => refused("kept", refusal),
        Comparison::LaterRefused(refusal) => refused("later", refusal),
    };
    object.end() + "\n"
}
