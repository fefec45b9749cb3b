//! Refusals 7 to 10: an item's address, the items that it names, and its time.

use super::refused::{Numbered, Refused};
use super::text::{in_words, one, place, start};
use super::widths;
use crate::format::Part;
use crate::times::date;
use crate::types::Parent;

/// 7: the address is not the hash. That is the library's word: there is no hash here.
pub fn address(refused: &Refused) -> String {
    let item = &refused.item;
    let (fit, look) = widths::of_frame(refused.board, item.place);
    format!(
        "has an address, {} at {}, that is not the {} of its words {} to {}{fit}. Look at whether a word was changed{look}",
        start(item.address()),
        place(item.place_of(Part::Address)),
        item.format.curve.hash,
        item.place,
        item.place_of(Part::Signature) - 1
    )
}

fn is_zeros(words: &[u32]) -> bool {
    words.iter().all(|&word| word == 0)
}

/// What stands in the place of an address where there is no item to name.
fn zeros(refused: &Refused) -> String {
    format!("{} zeros", in_words(refused.item.format.curve.address))
}

/// 8: the previous field.
pub fn previous(refused: &Refused) -> Option<String> {
    let item = &refused.item;
    let look = format!("Look at its previous field, at {}", place(item.place_of(Part::Previous)));
    if !item.is_main() {
        return hidden_previous(refused).map(|wrong| format!("{wrong}. {look}"));
    }
    let Some(before) = refused.last_main() else {
        let wrong = format!("names the address {} as the item before it", start(item.previous()));
        let must = format!("but it is the first main item, whose previous field must be {}", zeros(refused));
        return (!is_zeros(item.previous())).then(|| format!("{wrong}, {must}. {look}"));
    };
    (item.previous() != before.item.address()).then(|| format!("{}. {look}", main_previous(refused, before)))
}

/// Of a main item that does not name the main item before it.
fn main_previous(refused: &Refused, before: Numbered) -> String {
    let previous = refused.item.previous();
    let must = format!("the main item before it is {}", before.name());
    if is_zeros(previous) {
        let zeros = zeros(refused);
        return format!("has {zeros} in its previous field, as only the first main item may, but {must}");
    }
    if let Some(main) = refused.with_address(false, previous) {
        let why = "an item may have been added between, or this one moved";
        return format!("names {} as the main item before it, but {must}: {why}", main.name());
    }
    if let Some(hidden) = refused.with_address(true, previous) {
        return format!("names {} as the item before it, which is on a hidden track, but {must}", hidden.name());
    }
    if let Some(later) = refused.later_with_address(previous) {
        let wrong = format!("names {} as the item before it, which stands behind it", later.name());
        return format!("{wrong}, but {must}: items may have been moved");
    }
    let address = start(previous);
    let why = "an item may be missing between";
    format!("names the address {address} as the item before it, which no item before it has, but {must}: {why}")
}

/// Of a hidden item, whose previous field must be its parent field.
fn hidden_previous(refused: &Refused) -> Option<String> {
    let item = &refused.item;
    let previous = item.previous();
    let named = refused.with_address(false, previous).or_else(|| refused.with_address(true, previous));
    let named = named.map_or_else(|| format!("has {}", start(previous)), |named| format!("names {}", named.name()));
    (previous != item.parent()).then(|| {
        format!(
            "is on a hidden track and {named} as its previous field, which must equal its parent field, {} at {}",
            start(item.parent()),
            place(item.place_of(Part::Parent))
        )
    })
}

/// 9: the parent.
pub fn parent(refused: &Refused) -> Option<String> {
    let wrong = match (refused.row.parent, refused.parent()) {
        (Parent::Zeros, _) => genesis_parent(refused)?,
        (_, None) => not_found(refused),
        (Parent::LatestConfig, Some(parent)) => {
            let latest = refused.latest_config().filter(|latest| latest.number != parent.number)?;
            format!("names {} as its parent, but the latest configuration item is {}", parent.name(), latest.name())
        }
        (Parent::OfType(code), Some(parent)) if parent.item.code() != code => {
            format!("names {} as its parent, but {}", parent.name(), needed(refused))
        }
        (Parent::OfType(_), Some(_)) => return None,
    };
    let at = place(refused.item.place_of(Part::Parent));
    Some(format!("{wrong}. Look at its parent field, at {at}"))
}

/// What its parent must be.
fn needed(refused: &Refused) -> String {
    let this = refused.row.name;
    match refused.row.parent {
        Parent::Zeros => format!("the parent field of a {this} must be {}", zeros(refused)),
        Parent::LatestConfig => match refused.latest_config() {
            Some(latest) => format!("its parent must be the latest configuration item, {}", latest.name()),
            None => "its parent must be the latest configuration item".to_string(),
        },
        Parent::OfType(code) => format!("the parent of {} must be {}", one(refused.code()), one(code)),
    }
}

fn genesis_parent(refused: &Refused) -> Option<String> {
    let parent = refused.item.parent();
    let named = refused.with_address(false, parent).or_else(|| refused.with_address(true, parent));
    let named = named.map_or_else(|| format!("the address {}", start(parent)), |named| named.name());
    (!is_zeros(parent)).then(|| format!("names {named} as its parent, but {}", needed(refused)))
}

/// Of an item for whose parent no earlier item is found where it is sought.
fn not_found(refused: &Refused) -> String {
    let parent = refused.item.parent();
    if refused.number() == 1 {
        return "is the first item, so that no item before it can be its parent: a board must begin with a genesis"
            .to_string();
    }
    let (sought, other) = if refused.has_hidden_parent() { ("hidden", "main") } else { ("main", "hidden") };
    if let Some(found) = refused.with_address(!refused.has_hidden_parent(), parent) {
        let wrong = format!("names {} as its parent, but that is a {other} item", found.name());
        return format!("{wrong}, and {}, a {sought} item", needed(refused));
    }
    if let Some(later) = refused.later_with_address(parent) {
        return format!("names {} as its parent, but that stands behind it: items may have been moved", later.name());
    }
    if is_zeros(parent) {
        let zeros = zeros(refused);
        return format!("has {zeros} in its parent field, as only a genesis may; {}", needed(refused));
    }
    let wrong = format!("no {sought} item before it has the address {}", start(parent));
    format!("names a parent that is not found: {wrong}; {}", needed(refused))
}

/// 10: the time.
pub fn time(refused: &Refused) -> Option<String> {
    let item = &refused.item;
    let (bound, which) = match item.is_main() {
        true => (refused.last_main()?, "the main item before it"),
        false => (refused.parent()?, "its parent"),
    };
    (item.time() < bound.item.time()).then(|| {
        format!(
            "has the time {}, which is earlier than {} of {}, {which}. Look at its time field, at {}",
            date(item.time()),
            date(bound.item.time()),
            bound.name(),
            place(item.place_of(Part::Time))
        )
    })
}
