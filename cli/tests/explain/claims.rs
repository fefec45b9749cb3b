//! What an explanation claims of other items, held to the words.

use crate::content::counted;
use crate::words::{is_zeros, items, number_behind, place_behind, Item};
use reference::format::*;
use tirfolma::files::Files;
use tirfolma::library::Refusal;
use tirfolma::times::date;
use tirfolma::types;

/// The refused item among those of its board.
pub struct Claims<'a> {
    pub files: &'a Files,
    pub items: &'a [Item],
    pub number: u32,
    pub at: usize,
    pub text: &'a str,
}

/// Holds what is named, whether the library gave the refusal or not.
pub fn hold_named(files: &Files, refusal: Refusal, text: &str) -> Result<(), String> {
    let items = items(&files.board.words);
    Claims { files, items: &items, number: refusal.number, at: refusal.items as usize, text }.named_fields()
}

/// Holds a text to the words; an error says what is not so.
pub fn hold(files: &Files, refusal: Refusal, text: &str) -> Result<(), String> {
    let (items, at) = (items(&files.board.words), refusal.items as usize);
    let claims = Claims { files, items: &items, number: refusal.number, at, text };
    claims.named_fields()?;
    match refusal.number {
        1 | 3..=6 => claims.head(),
        7 => claims.address(),
        8 => claims.previous(),
        9 => claims.parent(),
        10 => claims.earlier_time(),
        11 => claims.phase(),
        12 => claims.second(),
        13 => claims.content(),
        14 => claims.verdict(),
        15 => claims.key(),
        16 => claims.bad_signature(),
        18 => claims.closing(),
        20 => claims.roll(),
        21 => claims.on_roll(),
        _ => Err("nothing holds it to the words".to_string()),
    }
}

pub fn so(is_so: bool, what: &str) -> Result<(), String> {
    if is_so {
        Ok(())
    } else {
        Err(format!("it is not so: {what}"))
    }
}

impl Claims<'_> {
    fn named_fields(&self) -> Result<(), String> {
        self.places()?;
        self.starts()?;
        self.names()?;
        self.formats()
    }
    pub fn item(&self) -> &Item {
        &self.items[self.at]
    }
    pub fn before(&self) -> &[Item] {
        &self.items[..self.at]
    }
    pub fn says(&self, phrase: &str) -> bool {
        self.text.contains(phrase)
    }
    /// The item whose number stands behind a phrase.
    fn named(&self, phrase: &str) -> Result<&Item, String> {
        let number = number_behind(self.text, phrase).ok_or(format!("no number behind '{phrase}'"))?;
        self.items.get(number.wrapping_sub(1)).ok_or(format!("no item {number}"))
    }
    fn last_main(&self) -> Option<&Item> {
        self.before().iter().rfind(|item| !item.is_hidden())
    }
    /// The first earlier item with an address, where parents are sought.
    pub fn parent_of(&self, item: &Item) -> Option<&Item> {
        let hidden = item.code > TRACK;
        self.items[..item.number - 1].iter().find(|i| i.is_hidden() == hidden && i.address == item.parent)
    }
    pub fn session_of<'b>(&'b self, item: &'b Item) -> Option<&'b Item> {
        match item.code {
            SESSION => Some(item),
            GENESIS => None,
            _ => self.session_of(self.parent_of(item)?),
        }
    }
    pub fn rounds(&self) -> Vec<&Item> {
        let rounds: Vec<&Item> = self.before().iter().filter(|item| item.code == ROUND).collect();
        let is_last = |r: &&&Item| !rounds.iter().any(|s| s.number > r.number && s.content[0] == r.content[0]);
        rounds.iter().filter(is_last).copied().collect()
    }

    /// Every "item N (type)" in the text is of that type.
    fn names(&self) -> Result<(), String> {
        for (start, phrase) in self.text.match_indices("item ") {
            let rest = &self.text[start + phrase.len()..];
            let Some((number, rest)) = rest.split_once(" (") else { continue };
            let Ok(number) = number.parse::<usize>() else { continue };
            let Some(name) = types::TYPES.iter().map(|row| row.name).find(|name| rest.starts_with(&format!("{name})")))
            else {
                continue;
            };
            let item = self.items.get(number.wrapping_sub(1)).ok_or(format!("no item {number}"))?;
            so(types::name(item.code) == name, &format!("item {number} is {name}"))?;
        }
        Ok(())
    }

    fn previous(&self) -> Result<(), String> {
        let (item, last) = (self.item(), self.last_main());
        if item.is_hidden() {
            so(self.says("is on a hidden track and ") && item.previous != item.parent, "previous is not parent")?;
            let is_named = self.before().iter().any(|i| i.address == item.previous);
            so(self.says("names item ") == is_named, "an item is named")?;
            return so(!is_named || self.named("names item ")?.address == item.previous, "the item that it names");
        }
        let Some(last) = last else {
            let says = format!("it is the first main item, whose previous field must be {}. ", item.zeros());
            return so(self.says(&says) && !is_zeros(&item.previous), &says);
        };
        so(self.named("the main item before it is item ")?.number == last.number, "the main item before it")?;
        so(item.previous != last.address, "it does not name that")?;
        if self.says("names item ") {
            let named = self.named("names item ")?;
            so(named.address == item.previous, "the item that it names")?;
            so(self.says("which stands behind it") == (named.number > item.number), "the order of both")?;
            return so(named.number > item.number || self.says("a hidden track, ") == named.is_hidden(), "hidden");
        }
        let is_zeros = is_zeros(&item.previous);
        so(self.says(&format!("has {} in its previous field", item.zeros())) == is_zeros, item.zeros())?;
        so(is_zeros || self.says(", which no item before it has, "), "an unknown address")?;
        so(self.before().iter().all(|i| i.address != item.previous), "no item before it has the address")
    }

    fn parent(&self) -> Result<(), String> {
        let item = self.item();
        if self.says("names item ") {
            let named = self.named("names item ")?;
            so(named.address == item.parent, "the item that it names as its parent")?;
            so(self.says("stands behind it") == (named.number > item.number), "the order of both")?;
            so(
                self.says("that is a hidden item") == (named.is_hidden() && (2..=TRACK).contains(&item.code)),
                "hidden",
            )?;
            so(self.says("that is a main item") == (!named.is_hidden() && item.code > TRACK), "main")?;
        }
        if self.says("latest configuration item") && self.at > 0 {
            let latest = self.before().iter().rfind(|i| is_config(i.code)).map(|i| i.number);
            let phrase =
                if self.says("item is item ") { "configuration item is item " } else { "configuration item, item " };
            so(Some(self.named(phrase)?.number) == latest, "the latest configuration item")?;
        }
        so(self.says("is the first item, ") == (self.at == 0 && item.code != GENESIS), "the first item")?;
        if self.says("not found") || self.says("first item") {
            so(self.parent_of(item).is_none(), "its parent is not found")?;
        }
        if let Parent::Type(listed) = parent_of(item.code) {
            let must = format!(" must be a {}", types::name(listed));
            let must_an = format!(" must be an {}", types::name(listed));
            let bare = format!(" must be {}", types::name(listed));
            let says = self.says(&must) || self.says(&must_an) || self.says(&bare);
            so(says || self.says("stands behind it") || self.at == 0, "the listed type of its parent")?;
        }
        let of_genesis = format!("but the parent field of a genesis must be {}. ", item.zeros());
        so(self.says(&of_genesis) == (item.code == GENESIS), &of_genesis)?;
        let says = format!("has {} in its parent field, as only a genesis may; ", item.zeros());
        so(self.says(&says) == (is_zeros(&item.parent) && self.at > 0), &says)
    }

    fn earlier_time(&self) -> Result<(), String> {
        let item = self.item();
        let bound = if item.is_hidden() { self.parent_of(item) } else { self.last_main() }.ok_or("no item before")?;
        let says = format!(
            "has the time {}, which is earlier than {} of item {} ",
            date(item.time),
            date(bound.time),
            bound.number
        );
        let which = if item.is_hidden() { ", its parent. " } else { ", the main item before it. " };
        so(self.says(&says) && self.says(which) && item.time < bound.time, &says)
    }

    fn phase(&self) -> Result<(), String> {
        let item = self.item();
        if self.says("after which only") {
            let intent = self.named("stands behind item ")?;
            return so(intent.code == INTENT && intent.number <= self.at, "an intent before it");
        }
        if self.says("needs a round") {
            return self.no_round_open();
        }
        for (what, code) in [("needs a threshold", THRESHOLD), ("needs an authorizer", AUTHORIZER)] {
            if self.says(what) {
                return so(self.before().iter().all(|i| i.code != code), "no such item");
            }
        }
        if self.says("not the latest") {
            let (own, latest) = (self.named("belongs to session item ")?, self.named(": session item ")?);
            let last = self.before().iter().rfind(|i| i.code == SESSION && i.content[0] == own.content[0]);
            so(self.session_of(item).map(|s| s.number) == Some(own.number), "its session")?;
            so(number_behind(self.text, "latest of voter ") == Some(own.content[0] as usize), "the voter")?;
            return so(
                last.map(|s| s.number) == Some(latest.number) && latest.number > own.number,
                "the latest session",
            );
        }
        self.not_spoiled()
    }

    fn no_round_open(&self) -> Result<(), String> {
        let (item, rounds) = (self.item(), self.rounds());
        so(is_voting(item.code) && self.says(&format!("at its time, {}", date(item.time))), "its time")?;
        so(!rounds.iter().any(|r| r.is_open(item.time)), "no round is open")?;
        so(self.says("no round item stands before it") == rounds.is_empty(), "there is no round")?;
        for r in rounds.iter().take(3) {
            let [start, end] = r.times().map(|(_, time)| date(time));
            let says = format!("round {} (item {}) from {start} until {end}", r.content[0], r.number);
            so(self.says(&says), &says)?;
        }
        let more = rounds.len().saturating_sub(3);
        so(self.says(" more") == (more > 0) && (more == 0 || self.says(&format!("and {more} more"))), "so many more")
    }

    fn not_spoiled(&self) -> Result<(), String> {
        let ballot = self.named("opens ballot item ")?;
        let mut above = self.item();
        for code in [VERIFIER, TRACK, BALLOT] {
            above = self.parent_of(above).ok_or("no parent")?;
            so(above.code == code, "the track")?;
        }
        so(above.number == ballot.number, "the ballot of the track")?;
        let closes = |i: &&Item| (i.code == CAST || i.code == SPOIL) && i.parent == ballot.address;
        let closer = self.before().iter().find(closes);
        if self.says("which was cast by item ") {
            let cast = self.named("which was cast by item ")?;
            return so(cast.code == CAST && closer.map(|i| i.number) == Some(cast.number), "the cast");
        }
        if self.says("whose spoil, item ") {
            let spoil = self.named("whose spoil, item ")?;
            so(spoil.code == SPOIL && spoil.parent == ballot.address && spoil.number > self.at, "the spoil")?;
        }
        so(closer.is_none(), "the ballot is open")
    }

    fn second(&self) -> Result<(), String> {
        let item = self.item();
        if self.says("the board's") {
            let first = self.named(": item ")?;
            return so(first.code == item.code && first.number <= self.at, "the first on the board");
        }
        if self.says("ballot item ") {
            let (ballot, done) = (self.named(": ballot item ")?, self.named(" by item ")?);
            let is_cast = self.says("already cast by");
            so(is_cast != self.says("already spoiled by") && is_cast == (done.code == CAST), "cast or spoiled")?;
            so(done.number <= self.at && done.parent == item.parent && item.parent == ballot.address, "the ballot")?;
            return so(ballot.code == BALLOT && (done.code == CAST || done.code == SPOIL), "the types");
        }
        let (first, parent) = (self.named(": item ")?, self.named("same parent, item ")?);
        so(first.number <= self.at && first.code == item.code && first.parent == item.parent, "the first one")?;
        so(parent.address == item.parent && parent.number < first.number, "their parent")
    }

    fn verdict(&self) -> Result<(), String> {
        let verdicts = &self.files.verdicts.words;
        let from = VERDICT_WORDS * self.at;
        let says = match verdicts.len().saturating_sub(from) {
            0 => "none of its nine words is there".to_string(),
            1 => "only 1 of its nine words is there".to_string(),
            left @ 2..=8 => format!("only {left} of its nine words are there"),
            _ => format!("{:08x} stands where 30000001 (good) or 30000000 (bad) must stand", verdicts[from]),
        };
        so(self.says(&format!("has no verdict: {says}. Look at verdicts.words, word ")), &says)
    }

    fn key(&self) -> Result<(), String> {
        let from = VERDICT_WORDS * self.at + 1;
        let given = self.files.verdicts.words.get(from..from + 8).ok_or("no verdict")?;
        let writers = self.writers_key().ok_or("no writer's key")?;
        so(writers.words() != given, "another key")?;
        let says = format!("but its writer's key is that of {}word ", writers.phrase());
        so(self.says(&says), &says)?;
        let keys = self.keys();
        let owners: Vec<_> = keys.iter().filter(|key| key.words() == given).collect();
        if owners.is_empty() {
            return so(self.says(", which is no key that the items name, "), "whose key it is");
        }
        so(owners.iter().any(|key| self.says(&format!(", which is that of {}word ", key.phrase()))), "whose key it is")
    }

    fn bad_signature(&self) -> Result<(), String> {
        let verdict = self.files.verdicts.words.get(VERDICT_WORDS * self.at);
        so(verdict == Some(&0x3000_0000), "its verdict")?;
        so(self.says(" of verdicts.words. Look at ") && self.text.ends_with(" of board.words."), "the files")
    }

    fn address(&self) -> Result<(), String> {
        let (item, board) = (self.item(), &self.files.board.words);
        // Head, content, parent, previous, time.
        let (first, last) = (item.place, item.signature_place() - 1);
        so(item.widths.hashed(&board[first..=last]) != item.address, "the address is wrong")?;
        let (fit, look) = self.other_frame(item.place)?;
        let hash = item.widths.hash;
        let says = format!(
            ", that is not the {hash} of its words {first} to {last}{fit}. Look at whether a word was changed{look}."
        );
        so(self.text.ends_with(&says), &says)
    }

    fn closing(&self) -> Result<(), String> {
        let [board, verdicts] = [&self.files.board.words, &self.files.verdicts.words];
        let place = place_behind(board, self.at).ok_or("no place")?;
        let word = *board.get(place).ok_or("no word")?;
        so(self.says(&format!("The closing word, {word:08x} at word ")) && kind(word) == CLOSING, "the closing word")?;
        let number = (word & 0x0fff_ffff) as usize;
        so(self.says(&format!("its number is {number}, but {} item", self.at)) == (number != self.at), "its number")?;
        let stand = |n: usize, what| format!("{} {}", counted(n, what), if n == 1 { "stands" } else { "stand" });
        let behind = board.len() - place - 1;
        let says = format!("{} behind it", stand(behind, "word"));
        so(self.says(" behind it") == (behind > 0) && (behind == 0 || self.says(&says)), &says)?;
        let left = verdicts.len().saturating_sub(VERDICT_WORDS * self.at);
        let (all, items) = (counted(verdicts.len(), "word"), counted(self.at, "item"));
        let says = format!("verdicts.words has {all}, {left} more than nine for each of {items}");
        so(self.says("verdicts") == (left > 0) && (left == 0 || self.says(&says)), &says)
    }

    fn roll(&self) -> Result<(), String> {
        let roll = &self.files.roll.words;
        if roll.len() % ROLL_ROW != 0 {
            return so(self.says(&format!("has {} word", roll.len())) && self.says("odd"), "an odd number");
        }
        if roll.len() > ROLL_MOST {
            return so(self.says(&format!("has {} pairs", roll.len() / 2)), "too many pairs");
        }
        let at = (2..roll.len()).step_by(2).find(|&i| roll[i - 2] >= roll[i]).ok_or("it rises")?;
        let again = if roll[at - 2] == roll[at] { " again" } else { "" };
        let [a, b] = [at - 2, at].map(|i| format!("at word {i}, byte {}", 4 * i));
        let says = format!("voter {} {a} is followed by voter {}{again} {b}", roll[at - 2], roll[at]);
        so(self.says(&says), &says)
    }

    fn on_roll(&self) -> Result<(), String> {
        let (item, roll) = (self.item(), &self.files.roll.words);
        let [voter, weight] = [item.content[0], item.content[1]];
        so(self.says(&format!("a session of voter {voter} with weight {weight}, ")), "its voter and weight")?;
        match (0..roll.len()).step_by(2).find(|&i| roll[i] == voter) {
            None => so(self.says("is empty") == roll.is_empty() && !self.says("that voter with"), "no such voter"),
            Some(i) => {
                let says = format!("has that voter with weight {}. ", roll[i + 1]);
                so(self.says(&says) && roll[i + 1] != weight && self.says("and at roll.words, word "), &says)
            }
        }
    }
}
