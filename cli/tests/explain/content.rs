//! What is claimed of a bad content, by the rules of the types.

use crate::claims::{so, Claims};
use crate::formats::wrong_traits;
use crate::widths::Widths;
use crate::words::Item;
use reference::format::*;
use reference::sha256::sha256;
use tirfolma::times::date;

/// What is said of a contest in a set, up to the place of the set's word that has it.
pub fn contest_in_set(item: &Item, contest: usize) -> String {
    let word = item.content[item.set_field() + contest / 32];
    let bit = if item.widths.set == 1 { String::new() } else { format!("bit {} of ", contest % 32) };
    format!("has contest {contest} in its set of contests, {bit}{word:08x} at ")
}

/// "1 contest" or "2 contests".
pub fn counted(number: usize, what: &str) -> String {
    format!("{number} {what}{}", if number == 1 { "" } else { "s" })
}

impl Claims<'_> {
    pub fn content(&self) -> Result<(), String> {
        let c = &self.item().content;
        match self.item().code {
            GENESIS => self.traits(),
            CONTEST => self.contest_number(c[0] as usize),
            THRESHOLD => self.threshold(c[0], c[1]),
            AUTHORIZER => self.rule(c[0] != 1 && c[0] != 2, "mode", c[0], "it must be 1 (identity) or 2 (credential)"),
            ROUND => self.round(),
            SESSION if c[1] == 0 => self.rule(true, "weight", 0, "it must be at least 1"),
            SESSION => self.contests(),
            VOTER_COMMITMENT | SERVER_COMMITMENT => {
                let widths = self.item().widths;
                self.low_bits(c[widths.commitment - 1], widths.zeros, "its last content word")
            }
            BALLOT => self.ballot(),
            EXTRACTION => self.fingerprint(),
            CONFIRMATION => self.confirmation(),
            _ => Err("no rule of its content".to_string()),
        }
    }

    /// A word's value, and the rule that it breaks.
    fn rule(&self, is_broken: bool, name: &str, value: u32, rule: &str) -> Result<(), String> {
        so(is_broken && self.says(&format!("has the {name} {value} at word ")), &format!("the {name} is {value}"))?;
        so(self.text.ends_with(&format!(", but {rule}. Look at this word.")), rule)
    }

    /// A number that sets of the other width have goes by the width of the board.
    fn contest_number(&self, number: usize) -> Result<(), String> {
        let set = self.item().widths.set;
        let rule = format!("it must be at most {}", 32 * set - 1);
        if set == 8 || number > 255 {
            return self.rule(number >= 32 * set, "contest number", number as u32, &rule);
        }
        so(number > 31 && self.says(&format!("has the contest number {number} at word ")), "its number")?;
        let (own, fit) = (self.on_board((false, true)), self.fits_others(number)?);
        let says = format!(", but {own}{rule}{fit}. Look at this word{}.", self.look_at_format((false, true)));
        so(self.text.ends_with(&says), &says)
    }

    fn traits(&self) -> Result<(), String> {
        let item = self.item();
        so(item.number == 1 && item.content.len() == 18, "a first item with a traits word")?;
        let word = item.content[17];
        so(Widths::of_traits(word).is_none(), "a traits word that is refused")?;
        let wrong = wrong_traits(word).ok_or("nothing is wrong with it")?;
        let says = format!("has the traits {word:08x} at word 18, byte 72, but {wrong}. Look at this word.");
        so(self.text.ends_with(&says), &says)
    }

    fn threshold(&self, trustees: u32, needed: u32) -> Result<(), String> {
        let there = if trustees == 1 { "is 1 trustee".to_string() } else { format!("are {trustees} trustees") };
        let over = format!("there {there} only, by the word before it");
        match needed {
            0 => self.rule(true, "threshold", needed, "it must be at least 1"),
            _ if needed > trustees => self.rule(true, "threshold", needed, &over),
            _ => self.rule(trustees > 32, "number of trustees", trustees, "there may be at most 32"),
        }
    }

    fn round(&self) -> Result<(), String> {
        let c = &self.item().content;
        let [(_, starts), (_, ends)] = self.item().times();
        if c[0] > 15 {
            return self.rule(true, "round number", c[0], "it must be at most 15");
        }
        if starts < ends {
            return self.contests();
        }
        so(self.says(&format!("starts at {} (word ", date(starts))), "its start")?;
        so(self.says(&format!(") and ends at {} (word ", date(ends))), "its end")?;
        so(self.says("), but its start must be before its end. Look at these words."), "the rule of its times")
    }

    /// Of a round or a session.
    fn contests(&self) -> Result<(), String> {
        let item = self.item();
        if item.contests().is_empty() {
            let (words, look) = if item.widths.set == 1 { ("", "this word") } else { ("8 words ", "these words") };
            let is_said = self.says(&format!("has no contests: its set of contests, {words}at word "));
            return so(is_said && self.says(&format!(", is empty. Look at {look}.")), "an empty set");
        }
        let contest = self.contest()?;
        let defines = |i: &Item| i.code == CONTEST && i.content[0] as usize == contest;
        so(self.says(", which no contest item before it defines. "), "the rule of its contests")?;
        so(!self.before().iter().any(defines), "the contest is not defined")
    }

    /// The contest that is named, one of the set, whose word is named too.
    fn contest(&self) -> Result<usize, String> {
        let item = self.item();
        let is_named = |&j: &usize| self.says(&format!("{}word ", contest_in_set(item, j)));
        item.contests().into_iter().find(is_named).ok_or("no contest of the set".to_string())
    }

    fn low_bits(&self, word: u32, bits: u32, name: &str) -> Result<(), String> {
        so(word << (32 - bits) != 0, "a bit is set")?;
        so(self.says(&format!("has {word:08x} as {name}, at word ")), name)?;
        so(self.says(&format!(", but the low {bits} bits of that word must be zero. Look at this word.")), "the bits")
    }

    /// Whether another number of parts than of members is claimed. The set is told as `set` has it.
    fn parts(&self, members: usize, member: &str, parts: usize, part: &str, set: &str) -> Result<bool, String> {
        if members == parts {
            return Ok(false);
        }
        let set = format!("has {} in its set, {set}at word ", counted(members, member));
        so(self.says(&set), &set)?;
        let but = format!(", but {}. Look at the set, ", counted(parts, part));
        so(self.says(&but), &but).map(|()| true)
    }

    fn ballot(&self) -> Result<(), String> {
        let item = self.item();
        let set = if item.widths.set == 1 { format!("{:08x} ", item.content[0]) } else { "8 words ".to_string() };
        if self.parts(item.contests().len(), "contest", item.cryptograms(), "cryptogram", &set)? {
            return Ok(());
        }
        if self.says(" as the last word of cryptogram ") {
            let last = |k: usize| item.content[item.cryptogram_end(k)];
            let k = (1..=item.cryptograms()).find(|&k| last(k) & 0xffff != 0).ok_or("no bit is set")?;
            return self.low_bits(last(k), 16, &format!("the last word of cryptogram {k}"));
        }
        let contest = self.contest()?;
        let session = self.session_of(item).ok_or("no session")?;
        if !session.contests().contains(&contest) {
            let says = format!(", but its session, item {}, does not have that contest. ", session.number);
            return so(self.says(&says), &says);
        }
        let enables = |r: &&Item| r.is_open(item.time) && r.contests().contains(&contest);
        so(!self.rounds().iter().any(enables), "no round enables it")?;
        let says = format!(", but no round that is open at its time, {}, enables that contest. ", date(item.time));
        so(self.says(&says), &says)
    }

    fn confirmation(&self) -> Result<(), String> {
        let (set, shares) = (self.item().content[0], (self.item().content.len() - 1) / TRUSTEE);
        if self.parts(set.count_ones() as usize, "trustee", shares, "trustee share", &format!("{set:08x} "))? {
            return Ok(());
        }
        let threshold = self.before().iter().find(|i| i.code == THRESHOLD).ok_or("no threshold")?;
        let (most, needed) = (threshold.content[0], threshold.content[1]);
        let (trustee, rule) = match (0..32).find(|&j| set >> j & 1 == 1 && j >= most) {
            Some(over) => (
                format!("has trustee {over} in its set, "),
                format!(", but by the threshold, item {}, numbers are below {most}. ", threshold.number),
            ),
            None => (
                format!("has {} in its set, ", counted(set.count_ones() as usize, "trustee")),
                format!(", but {needed} are needed by the threshold, item {}. ", threshold.number),
            ),
        };
        so(self.says(&rule) && self.says(&trustee), &format!("{trustee}{rule}"))?;
        so(set.count_ones() < needed || set >> (most - 1) > 1, "numbers over, or too few")
    }

    /// The ballots under the last cast of each voter, in the order of those casts.
    fn counted_ballots(&self) -> Result<Vec<&Item>, String> {
        let mut counted: Vec<(u32, &Item)> = Vec::new();
        for cast in self.before().iter().filter(|i| i.code == CAST) {
            let voter = self.session_of(cast).ok_or("no session")?.content[0];
            counted.retain(|&(other, _)| other != voter);
            counted.push((voter, self.parent_of(cast).ok_or("no ballot")?));
        }
        Ok(counted.into_iter().map(|(_, ballot)| ballot).collect())
    }

    /// The counted ballots, the first eight by number, and that the fingerprint is not of them.
    fn fingerprint(&self) -> Result<(), String> {
        let counted = self.counted_ballots()?;
        let contents: Vec<u32> = counted.iter().flat_map(|ballot| ballot.content.iter().copied()).collect();
        so(sha256(&contents)[..] != self.item().content[..], "the fingerprint is wrong")?;
        let numbers: Vec<String> = counted.iter().map(|ballot| ballot.number.to_string()).collect();
        let says = match numbers.len() {
            0 => "the empty message, though no ballot is counted. ".to_string(),
            1 => format!("the content of the only counted ballot, item {}. ", numbers[0]),
            n => {
                let named = if n <= 8 { n - 1 } else { 8 };
                let last = if n <= 8 { numbers[n - 1].clone() } else { format!("{} more", n - 8) };
                let listed = format!("items {} and {last}. ", numbers[..named].join(", "));
                format!("the contents of the {n} counted ballots, in the order of their casts: {listed}")
            }
        };
        let says = format!(", that is not the SHA-256 of {says}");
        so(self.says(&says), &says)
    }
}
