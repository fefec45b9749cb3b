//! Each place that is named, and each address or key fingerprint: held to the field that the text before it names.

use crate::claims::{so, Claims};
use crate::content::contest_in_set;
use crate::widths::{traits, TRAITS_PLACE};
use crate::words::*;
use reference::format::*;
use tirfolma::times::date;
use tirfolma::types;

/// The places in a text, each with the text before it: "word W, byte B", where B is four times W.
pub fn places(text: &str) -> Result<Vec<(&str, usize)>, String> {
    let mut found = Vec::new();
    for (from, _) in text.match_indices("word ") {
        let (before, rest) = text.split_at(from);
        let Some(word) = number_at(&rest["word ".len()..]) else { continue };
        let byte = rest.strip_prefix(&format!("word {word}, byte ")).and_then(number_at);
        so(byte == Some(4 * word), &format!("the byte of word {word}"))?;
        found.push((before, word));
    }
    so(text.matches("byte ").count() == found.len(), "each byte stands behind its word").map(|()| found)
}

/// A text that ends right before a place, and the place that must follow.
type Known = (String, usize);

/// A key fingerprint in an item: whose it is, and where it stands in the content.
pub struct Key<'a> {
    pub whose: String,
    pub item: &'a Item,
    pub field: usize,
}

impl Key<'_> {
    pub fn words(&self) -> &[u32] {
        &self.item.content[self.field..self.field + 8]
    }
    /// What is said of it before its place.
    pub fn phrase(&self) -> String {
        format!("{} ({} item {}, at ", self.whose, types::name(self.item.code), self.item.number)
    }
    pub fn place(&self) -> usize {
        self.item.content_place(self.field)
    }
}

/// The first two words of an address or a key fingerprint.
fn start(words: &[u32]) -> String {
    format!("{:08x}{:08x}...", words[0], words[1])
}

fn known(phrase: &str, place: usize) -> Known {
    (phrase.to_string(), place)
}

impl Claims<'_> {
    /// Every place is that of what the text names before it. A place that is not known is an error.
    pub fn places(&self) -> Result<(), String> {
        let known = self.known_places();
        for (before, word) in places(self.text)? {
            let named = known.iter().filter(|(phrase, _)| before.ends_with(phrase.as_str()));
            let longest = named.max_by_key(|(phrase, _)| phrase.len());
            let (phrase, place) = longest.ok_or(format!("word {word} is the place of nothing known"))?;
            so(*place == word, &format!("'{phrase}' word {word}: that is word {place}"))?;
        }
        Ok(())
    }

    fn known_places(&self) -> Vec<Known> {
        let board = &self.files.board.words;
        let mut all = Vec::new();
        let behind = place_behind(board, self.at).filter(|&place| place < board.len());
        if let Some(place) = behind {
            let (head, number) = (board[place], self.at + 1);
            all.push((format!("Item {number} (at "), place));
            all.push((format!("Item {number} ({}, at ", types::name(code(head))), place));
            if self.number == 18 {
                all.push((format!("The closing word, {head:08x} at "), place));
            }
        }
        match self.number {
            4 => {
                all.push(known("board.words ends at ", board.len()));
                all.extend(behind.into_iter().flat_map(|place| self.other_frames(place)).chain(self.traits_place()));
            }
            6 => all.extend(self.traits_place()),
            7..=16 | 21 => all.extend(self.items.get(self.at).into_iter().flat_map(|item| self.places_of_item(item))),
            20 => all.extend(self.places_of_roll()),
            _ => {}
        }
        all
    }

    fn traits_place(&self) -> Option<Known> {
        traits(&self.files.board.words).map(|word| (format!("at the traits word, {word:08x} at "), TRAITS_PLACE))
    }

    fn places_of_item(&self, item: &Item) -> Vec<Known> {
        let verdict = VERDICT_WORDS * self.at;
        match self.number {
            7 => {
                let own = (format!("has an address, {} at ", start(&item.address)), item.address_place());
                [own].into_iter().chain(self.other_frames(item.place)).chain(self.traits_place()).collect()
            }
            8 => vec![
                known("Look at its previous field, at ", item.previous_place()),
                (format!("equal its parent field, {} at ", start(&item.parent)), item.parent_place()),
            ],
            9 => vec![known("Look at its parent field, at ", item.parent_place())],
            10 => vec![known("Look at its time field, at ", item.time_place())],
            13 => content_places(item).into_iter().chain(self.traits_place()).collect(),
            14 => vec![known("Look at verdicts.words, ", verdict)],
            15 => {
                let keys = self.keys().into_iter().chain(self.writers_key()).map(|key| (key.phrase(), key.place()));
                keys.chain([known("Look at verdicts.words, ", verdict + 1)]).collect()
            }
            16 => vec![
                known("has a bad signature: its verdict is 30000000 at ", verdict),
                known("and at the signature, at ", item.signature_place()),
            ],
            21 => {
                let roll = &self.files.roll.words;
                let pair = (0..roll.len()).step_by(ROLL_ROW).find(|&i| Some(&roll[i]) == item.content.first());
                let pair = pair.map(|i| known("and at roll.words, ", i));
                pair.into_iter().chain([known("its first two content words, at ", item.content_place(0))]).collect()
            }
            _ => Vec::new(),
        }
    }

    /// The first voter number that does not rise, and the one before it.
    fn places_of_roll(&self) -> Vec<Known> {
        let roll = &self.files.roll.words;
        let Some(at) = (2..roll.len()).step_by(2).find(|&i| roll[i - 2] >= roll[i]) else { return Vec::new() };
        let again = if roll[at - 2] == roll[at] { " again" } else { "" };
        vec![
            (format!("each voter once: voter {} at ", roll[at - 2]), at - 2),
            (format!(" is followed by voter {}{again} at ", roll[at]), at),
        ]
    }

    /// The keys that the items name.
    pub fn keys(&self) -> Vec<Key<'_>> {
        self.items.iter().flat_map(keys_in).collect()
    }

    /// The key of the refused item's writer, in the words that are used for it.
    pub fn writers_key(&self) -> Option<Key<'_>> {
        let item = self.item();
        let session = self.session_of(item);
        let authorizer = self.before().iter().rfind(|i| i.code == AUTHORIZER);
        let key = |whose: &str, item, field| Key { whose: whose.to_string(), item, field };
        Some(match writer_of(item.code) {
            Writer::Administrator => key("the administrator", &self.items[0], 1),
            Writer::BallotBox => key("the ballot box", &self.items[0], 9),
            Writer::Authorizer => key("the latest authorizer", authorizer?, 1),
            Writer::Voter => key(&format!("voter {}", session?.content[0]), session?, 2),
            Writer::Verifier => key("the verifier itself", item, 0),
        })
    }

    /// Every address and key fingerprint is told by the first words of the field that is named.
    pub fn starts(&self) -> Result<(), String> {
        let verdict = self.files.verdicts.words.get(VERDICT_WORDS * self.at + 1..).unwrap_or(&[]);
        let known: &[(&str, &[u32])] = match (self.number, self.items.get(self.at)) {
            (7, Some(item)) => &[("has an address, ", &item.address)],
            (8, Some(item)) => &[
                ("names the address ", &item.previous),
                ("is on a hidden track and has ", &item.previous),
                ("must equal its parent field, ", &item.parent),
            ],
            (9, Some(item)) => {
                &[("names the address ", &item.parent), ("item before it has the address ", &item.parent)]
            }
            (13, Some(item)) => &[("has a fingerprint, ", &item.content)],
            (15, Some(_)) => &[("was checked under the key fingerprint ", verdict)],
            _ => &[],
        };
        for (dots, _) in self.text.match_indices("...") {
            let text = &self.text[..dots + 3];
            let is_so = |(phrase, words): &(&str, &[u32])| text.ends_with(&format!("{phrase}{}", start(words)));
            so(known.iter().any(is_so), &format!("'{text}'"))?;
        }
        Ok(())
    }
}

fn keys_in(item: &Item) -> Vec<Key<'_>> {
    let keys: Vec<(String, usize)> = match item.code {
        GENESIS if item.number == 1 => vec![known("the administrator", 1), known("the ballot box", 9)],
        GENESIS => vec![known("another administrator", 1), known("another ballot box", 9)],
        THRESHOLD => vec![known("the trustees", 2)],
        AUTHORIZER => vec![known("an authorizer", 1)],
        SESSION => vec![(format!("voter {}", item.content[0]), 2)],
        VERIFIER => vec![known("a verifier", 0)],
        _ => Vec::new(),
    };
    keys.into_iter().map(|(whose, field)| Key { whose, item, field }).collect()
}

/// The places of a set of contests: of each of its words, and of all.
fn set_places(item: &Item) -> impl Iterator<Item = Known> + '_ {
    let from = item.set_field();
    let whole = if item.widths.set == 1 { format!("{:08x} ", item.content[from]) } else { "8 words ".to_string() };
    let empty = if item.widths.set == 1 { "" } else { "8 words " };
    let all = [format!(" in its set, {whole}at "), format!("has no contests: its set of contests, {empty}at ")];
    let each = item.contests().into_iter().map(move |j| (contest_in_set(item, j), from + j / 32));
    each.chain(all.map(|phrase| (phrase, from)))
}

/// The content words that the rules of a type name, with their values.
fn content_places(item: &Item) -> Vec<Known> {
    let c = &item.content;
    let fields = match item.code {
        GENESIS => c.get(17).map(|word| (format!("has the traits {word:08x} at "), 17)).into_iter().collect(),
        CONTEST => vec![(format!("has the contest number {} at ", c[0]), 0)],
        THRESHOLD => vec![
            (format!("has the number of trustees {} at ", c[0]), 0),
            (format!("has the threshold {} at ", c[1]), 1),
        ],
        AUTHORIZER => vec![(format!("has the mode {} at ", c[0]), 0)],
        ROUND => {
            let [(start, starts), (end, ends)] = item.times();
            let own = [
                (format!("has the round number {} at ", c[0]), 0),
                (format!("starts at {} (", date(starts)), start),
                (format!(" and ends at {} (", date(ends)), end),
            ];
            own.into_iter().chain(set_places(item)).collect()
        }
        SESSION => set_places(item).chain([(format!("has the weight {} at ", c[1]), 1)]).collect(),
        VOTER_COMMITMENT | SERVER_COMMITMENT => {
            let last = c.len() - 1;
            vec![(format!("has {:08x} as its last content word, at ", c[last]), last)]
        }
        BALLOT => {
            let last = |k: usize, word: u32| format!("has {word:08x} as the last word of cryptogram {k}, at ");
            let ends = (1..=item.cryptograms()).map(|k| (k, item.cryptogram_end(k)));
            ends.map(|(k, end)| (last(k, c[end]), end)).chain(set_places(item)).collect()
        }
        EXTRACTION => vec![(format!("has a fingerprint, {} at ", start(c)), 0)],
        CONFIRMATION => vec![(format!(" in its set, {:08x} at ", c[0]), 0)],
        _ => Vec::new(),
    };
    fields.into_iter().map(|(phrase, field)| (phrase, item.content_place(field))).collect()
}
