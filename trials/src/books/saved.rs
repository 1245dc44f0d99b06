//! The saved form of a book, written a second time; what is due of bytes that are loaded, and what is tried of both.

use crate::books::held::same_words;
use crate::books::lent::{sizes, Lent, SAVED, WORDS};
use crate::bundles::trial::caught;
use crate::shared::around;
use crate::shared::checks::Checks;
use crate::shared::dice::Dice;
use crate::shared::seen::Seen;

/// The letters that stand first, and the number of the format behind them.
const MARK: [u8; 4] = *b"SAPL";
const FORMAT: u32 = 1;
/// Where the sum stands, which is over all bytes before it.
const SUM_AT: usize = 5_528;

/// So many saved books get random faults.
const BOOKS: u64 = 4_000;

/// What can be wrong, in the order in which it is tried; and each two of them at once, of which the first is due.
const ROWS: [&str; 11] = [
    "loaded",
    "101",
    "102",
    "103",
    "104",
    "101 before 102",
    "101 before 103",
    "101 before 104",
    "102 before 103",
    "102 before 104",
    "103 before 104",
];

/// These words in the saved form.
pub fn form(words: &[u32; WORDS]) -> Vec<u8> {
    let mut bytes = MARK.to_vec();
    bytes.extend(FORMAT.to_le_bytes());
    bytes.extend(words.iter().flat_map(|word| word.to_le_bytes()));
    bytes.extend(sum(&bytes).to_le_bytes());
    bytes
}

/// Document 01's sum.
fn sum(bytes: &[u8]) -> u32 {
    let next = |sum: u64, byte: &u8| (31 * sum + u64::from(*byte)) % (1 << 32);
    bytes.iter().fold(0, next) as u32
}

/// The codes whose tests these bytes meet, in the order in which they are tried. A missing byte counts as 0.
fn faults(bytes: &[u8]) -> Vec<u8> {
    let mut whole = bytes.to_vec();
    whole.resize(whole.len().max(SAVED), 0);
    let number_at = |place: usize| u32::from_le_bytes(whole[place..place + 4].try_into().expect("four bytes"));
    let tests = [
        (101, whole[..4] != MARK),
        (102, number_at(4) != FORMAT),
        (103, bytes.len() != SAVED),
        (104, number_at(SUM_AT) != sum(&whole[..SUM_AT])),
    ];
    let met = tests.into_iter().filter(|(_, is_met)| *is_met);
    met.map(|(code, _)| code).collect()
}

/// Saves the book into a buffer of any content and loads it over words of any content: the book that comes of it. The
/// book itself, each byte of the buffer and around it, and each word loaded have to be right.
pub fn restored(dice: &mut Dice, lent: &Lent) -> Result<Lent, String> {
    let mut bytes = around::any(dice, SAVED);
    let (mut due, buffer) = (bytes.clone(), around::lent(SAVED));
    due[buffer.clone()].copy_from_slice(&form(&lent.words));
    let held = lent.clone();
    let lent_bytes = &mut bytes[buffer.clone()];
    held.save(lent_bytes.try_into().expect("a buffer of that size"));
    same_words(lent, &held).map_err(|what| format!("saving changed the book: {what}"))?;
    around::same(&bytes, &due).map_err(|what| format!("of the saved form {what}"))?;
    let mut loaded = any(dice);
    match loaded.load(&bytes[buffer]) {
        0 => same_words(lent, &loaded).map(|()| loaded),
        code => Err(format!("what was saved is not loaded: {code}")),
    }
}

/// Words each of which is any number.
fn any(dice: &mut Dice) -> Lent {
    let mut lent = Lent::default();
    for word in lent.words.iter_mut() {
        *word = dice.any() as u32;
    }
    lent
}

/// Loads these bytes over these words: the code has to be the first of the faults, and then every word as it was.
fn try_load(before: &Lent, bytes: &[u8]) -> Result<Vec<u8>, String> {
    let faults = faults(bytes);
    let mut lent = before.clone();
    let code = lent.load(bytes);
    let due = faults.first().copied().unwrap_or(0);
    if code != due {
        return Err(format!("the code is {code} and not {due}"));
    }
    if due == 0 {
        let due = form(&lent.words) == bytes;
        return due.then_some(faults).ok_or("other words than were saved".to_string());
    }
    same_words(before, &lent).map(|()| faults)
}

/// Known answers: the sizes, three forms by their bytes and sums, which were worked out apart, and bytes that are
/// refused.
pub fn known(checks: &mut Checks, dice: &mut Dice) {
    checks.same("the words of a book, the bytes of a saved one", sizes(), (1_380, 5_532));
    let of = |word: fn(usize) -> u32| Lent {
        words: Box::new(std::array::from_fn(word)),
    };
    let books = [
        (of(|_| 0), 2_260_538_921),
        (of(|_| u32::MAX), 749_509_929),
        (of(|place| place as u32), 3_615_086_471),
    ];
    for (lent, sum) in books {
        checks.same("a book saved and loaded", restored(dice, &lent).map(drop), Ok(()));
        let mut saved = [0; SAVED];
        lent.save(&mut saved);
        checks.same("mark and format", &saved[..8], &[83, 65, 80, 76, 1, 0, 0, 0]);
        checks.same("the last word", &saved[5_524..5_528], &lent.words[1_379].to_le_bytes());
        checks.same("the sum", &saved[5_528..], &u32::to_le_bytes(sum));
        known_loads(checks, dice, &lent, &saved);
    }
}

/// The codes of parts of this saved book and of bytes near it; words of any content are left, or replaced by its words.
fn known_loads(checks: &mut Checks, dice: &mut Dice, lent: &Lent, saved: &[u8]) {
    let mut code = |code, what, bytes: &[u8]| {
        let mut loaded = any(dice);
        let due = if code == 0 { lent.clone() } else { loaded.clone() };
        checks.same(what, (loaded.load(bytes), loaded == due), (code, true));
    };
    code(0, "all of it", saved);
    code(101, "no bytes", &[]);
    code(101, "a part of the mark", &saved[..3]);
    code(102, "the mark alone", &saved[..4]);
    // the other bytes of the format count as 0
    code(103, "the mark and the format's first byte", &saved[..5]);
    code(103, "mark and format alone", &saved[..8]);
    code(103, "all but its last byte", &saved[..SAVED - 1]);
    code(103, "a byte behind it", &[saved, &[0]].concat());
    code(
        104,
        "another sum",
        &[&saved[..SAVED - 1], &[!saved[SAVED - 1]]].concat(),
    );
}

/// Books of any words saved and loaded; one of them damaged at each byte, and cut and lengthened; and random faults, of
/// which each has to occur, and each two at once.
pub fn try_damage(checks: &mut Checks, seed: u64) {
    let mut seen = Seen::default();
    let mut dice = Dice::of(seed, 0);
    let before = any(&mut dice);
    let sound = form(&any(&mut dice).words);
    let mut load = |what: &str, bytes: &[u8]| {
        let outcome = caught(|| try_load(&before, bytes)).and_then(|outcome| outcome);
        if let Ok(faults) = &outcome {
            rows(faults).iter().for_each(|row| seen.add(row));
        }
        checks.same(what, outcome.map(drop), Ok(()));
    };
    load("a saved book", &sound);
    every_byte(&mut dice, &sound, &mut load);
    every_length(&mut dice, &sound, &mut load);
    for index in 1..=BOOKS {
        let mut dice = Dice::of(seed, index);
        let bytes = damaged(&mut dice);
        load(&format!("damaged book {index} of seed {seed}"), &bytes);
    }
    seen.table(checks, ROWS);
}

/// The rows of bytes with these faults: the code that is due, and each that stands back behind it.
fn rows(faults: &[u8]) -> Vec<String> {
    let first = match faults.first() {
        None => return vec!["loaded".to_string()],
        Some(first) => first,
    };
    let behind = faults[1..].iter().map(|fault| format!("{first} before {fault}"));
    [first.to_string()].into_iter().chain(behind).collect()
}

/// Each byte takes some other values.
fn every_byte(dice: &mut Dice, sound: &[u8], load: &mut impl FnMut(&str, &[u8])) {
    for place in 0..sound.len() {
        for change in [1, 128, 255, dice.within(1, 255) as u8] {
            let mut bytes = sound.to_vec();
            bytes[place] ^= change;
            load(&format!("byte {place} changed by {change}"), &bytes);
        }
    }
}

/// Cut near the ends and anywhere, and with bytes behind, so many too that a length of 16 bits would begin again.
fn every_length(dice: &mut Dice, sound: &[u8], load: &mut impl FnMut(&str, &[u8])) {
    let near = (0..=80)
        .chain(SAVED - 80..=SAVED + 80)
        .chain([2 * SAVED, 65_536 + SAVED]);
    let random: Vec<usize> = (0..400).map(|_| dice.place(2 * SAVED)).collect();
    for length in near.chain(random) {
        let fill = dice.byte();
        for fill in [0, fill] {
            let mut bytes = sound.to_vec();
            bytes.resize(length, fill);
            load(&format!("{length} bytes"), &bytes);
        }
    }
}

/// A saved book with any of the four faults, or with none; the sum is right where it is not to be wrong.
fn damaged(dice: &mut Dice) -> Vec<u8> {
    let mut bytes = form(&any(dice).words);
    let [mark, format, length, wrong_sum] = [(); 4].map(|()| dice.once_in(2));
    if mark {
        let any = dice.any() as u32;
        let other = *dice.pick(&[*b"sapl", *b"LPAS", *b"SAPM", *b"TAPL", [0; 4], any.to_le_bytes()]);
        bytes[..4].copy_from_slice(&other);
    }
    if format {
        let any = dice.any() as u32;
        let other = *dice.pick(&[0, 2, 255, 256, 257, 1 << 16 | 1, 1 << 24, 1 << 24 | 1, u32::MAX, any]);
        bytes[4..8].copy_from_slice(&other.to_le_bytes());
    }
    let sum = sum(&bytes[..SUM_AT]).to_le_bytes();
    bytes[SUM_AT..].copy_from_slice(&sum);
    if wrong_sum {
        let place = 8 + dice.place(SAVED - 8);
        bytes[place] ^= dice.within(1, 255) as u8;
    }
    if length {
        let any = dice.place(2 * SAVED);
        let other = *dice.pick(&[0, 4, 8, SAVED - 4, SAVED - 1, SAVED + 1, SAVED + 4, any]);
        bytes.resize(other, dice.byte());
    }
    bytes
}
