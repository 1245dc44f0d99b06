//! The seat: it keeps its book in a file, over the static library. For each message it calls, saves the book durably,
//! and sends the reply.

use super::steps::{bytes_of, part_of, unframed, Habit, Place, FRAME, HOLDS, OPENING, REFUSALS};
use crate::books::lent::{Lent, REPLY, SAVED};
use crate::shared::daybook::PAGE;
use std::fs::{self, File};
use std::io::{self, Read, Write};
use std::path::{Path, PathBuf};

struct Seat<'a> {
    file: &'a Path,
    habit: Habit,
    lent: Lent,
}

/// Works on the messages that come, until no more do. First comes the page that opens the book, where none is saved.
pub fn run(file: &Path, habit: Habit) -> Result<(), String> {
    let mut opening = [0; OPENING];
    let ended = |error| format!("the network went away: {error}");
    let unsaved = |error| format!("{}: {error}; the book has to be saved", file.display());
    io::stdin().read_exact(&mut opening).map_err(ended)?;
    let (page, part) = opening.split_at(PAGE);
    let is_new = !file.exists();
    let lent = if is_new { open(page)? } else { load(file)? };
    let mut seat = Seat { file, habit, lent };
    if is_new {
        seat.save(part_of(part)).map_err(unsaved)?;
    }
    say(&[&[HOLDS], &bytes_of(&seat.lent.words[..])[..]].concat()).map_err(ended)?;
    let mut frame = [0; FRAME];
    while io::stdin().read_exact(&mut frame).is_ok() {
        seat.meet(&frame).map_err(unsaved)?;
    }
    Ok(())
}

/// The book that is saved. The network is told the code where it is none.
fn load(file: &Path) -> Result<Lent, String> {
    let wrong = |what: String| format!("{}: {what}; put the copy here that was saved last", file.display());
    let bytes = fs::read(file).map_err(|error| wrong(error.to_string()))?;
    let mut lent = Lent::default();
    match lent.load(&bytes) {
        0 => Ok(lent),
        code => {
            if REFUSALS.contains(&code) {
                say(&[code]).map_err(|error| wrong(error.to_string()))?;
            }
            Err(wrong(format!("no saved book, refused by {code}")))
        }
    }
}

/// A new book, which is to be saved before any message comes.
fn open(page: &[u8]) -> Result<Lent, String> {
    let mut lent = Lent::default();
    match lent.open(page) {
        0 => Ok(lent),
        code => Err(format!("the page is refused by {code}; hand over one that opens")),
    }
}

fn saved(lent: &Lent) -> [u8; SAVED] {
    let mut saved = [0; SAVED];
    lent.save(&mut saved);
    saved
}

fn say(bytes: &[u8]) -> io::Result<()> {
    let mut out = io::stdout().lock();
    out.write_all(bytes)?;
    out.flush()
}

/// Tells the place, and what belongs to it; then waits for a byte.
fn tell(place: Place, more: &[u8]) -> io::Result<()> {
    say(&[&[place.byte()], more].concat())?;
    io::stdin().read_exact(&mut [0])
}

impl Seat<'_> {
    fn meet(&mut self, frame: &[u8; FRAME]) -> io::Result<()> {
        let (sent, part) = unframed(frame);
        let reply = self.lent.call(&sent);
        tell(Place::Called, &[])?;
        if self.habit == Habit::SendThenSave {
            send(reply)?;
            return self.save(part);
        }
        self.save(part)?;
        send(reply)
    }

    /// The book into a new file, of which at first only a part is written; then that becomes the file.
    fn save(&self, part: usize) -> io::Result<()> {
        let saved = saved(&self.lent);
        let new = self.new_file();
        let mut out = File::create(&new)?;
        out.write_all(&saved[..part])?;
        tell(Place::Half, &[])?;
        out.write_all(&saved[part..])?;
        out.sync_all()?;
        tell(Place::Written, &[])?;
        fs::rename(&new, self.file)?;
        // the name is durable once its folder is
        File::open(self.file.parent().unwrap_or(self.file))?.sync_all()?;
        tell(Place::Saved, &[])
    }

    fn new_file(&self) -> PathBuf {
        match self.habit {
            Habit::WriteOver => self.file.to_path_buf(),
            _ => self.file.with_extension("new"),
        }
    }
}

fn send(reply: [u32; REPLY]) -> io::Result<()> {
    tell(Place::Sent, &bytes_of(&reply))
}
