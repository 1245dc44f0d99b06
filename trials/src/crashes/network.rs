//! The network of one seat, which also kills it: the seat's process, and the pipes to and from it.

use super::steps::{book_of, frame, opening, reply_of, Habit, Place, FRAME, HELD, HOLDS, REFUSALS, TOLD};
use crate::books::lent::{Lent, REPLY};
use crate::shared::daybook::PAGE;
use reference::book::Message;
use std::io::{self, Read, Write};
use std::path::{Path, PathBuf};
use std::process::{Child, ChildStdin, ChildStdout, Command, Stdio};

pub struct Network<'a> {
    program: &'a str,
    file: PathBuf,
    pub habit: Habit,
    seat: Option<Process>,
}

struct Process {
    child: Child,
    to: ChildStdin,
    from: ChildStdout,
}

/// What a seat tells of its work on a message.
pub struct Told {
    pub place: Place,
    /// where it has sent
    pub reply: Option<[u32; REPLY]>,
}

/// What a seat tells as it starts.
pub enum Begun {
    /// it saves a new book
    At(Place),
    /// the book that it goes on with
    Holds(Lent),
    /// the code by which its file is no saved book
    Refused(u8),
}

impl<'a> Network<'a> {
    /// A seat that has no book yet, and keeps it in a file of this folder.
    pub fn new(program: &'a str, folder: &Path, habit: Habit) -> Network<'a> {
        let file = folder.join("book");
        for left in [&file, &file.with_extension("new")] {
            let _ = std::fs::remove_file(left);
        }
        Network {
            program,
            file,
            habit,
            seat: None,
        }
    }

    /// Starts the seat.
    pub fn start(&mut self, page: &[u8; PAGE], part: u16) -> Result<(), String> {
        let started = Command::new(self.program)
            .arg(&self.file)
            .arg(self.habit.name())
            .stdin(Stdio::piped())
            .stdout(Stdio::piped())
            .stderr(Stdio::piped())
            .spawn();
        let mut child = started.map_err(|error| format!("{}: {error}; name the program `seat`", self.program))?;
        let (to, from) = (
            child.stdin.take().expect("a pipe"),
            child.stdout.take().expect("a pipe"),
        );
        self.seat = Some(Process { child, to, from });
        self.with(|seat| seat.to.write_all(&opening(page, part)))
    }

    /// Waits for what the seat tells next, until it holds a book.
    pub fn begun(&mut self) -> Result<Begun, String> {
        let mut byte = [0];
        self.with(|seat| seat.from.read_exact(&mut byte))?;
        match (byte[0], Place::of(byte[0])) {
            (HOLDS, _) => {
                let mut held = [0; HELD];
                self.with(|seat| seat.from.read_exact(&mut held))?;
                Ok(Begun::Holds(book_of(&held)))
            }
            (code, _) if REFUSALS.contains(&code) => Ok(Begun::Refused(code)),
            (_, Some(place)) if Place::OF_SAVES.contains(&place) => Ok(Begun::At(place)),
            (other, _) => Err(format!("the seat tells {other} as it starts")),
        }
    }

    pub fn hand(&mut self, message: &Message, part: u16) -> Result<(), String> {
        let frame: [u8; FRAME] = frame(message, part).try_into().expect("a whole frame");
        self.with(|seat| seat.to.write_all(&frame))
    }

    /// Waits for the next place that the seat comes to.
    pub fn told(&mut self) -> Result<Told, String> {
        let mut byte = [0];
        self.with(|seat| seat.from.read_exact(&mut byte))?;
        let place = Place::of(byte[0]).ok_or(format!("the seat tells {}, which is no place", byte[0]))?;
        let mut reply = [0; TOLD];
        if place == Place::Sent {
            self.with(|seat| seat.from.read_exact(&mut reply))?;
        }
        let reply = (place == Place::Sent).then(|| reply_of(&reply));
        Ok(Told { place, reply })
    }

    pub fn let_go_on(&mut self) -> Result<(), String> {
        self.with(|seat| seat.to.write_all(&[0]))
    }

    /// Kills the seat where it stands.
    pub fn kill(&mut self) -> Result<(), String> {
        let mut seat = self.seat.take().ok_or("no seat runs")?;
        let killed = seat.child.kill().and_then(|()| seat.child.wait());
        killed
            .map(drop)
            .map_err(|error| format!("the seat cannot be killed: {error}"))
    }

    /// Does this with the seat. Where that fails, the seat has ended, and what it said then is told.
    fn with(&mut self, act: impl FnOnce(&mut Process) -> io::Result<()>) -> Result<(), String> {
        let seat = self.seat.as_mut().ok_or("no seat runs")?;
        let error = match act(seat) {
            Ok(()) => return Ok(()),
            Err(error) => error,
        };
        let said = self.seat.take().map(|seat| seat.child.wait_with_output());
        let said = said.and_then(|output| Some(String::from_utf8_lossy(&output.ok()?.stderr).into_owned()));
        Err(format!(
            "the seat ended ({error}): {}",
            said.unwrap_or_default().trim_end()
        ))
    }
}

/// No seat is left behind.
impl Drop for Network<'_> {
    fn drop(&mut self) {
        if self.seat.is_some() {
            let _ = self.kill();
        }
    }
}
