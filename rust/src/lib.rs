//! A workbook whose formulas follow their sheets and names through renames, moves and languages.
//!
//! ```
//! use lurvetta::Book;
//!
//! /// A typed formula after its sheet came and got another name, in French.
//! fn shown_after(typed: &str) -> Result<Option<String>, lurvetta::Error> {
//!     let mut book = Book::open("budget", "en", "en", "UTC", 0)?;
//!     book.ask(&["update_cell_with_formula", "0", "1", "1", typed])?;
//!     book.ask(&["add_sheet", "Data"])?;
//!     book.ask(&["rename_sheet", "DATA", "My data"])?;
//!     book.ask(&["set_language", "fr"])?;
//!     book.ask(&["set_locale", "fr"])?;
//!     Ok(book.ask(&["get_cell_formula", "0", "1", "1"])?.pop())
//! }
//!
//! assert_eq!(
//!     shown_after("=SUM(data!B2:B9)*1.5")?.as_deref(),
//!     Some("=SOMME('My data'!B2:B9)*1,5")
//! );
//! # Ok::<(), lurvetta::Error>(())
//! ```
//!
//! Commands are those of docs/COMMANDS.md. Sheets count from 0, rows and columns from 1.
#![warn(missing_docs)]

mod library;

use library::{Room, Tables};
use std::{fmt, sync::Mutex};

/// The tables of all books of this process.
static TABLES: Mutex<Tables> = Mutex::new(Tables::new());

/// The bytes that a reply has room for before it is asked for again, at first.
const ROOM: usize = 4096;

/// The largest room that is kept for the next reply.
const MOST_KEPT: usize = 1 << 20;

/// Why a call failed. After a call of one line the book is as it was.
#[derive(Clone, Debug, PartialEq, Eq)]
pub enum Error {
    /// Memory ran out. Of several lines the first ones were answered, and these are their replies.
    NoMemory(String),
    /// The command was refused: the name of the refusal, as `SheetExists` (docs/REFUSALS.md).
    Refused(String),
    /// The moment is outside the years -9999 to 9999.
    InvalidMoment,
}

impl fmt::Display for Error {
    fn fmt(&self, f: &mut fmt::Formatter<'_>) -> fmt::Result {
        match self {
            Error::NoMemory(_) => f.write_str("memory ran out"),
            Error::Refused(why) => write!(f, "refused: {why}"),
            Error::InvalidMoment => f.write_str("the moment is outside the years -9999 to 9999"),
        }
    }
}

impl std::error::Error for Error {}

/// A workbook. It is closed where it is dropped, and may be sent to another thread.
pub struct Book {
    room: Room,
    out: Vec<u8>,
}

impl Book {
    /// A new book with one sheet, with this name, locale, language and time zone (`en`, `en` and `UTC`), made at this moment
    /// in milliseconds after the Unix epoch.
    ///
    /// `InvalidMoment`, then `Refused` with `InvalidTimezone`, `InvalidLocale`, `InvalidLanguage`; `NoMemory`.
    pub fn open(name: &str, locale: &str, language: &str, zone: &str, milliseconds: i64) -> Result<Book, Error> {
        let mut tables = TABLES.lock().unwrap_or_else(|e| e.into_inner());
        let mut room = Room::new();
        match library::open(&mut room, &mut tables, name, locale, language, zone, milliseconds) {
            library::OK => Ok(Book { room, out: vec![0; ROOM] }),
            library::INVALID_MOMENT => Err(Error::InvalidMoment),
            library::INVALID_TIMEZONE => Err(Error::Refused("InvalidTimezone".into())),
            library::INVALID_LOCALE => Err(Error::Refused("InvalidLocale".into())),
            library::INVALID_LANGUAGE => Err(Error::Refused("InvalidLanguage".into())),
            _ => Err(Error::NoMemory(String::new())),
        }
    }

    /// The reply to a command line, without the line feed at its end. A line feed within the line is a character like another.
    pub fn answer(&mut self, line: &str) -> Result<String, Error> {
        let (status, told) = library::answer(&mut self.room, line.as_bytes(), &mut self.out);
        let mut reply = self.reply(status, told)?;
        reply.pop();
        Ok(reply)
    }

    /// The replies to lines, each of which ends with a line feed, in one call: one a line, each with a line feed at its end.
    pub fn run(&mut self, lines: &str) -> Result<String, Error> {
        let (status, told) = library::run(&mut self.room, lines.as_bytes(), &mut self.out);
        self.reply(status, told)
    }

    /// The fields of the reply to a command, which is given by its words: escapes are written and read here.
    pub fn ask(&mut self, words: &[&str]) -> Result<Vec<String>, Error> {
        let line = words.iter().map(|it| escaped(it)).collect::<Vec<_>>().join("\t");
        let reply = self.answer(&line)?;
        let mut fields = reply.split('\t');
        match fields.next() {
            Some("ok") => Ok(fields.map(unescaped).collect()),
            _ => Err(Error::Refused(fields.next().unwrap_or_default().to_owned())),
        }
    }

    /// What a call told: its reply stands in `out`, or is copied there now.
    fn reply(&mut self, status: u8, told: usize) -> Result<String, Error> {
        if status != library::OK && told > 0 {
            self.out.resize(told.max(self.out.len()), 0);
            library::copy(&mut self.room, &mut self.out);
        }
        let reply = String::from_utf8_lossy(&self.out[..told]).into_owned();
        if self.out.len() > MOST_KEPT {
            self.out = vec![0; ROOM];
        }
        match status {
            library::OK | library::NO_ROOM => Ok(reply),
            _ => Err(Error::NoMemory(reply)),
        }
    }
}

impl Drop for Book {
    fn drop(&mut self) {
        library::close(&mut self.room);
    }
}

impl fmt::Debug for Book {
    fn fmt(&self, f: &mut fmt::Formatter<'_>) -> fmt::Result {
        f.debug_struct("Book").finish_non_exhaustive()
    }
}

/// A text as it is written in a word of a line.
pub fn escaped(text: &str) -> String {
    let mut word = String::with_capacity(text.len());
    for it in text.chars() {
        match it {
            '\\' => word.push_str("\\\\"),
            '\t' => word.push_str("\\t"),
            '\n' => word.push_str("\\n"),
            '\r' => word.push_str("\\r"),
            _ => word.push(it),
        }
    }
    word
}

/// The text that a word of a reply spells.
pub fn unescaped(word: &str) -> String {
    let mut text = String::with_capacity(word.len());
    let mut left = word.chars();
    while let Some(it) = left.next() {
        text.push(match it {
            '\\' => match left.next() {
                Some('t') => '\t',
                Some('n') => '\n',
                Some('r') => '\r',
                _ => '\\',
            },
            _ => it,
        });
    }
    text
}
