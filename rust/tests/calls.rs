//! Books through the library: refusals, large replies, threads.

use lurvetta::{Book, Error, escaped, unescaped};
use std::thread;

fn new() -> Book {
    Book::open("book", "en", "en", "UTC", 0).unwrap()
}

#[test]
fn a_book_is_sent_to_threads() {
    fn is_send<T: Send>(_: &T) {}
    let mut book = new();
    is_send(&book);
    for turn in 1..=8 {
        book = thread::spawn(move || {
            let row = turn.to_string();
            book.ask(&["update_cell_with_number", "0", &row, "1", &row]).unwrap();
            let mut other = new();
            other.ask(&["add_sheet", &row]).unwrap();
            book
        })
        .join()
        .unwrap();
    }
    assert_eq!(book.ask(&["get_all_cells"]).unwrap().len(), 24);
}

#[test]
fn threads_open_books_at_once() {
    let all: Vec<_> = (0..8)
        .map(|_| {
            thread::spawn(|| {
                for _ in 0..50 {
                    assert_eq!(new().ask(&["get_locale"]).unwrap(), ["en"]);
                }
            })
        })
        .collect();
    all.into_iter().for_each(|it| it.join().unwrap());
}

#[test]
fn refusals_have_names() {
    let mut book = new();
    let refused = |why: &str| Err(Error::Refused(why.into()));
    assert_eq!(book.ask(&["add_sheet", "SHEET1"]), refused("SheetExists"));
    assert_eq!(book.ask(&["no"]), refused("BadLine"));
    assert_eq!(book.answer("add_sheet\tSHEET1").unwrap(), "error\tSheetExists");
    for (ids, why) in [(["xx", "en", "UTC"], "InvalidLocale"), (["en", "xx", "UTC"], "InvalidLanguage"), (["en", "en", "utc"], "InvalidTimezone")] {
        let [locale, language, zone] = ids;
        assert_eq!(Book::open("b", locale, language, zone, 0).map(|_| Vec::<String>::new()), refused(why));
    }
    assert_eq!(Book::open("b", "en", "en", "UTC", i64::MAX).err(), Some(Error::InvalidMoment));
}

#[test]
fn replies_are_as_large_as_they_are() {
    let text = "é💥\0\\t\n\r\t".repeat(50_000);
    let mut book = new();
    book.ask(&["update_cell_with_text", "0", "1", "1", &text]).unwrap();
    assert_eq!(book.ask(&["get_cell_value_by_index", "0", "1", "1"]).unwrap(), ["string", &text]);
    assert_eq!(unescaped(&escaped(&text)), text);
    assert_eq!(book.run("get_locale\nget_theme\r\n\nno").unwrap(), "ok\ten\nok\t\nerror\tBadLine\nerror\tBadLine\n");
    assert_eq!(book.run("").unwrap(), "");
}
