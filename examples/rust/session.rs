//! The session of the README, from Rust: `cargo run --offline --example session` in the folder rust.
use lurvetta::{Book, Error};

/// A word stands after each tab.
const LINES: [&str; 27] = [
    "set_user_input\t0\t1\t1\tRent",
    "set_user_input\t0\t1\t2\t1,200.50$",
    "set_user_input\t0\t2\t1\tPower",
    "set_user_input\t0\t2\t2\t85.25$",
    "set_user_input\t0\t3\t1\tVAT",
    "set_user_input\t0\t3\t2\t19%",
    "set_user_input\t0\t4\t2\t=SUM(B1:B2)*(1+vat)+later!B4",
    "new_defined_name\tvat\t0\tSheet1!$B$3",
    "rename_sheet\tSHEET1\tJanuary",
    "duplicate_sheet\t0",
    "rename_sheet_by_index\t1\tFebruary",
    "get_defined_name_list",
    "would_capture\tvat\t1\tshare\t1\tFebruary!$B$3",
    "update_defined_name\tvat\t1\tshare\t1\tFebruary!$B$3",
    "add_sheet\tLater",
    "rename_sheet\tlater\tLast year",
    "set_language\tde",
    "set_locale\tde",
    "get_cell_formula\t1\t4\t2",
    "get_localized_cell_content\t1\t1\t2",
    "get_formatted_cell_value\t1\t1\t2",
    "get_sheet_markup\t1",
    "set_user_input\t1\t2\t2\t92,10",
    "set_user_input\t1\t5\t1\t'12",
    "get_cell_value_by_index\t1\t2\t2",
    "get_cell_formula\t0\t4\t2",
    "add_sheet\tFEBRUARY",
];

fn main() -> Result<(), Error> {
    let mut book = Book::open("budget", "en", "en", "UTC", 0)?;
    for line in LINES {
        println!("{}", book.answer(line)?);
    }
    Ok(())
}
