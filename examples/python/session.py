"""The session of the README, by calls of `Book`: python3 examples/python/session.py, with python/ in PYTHONPATH or installed."""
from lurvetta import Book, Refused


def main() -> None:
    with Book() as book:
        for row, (what, amount) in enumerate((("Rent", "1,200.50$"), ("Power", "85.25$"), ("VAT", "19%")), 1):
            book.set_user_input(0, row, 1, what)
            book.set_user_input(0, row, 2, amount)
        book.set_user_input(0, 4, 2, "=SUM(B1:B2)*(1+vat)+later!B4")
        book.new_defined_name("vat", 0, "Sheet1!$B$3")
        book.rename_sheet("SHEET1", "January")
        print(book.duplicate_sheet(0))
        book.rename_sheet_by_index(1, "February")
        print(book.get_defined_name_list())
        print(book.would_capture("vat", 1, "share", 1, "February!$B$3"))
        book.update_defined_name("vat", 1, "share", 1, "February!$B$3")
        book.add_sheet("Later")
        book.rename_sheet("later", "Last year")
        book.set_language("de")
        book.set_locale("de")
        print(book.get_cell_formula(1, 4, 2))
        print(book.get_localized_cell_content(1, 1, 2))
        print(book.get_formatted_cell_value(1, 1, 2))
        print(book.get_sheet_markup(1))
        book.set_user_input(1, 2, 2, "92,10")
        book.set_user_input(1, 5, 1, "'12")
        print(book.get_cell_value_by_index(1, 2, 2))
        print(book.get_cell_formula(0, 4, 2))
        try:
            book.add_sheet("FEBRUARY")
        except Refused as refused:
            print(f"{refused.variant}: {refused}")
        print(book)


if __name__ == "__main__":
    main()
