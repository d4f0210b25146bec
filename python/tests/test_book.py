"""The package over the library: what a book answers, how it refuses, and how it is shared."""
import gc
import os
import pickle
import re
import threading
from datetime import datetime, timezone
from decimal import Decimal

import pytest

from lurvetta import Book, Cell, Closed, DefinedName, ErrorValue, LurvettaError, NewSheet, Refused, Style
from lurvetta.errors import TEXTS
from lurvetta.words import escaped, unescaped

TOP = os.path.dirname(os.path.dirname(os.path.dirname(os.path.realpath(__file__))))


def page(name):
    with open(f"{TOP}/docs/{name}", encoding="utf-8") as it:
        return it.read()


def commands_of_the_page():
    table = page("COMMANDS.md").split("| line | what it does |")[1].split("\n\n")[0]
    first = [line.split(" | ")[0] for line in table.split("\n")[2:]]
    return [name for cell in first for name in re.findall(r"`([a-z_]+)[→`]", cell)]


def test_a_method_for_each_command():
    names = commands_of_the_page()
    assert len(set(names)) == 73
    for name in names:
        assert callable(getattr(Book, name)) and getattr(Book, name).__doc__


def test_refusals_say_what_the_page_says():
    section = page("REFUSALS.md").split("## Those of the book")[1].split("## ")[0]
    rows = re.findall(r"^\| `(\w+)[^`]*`[^|]*\| ([^|]+) \|", section, re.M)
    assert len(rows) > 30
    assert {name: text.strip() for name, text in rows} == TEXTS


def test_the_session_of_the_readme():
    text = page("../README.md").split("## A session")[1].split("## ")[0]
    rows = re.findall(r"^\| `(.+?)` \| `(.+?)` \|$", text, re.M)
    shown = dict([it.replace("→", "\t").replace("\\|", "|") for it in row] for row in rows)
    lines = page("../sample.lines").split("\n")[:-1]
    assert len(shown) > 10
    with Book() as book:
        replies = book.run(lines)
    assert {line: replies[lines.index(line)] for line in shown} == shown
    with Book() as book:
        assert [book.answer(line) for line in lines] == replies


def test_sheets():
    with Book() as book:
        assert repr(book) == "<Book 'workbook' ['Sheet1']>"
        assert book.add_sheet("Data") is None
        assert book.new_sheet() == NewSheet("Sheet2", 2)
        assert book.duplicate_sheet(1) == NewSheet("Data (1)", 2)
        book.insert_sheet("First", 0, 40)
        book.set_sheet_color(0, "#FF0000")
        book.set_sheet_state(0, "hidden")
        first = book.get_worksheets_properties()[0]
        assert (first.name, first.state, first.color, first.id) == ("First", "hidden", "#FF0000", 40)
        book.set_sheet_color(0, None)
        assert book.get_worksheets_properties()[0].color is None
        assert book.get_new_sheet_id() == 41
        with pytest.raises(Refused) as refused:
            book.add_sheet("DATA")
        assert refused.value.variant == "SheetExists"
        assert str(refused.value) == "A worksheet already exists with that name"
        assert pickle.loads(pickle.dumps(refused.value)).variant == "SheetExists"
        book.delete_sheet_by_sheet_id(40)
        book.move_sheet(1, 0)
        book.rename_sheet("data", "Other")
        book.rename_sheet_by_index(1, "Another")
        book.delete_sheet_by_name("OTHER")
        book.delete_sheet(0)


def test_names():
    with Book() as book:
        assert book.is_valid_defined_name("tax", 0, "Sheet1!$A$1") == 1
        assert book.is_valid_defined_name("tax", None, "Sheet1!$A$1") is None
        book.new_defined_name("tax", None, "Sheet1!$A$1")
        book.update_cell_with_formula(0, 1, 2, "=tax+share")
        assert book.would_capture("tax", None, "share", None, "Sheet1!$A$1") is False
        book.update_defined_name("tax", None, "vat", 0, "Sheet1!$A$2")
        assert book.get_defined_name_list() == [DefinedName("vat", 0, "Sheet1!$A$2")]
        assert book.get_cell_formula(0, 1, 2) == "=vat+share"
        book.delete_defined_name("vat", 0)
        with pytest.raises(Refused, match="Defined name not found"):
            book.delete_defined_name("vat", 0)


def test_cells():
    with Book() as book:
        book.set_user_input(0, 1, 1, "19%")
        assert book.get_cell_value_by_index(0, 1, 1) == Decimal("0.19")
        assert book.get_formatted_cell_value(0, 1, 1) == "19%"
        assert book.get_localized_cell_content(0, 1, 1) == "0.19"
        book.update_cell_with_number(0, 1, 2, Decimal("1E+3"))
        assert book.get_cell_value_by_ref("Sheet1!B1") == 1000
        book.update_cell_with_bool(0, 1, 3, True)
        assert book.get_cell_value_by_index(0, 1, 3) is True
        book.update_cell_with_text(0, 1, 4, "a\tb\\\n\r=1")
        assert book.get_cell_value_by_index(0, 1, 4) == "a\tb\\\n\r=1"
        assert book.get_cell_value_by_index(0, 9, 9) is None
        assert book.is_empty_cell(0, 9, 9) and not book.is_empty_cell(0, 1, 1)
        assert book.get_cell_type(0, 1, 3) == "LogicalValue"
        assert book.get_all_cells() == [Cell(0, 1, it) for it in (1, 2, 3, 4)]
        assert book.get_cell_formula(0, 1, 1) is None
        book.update_cell_with_formula(0, 2, 1, "=SUM(A1:B1)")
        assert book.extend_to(0, 2, 1, 3, 1) == "=SUM(A2:B2)"
        assert book.extend_copied_value("=A1", 0, 1, 1, 0, 1, 2) == "=B1"
        book.put_formula_value(0, 2, 1, Decimal("1000.19"))
        assert book.get_cell_value_by_index(0, 2, 1) == Decimal("1000.19")
        book.put_formula_value(0, 2, 1, ErrorValue("#REF!"))
        assert book.get_cell_type(0, 2, 1) == "ErrorValue"
        assert book.parse_reference("Sheet1!B3") == Cell(0, 3, 2) and book.parse_reference("b3") is None
        book.set_user_array_formula(0, 5, 1, 2, 1, "=A1:B1")
        book.put_spill(0, 5, 1, 2, 1, [1, "x"])
        assert book.get_cell_value_by_index(0, 5, 2) == "x"
        book.range_clear_contents(0, 5, 1, 2, 1)
        book.range_clear_all(0, 1, 1, 4, 5)
        assert book.get_all_cells() == []
        assert book.get_sheet_markup(0) == ""


def test_layout():
    with Book() as book:
        style = Style("0.00%", bold=True, fill="#00FF00")
        book.set_column_style(0, 2, style)
        book.set_row_style(0, 3, Style())
        assert book.get_column_style(0, 2) == style and book.get_row_style(0, 3) == Style()
        assert book.get_style_for_cell(0, 1, 2) == style and book.get_cell_style_index(0, 1, 2) == 1
        assert book.get_cell_style_or_none(0, 1, 2) is None
        book.delete_column_style(0, 2)
        book.delete_row_style(0, 3)
        assert book.get_column_style(0, 2) is None
        book.set_column_width(0, 1, 9000)
        book.set_row_height(0, 1, 3000)
        assert book.get_column_width(0, 1) == 9000 and book.get_row_height(0, 2) == 2800
        book.set_column_hidden(0, 1, True)
        book.set_row_hidden(0, 1, True)
        assert book.is_column_hidden(0, 1) and book.is_row_hidden(0, 1) and not book.is_row_hidden(0, 2)
        book.set_show_grid_lines(0, False)
        book.set_frozen_rows(0, 2)
        book.set_frozen_columns(0, 1)
        assert (book.get_frozen_rows_count(0), book.get_frozen_columns_count(0)) == (2, 1)
        book.set_theme("Office")
        assert book.get_theme() == "Office"


def test_languages():
    with Book("de", "de") as book:
        book.set_user_input(0, 1, 1, "=SUMME(A2:A3)*1,5")
        book.set_locale("en")
        book.set_language("en")
        assert book.get_cell_formula(0, 1, 1) == "=SUM(A2:A3)*1.5"
        book.set_timezone("Europe/Berlin")
        assert (book.get_locale(), book.get_language(), book.get_timezone()) == ("en", "en", "Europe/Berlin")
        assert book.get_fmt_settings().currency == "USD"
    for wanted, variant in ((("xx", "en", "UTC"), "InvalidLocale"), (("en", "xx", "UTC"), "InvalidLanguage"), (("xx", "xx", "xx"), "InvalidTimezone")):
        with pytest.raises(Refused) as refused:
            Book(*wanted)
        assert refused.value.variant == variant


def test_large_replies_and_odd_texts():
    text = "é💥\x00\\t" * 20_000
    with Book(moment=datetime(1900, 1, 1, tzinfo=timezone.utc)) as book:
        book.update_cell_with_text(0, 1, 1, text)
        assert book.get_cell_value_by_index(0, 1, 1) == text
        assert unescaped(escaped(text)) == text
        with pytest.raises(UnicodeEncodeError):
            book.update_cell_with_text(0, 1, 1, "\ud800")
        with pytest.raises(ValueError):
            book.run(["a\nb"])
        with pytest.raises(TypeError):
            book.update_cell_with_number(0, 1, 1, 1.5)
        for call, given in ((book.answer, b"get_theme"), (book.answer, None), (book.run_bytes, "get_theme"), (book.run_bytes, 9)):
            with pytest.raises(TypeError):
                call(given)
        assert book.run_bytes(bytearray(b"get_locale")) == b"ok\ten\n" and book.answer("get_locale\x00") == "error\tBadLine"
        assert book.run([]) == [] and book.run(["\r", "no"]) == ["error\tBadLine"] * 2
        assert book.run_bytes(b"\xff\nget_theme") == b"error\tBadLine\nok\t\n"


def test_closed():
    book = Book()
    book.close()
    book.close()
    assert repr(book) == "<Book closed>"
    with pytest.raises(Closed):
        book.get_theme()
    with pytest.raises(LurvettaError):
        book.run(["get_theme"])
    del book
    gc.collect()


def test_threads():
    with Book() as book:
        wrong = []

        def write(column):
            for row in range(1, 301):
                book.update_cell_with_number(0, row, column, row * column)
                if book.get_cell_value_by_index(0, row, column) != row * column:
                    wrong.append((row, column))
                with Book("de", "de") as other:
                    other.set_user_input(0, 1, 1, "1,5")
                    if other.get_cell_value_by_index(0, 1, 1) != Decimal("1.5"):
                        wrong.append("other")

        threads = [threading.Thread(target=write, args=(it,)) for it in range(1, 9)]
        for it in threads:
            it.start()
        for it in threads:
            it.join()
        assert not wrong and len(book.get_all_cells()) == 2400
