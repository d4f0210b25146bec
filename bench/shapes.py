"""Command lines by kind, for bench/run. Each function yields so many lines; rows and columns of cells count from 1."""

FUNCTIONS = ["SUM", "AVERAGE", "MIN", "MAX", "COUNT", "IF", "ROUND", "ABS"]
SHEETS = ["Data", "Sheet1", "Budget", "Next"]
LANGUAGES = ["en", "es", "fr", "de", "it"]
ROWS = 100_000


def put(i, text, sheet=0):
    """The line that writes the formula of number i into a cell of its own."""
    return f"update_cell_with_formula\t{sheet}\t{i % ROWS + 1}\t{i // ROWS + 1}\t={text}"


def formulas(count):
    """Different formulas of some 37 characters and ten tokens."""
    x = 12345
    for i in range(1, count + 1):
        x = (x * 1103515245 + 12345) % 2147483648
        a, b, c = i % 1000 + 1, i // 1000 + 1, x % 97 + 2
        name, sheet = FUNCTIONS[i % 8], SHEETS[x % 4]
        yield (
            f"{name}({sheet}!$A${a}:$B${a + 9})*{i % 100}%+{b}",
            f"{name}(B{c},'My data'!$C${a},2.5)+{i}",
            f'IF($A${a}>{i},"yes {b}",$A${b}&"no")',
            f"{name}({{1,2;3,{i}}},D{c})/$C${a}",
            f"($A${a}-{sheet}!C{c})^2*{name}({i},0.75)",
        )[i % 5]


def stored_formulas(count):
    """Formulas of the same forms as they are written in the stored form."""
    x = 12345
    for i in range(1, count + 1):
        x = (x * 1103515245 + 12345) % 2147483648
        a, b, c = i % 1000 + 1, i // 1000 + 1, x % 97 + 2
        name, sheet = FUNCTIONS[i % 8], SHEETS[x % 4]
        yield (
            f"{name}({sheet}!R{a}C1:R{a + 9}C2)*{i % 100}%+{b}",
            f"{name}(R[{c}]C[1],'My data'!R{a}C3,2.5)+{i}",
            f'IF(R{a}C1>{i},"yes {b}",R{a}C2&"no")',
            f"{name}({{1,2;3,{i}}},R[{c}]C[3])/R{a}C3",
            f"(R{a}C1-{sheet}!R[{c}]C[2])^2*{name}({i},0.75)",
        )[i % 5]


def sheets_named(*names):
    return [f"add_sheet\t{name}" for name in names]


def different(count):
    """Each formula is another, and three of its sheets aren't there."""
    for i, text in enumerate(formulas(count), 1):
        yield put(i, text)


def all_shown(count):
    """Each of these formulas once."""
    for i in range(1, count + 1):
        yield f"get_cell_formula\t0\t{i % ROWS + 1}\t{i // ROWS + 1}"


def thousand_sheets(each):
    """Different formulas in 1,000 sheets, so many in each."""
    yield from (f"add_sheet\tPart {n}" for n in range(1, 1_000))
    for i, text in enumerate(formulas(1_000 * each)):
        yield f"update_cell_with_formula\t{i % 1_000}\t{i // 1_000 + 1}\t1\t={text}"


def thousand_shown(each):
    for i in range(1_000 * each):
        yield f"get_cell_formula\t{i % 1_000}\t{i // 1_000 + 1}\t1"


def texts_written(count):
    """As many texts, each another one."""
    for i in range(1, count + 1):
        yield f"update_cell_with_text\t0\t{i % ROWS + 1}\t{i // ROWS + 1}\tA text of some length, {i}"


def rows_of(lines):
    """Rows that answer lines over a new book."""
    yield "new_empty\ten\ten\tUTC"
    for line in lines:
        yield "line\t" + line.replace("\\", "\\\\").replace("\t", "\\t")


def found(count):
    """The same in a book that has all their sheets."""
    yield from sheets_named("Data", "Budget", "Next", "My data")
    yield from different(count)


def filled_down(count):
    """One formula with relative references, as filling down a column writes it."""
    for i in range(1, count + 1):
        yield put(i, f"SUM(A{i % ROWS + 1}:B{i % ROWS + 1})*2.5%+IF(C{i % ROWS + 1}>1,\"yes\",D{i % ROWS + 1})")


def short_filled(count):
    """A short formula with relative references, filled down likewise."""
    for i in range(1, count + 1):
        yield put(i, f"SUM(A{i % ROWS + 1}:B{i % ROWS + 1})*2")


def one_text(count):
    """One formula with absolute references in all cells."""
    for i in range(1, count + 1):
        yield put(i, 'SUM(Data!$A$1:$B$9)*2.5%+IF($B$2>1,"yes",$C$3)')


def fifty_sheets(count):
    """Different formulas in 50 sheets, each of which mentions two others."""
    yield from (f"add_sheet\tPart {n}" for n in range(1, 50))
    for i in range(1, count + 1):
        one, other = i % 49 + 1, i * 7 % 49 + 1
        yield put(i // 50, f"SUM('Part {one}'!$A${i}:$B${i})+'Part {other}'!C{i % 100 + 1}*{i}", i % 50)


def wide_names(count):
    """Different formulas that mention sheets whose names are long and not ASCII."""
    names = ["Übersicht der Straßenbaukosten", "Данные за отчётный период", "Σύνολο εσόδων και εξόδων", "年間売上高の一覧表"]
    yield from sheets_named(*names)
    for i in range(1, count + 1):
        yield put(i, f"'{names[i % 4]}'!$A${i}*'{names[(i + 1) % 4].upper()}'!B{i % 100 + 1}")


def thousand_terms(count):
    """Formulas of a thousand terms each."""
    for i in range(1, count + 1):
        yield put(i, "+".join(f"A{(i + n) % 9999 + 1}" for n in range(1000)))


def shown(count):
    for i in range(1, count + 1):
        at = (i - 1) % ROWS + 1
        yield f"get_cell_formula\t0\t{at % ROWS + 1}\t{at // ROWS + 1}"


def no_command(count):
    for i in range(1, count + 1):
        yield f"update_cell\t0\t{i}\t1\t=1"


def definitions(count):
    """Definitions for all sheets, references and LAMBDAs in turn."""
    for i in range(1, count + 1):
        body = f"Data!$A${i}" if i % 2 else f"=LAMBDA(x,x*Sheet1!$B${i})"
        yield f"new_defined_name\tname_{i}\t-\t{body}"


def with_definitions(count):
    """Formulas that mention two of 10,000 definitions each."""
    for i in range(1, count + 1):
        yield put(i, f"name_{i % 5000 * 2 + 1}*{i % 100}+name_{i % 4999 * 2 + 2}({i})")


def renames(count):
    for i in range(1, count + 1):
        yield f"rename_sheet_by_index\t1\tN{i}"


def moves(count):
    for i in range(1, count + 1):
        yield f"move_sheet\t0\t{i % 4}"


def sheets(count, letter="T"):
    for i in range(1, count + 1):
        yield f"add_sheet\t{letter}{i}"


def more_definitions(count):
    for i in range(1, count + 1):
        yield f"new_defined_name\tmore_{i}\t-\tData!$A${i}"


def own_definitions(count):
    for i in range(1, count + 1):
        yield f"new_defined_name\town_{i}\t0\tData!$A${i}"


def deleted_definitions(count):
    for i in range(1, count + 1):
        yield f"delete_defined_name\tname_{i}\t-"


def mentioning(count, many=100):
    """A book of so many formulas, and of many more that mention one definition."""
    yield from found(count)
    yield "new_defined_name\ttax_0\t-\tData!$A$1"
    for i in range(1, many + 1):
        yield f"update_cell_with_formula\t1\t{i}\t1\t=tax_0*{i}"


def updates(count):
    """The definition gets another name, each time a new one."""
    for i in range(count):
        yield f"update_defined_name\ttax_{i}\t-\ttax_{i + 1}\t-\tData!$A$1"


def questions(count):
    for _ in range(count):
        yield "would_capture\ttax_0\t-\tlevy\t-\tData!$A$1"


def copies(count):
    for _ in range(count):
        yield "duplicate_sheet\t0"


def mentioned_first(count):
    """A sheet is mentioned, then added, and then another formula is written."""
    for i in range(1, count + 1):
        yield put(900_000 + 2 * i, f"Late{i}!$A$1")
        yield f"add_sheet\tLate{i}"
        yield put(900_001 + 2 * i, f"Late{i}!$A$2+{i}")


def some_of_sheet(count, many, sheet, other):
    """Formulas of which as many as are told, spread evenly, mention one sheet, and all others another one."""
    apart = count // many
    for i in range(1, count + 1):
        yield put(i, f"SUM({sheet if i % apart == 0 else other}!$A${i % 1000 + 1}:$B$2)*{i}")


def dangling(count, sheet):
    """So many sheets, one of which mentions a sheet that isn't there and doesn't come."""
    yield from sheets(count)
    yield put(999_999, "Nowhere!$A$1", sheet)


def let(count):
    """A LET with so many variables, each of which mentions the one before."""
    pairs = ",".join(f"v_{n},v_{n - 1}+1" if n else "v_0,1" for n in range(count))
    yield put(1, f"LET({pairs},v_{count - 1})")


def lambda_used(count):
    """A LAMBDA with so many parameters, each used once."""
    names = [f"p_{n}" for n in range(count)]
    yield put(1, f"LAMBDA({','.join(names)},{'+'.join(names[:1000])})")


def plain_filled(count):
    """A short formula without a word, which each language has, filled down."""
    for i in range(1, count + 1):
        yield put(i, f"(A{i % ROWS + 1}+B{i % ROWS + 1})*2")


def choices(users):
    """So many users, who choose the five languages in turns."""
    for i in range(users):
        yield f"user {i}\tset_language\t{LANGUAGES[i % 5]}"


def of_users(lines, users):
    """These lines, sent by so many users in turns."""
    for i, line in enumerate(lines):
        yield f"user {i % users}\t{line}"


def whole_numbers(count, cells):
    """Different whole numbers, typed into so many cells over and over."""
    for i in range(count):
        yield f"set_user_input\t{cell(i % cells)}\t{i * 7919 % 1_000_003}"


def records(count):
    """Records of ten fields: four numbers, two dates, three texts and a formula."""
    numbers, texts, dates = typed_numbers(4 * count), typed_texts(3 * count), typed_dates(2 * count)
    for row in range(1, count + 1):
        one, two, three, four = (next(numbers) for _ in range(4))
        yield [next(dates), next(texts), one, two, next(dates), next(texts), three, next(texts), four, f"=C{row}*D{row}-SUM(G{row}:I{row})"]


def typed_records(rows):
    """The same fields, typed by lines."""
    for row, fields in enumerate(rows, 1):
        for column, field in enumerate(fields, 1):
            yield f"set_user_input\t0\t{row}\t{column}\t{field}"


def shown_of_sheets(count):
    """Formulas that mention the last of so many sheets, shown again and again."""
    yield from sheets(count)
    yield put(1, f"T{count}!$A$1+T{count // 2}!$A$1")


def cell(i):
    """The words of the cell of number i of the first sheet, each another."""
    return f"0\t{i % ROWS + 1}\t{i // ROWS + 1}"


def numbers(count, start=0):
    """Numbers with and without decimals and signs, each written into a cell of its own."""
    for i in range(count):
        amount = (i + start) * 7919 % 1_000_003
        yield f"update_cell_with_number\t{cell(i)}\t{'-' if i % 5 == 0 else ''}{amount}{f'.{i % 97:02}' if i % 3 else ''}"


def booleans(count):
    for i in range(count):
        yield f"update_cell_with_bool\t{cell(i)}\t{'true' if i % 3 else 'false'}"


def values(count):
    """The values of the same cells."""
    for i in range(count):
        yield f"get_cell_value_by_index\t{cell(i)}"


def typed(texts):
    """Texts as one types them, each into another cell."""
    for i, text in enumerate(texts):
        yield f"set_user_input\t{cell(i)}\t{text}"


def typed_numbers(count):
    """Different numbers: plain, in groups, as a percentage and with a currency."""
    for i in range(count):
        whole, sign = i * 7919 % 1_000_003, "-" if i % 5 == 0 else ""
        yield sign + (f"{whole}.{i % 97:02}", f"{whole + 1_000_000:,}.{i % 97:02}", f"{whole}.5%", f"${whole:,}.{i % 97:02}")[i % 4]


def typed_texts(count):
    """Different texts: plain ones, codes after a quote, and such as begin like a number."""
    for i in range(count):
        yield (f"Invoice {i} of the second quarter", f"'00{i}", f"{i} of {count} pieces")[i % 3]


def typed_dates(count):
    """Different days in turns by both forms."""
    for i in range(count):
        year, month, day = i % 8_000 + 1900, i // 8_000 % 12 + 1, i // 96_000 % 28 + 1
        yield f"{year}-{month:02}-{day:02}" if i % 2 else f"{month}/{day}/{year}"


def typed_formulas(count):
    for text in formulas(count):
        yield f"={text}"


def read_back(count, command):
    """A command on the cells of these numbers."""
    for i in range(count):
        yield f"{command}\t{cell(i)}"


def mixed(count):
    """Numbers, texts and dates in turns in ten columns, every third row bold."""
    for row in range(1, count // 10 + 1, 3):
        yield f"set_row_style\t0\t{row}\tGeneral\t0\t1\t-"
    texts = zip(typed_numbers(count), typed_texts(count), typed_dates(count))
    for i, three in enumerate(texts):
        yield f"set_user_input\t0\t{i // 10 + 1}\t{i % 10 + 1}\t{three[i % 3]}"


def markups(count):
    return ["get_sheet_markup\t0"] * count


def long_texts(count, many):
    """So many different texts of 100 characters, typed in turns."""
    for i in range(count):
        yield f"Text {i % many} ".ljust(100, "x")


def row_heights(count):
    for i in range(count):
        yield f"set_row_height\t0\t{i * 7919 % 1_000_003 + 1}\t{i % 5_000}"


def row_heights_read(count):
    for i in range(count):
        yield f"get_row_height\t0\t{i + 1}"


def row_styles(count, many):
    """So many different styles, each set for row after row."""
    for i in range(count):
        yield f"set_row_style\t0\t{i + 1}\t#,##0.00 [{i % many}]\t0\t{i % 2}\t{'#FF8800' if i % 3 else '-'}"


def row_styles_read(count):
    for i in range(count):
        yield f"get_row_style\t0\t{i + 1}"


def array_places(count, width, height):
    """The first places of so many blocks, a hundred of them below each other."""
    for i in range(count):
        yield i % 100 * height + 1, i // 100 * width + 1


def plain_formulas(count):
    """Formulas with one value each, by one text."""
    for i in range(count):
        yield f"update_cell_with_formula\t{cell(i)}\t=7*2"


def formula_values(count, more=0):
    """Values of the formulas of the same cells."""
    for i in range(count):
        yield f"put_formula_value\t{cell(i)}\tn:{i * 7919 % 1_000_003 + more}.25"


def dynamic_formulas(count, width, height):
    """Formulas that may spill, each with room for so many columns and rows."""
    for row, column in array_places(count, width, height):
        yield f"update_cell_with_formula\t0\t{row}\t{column}\t=XA1:XB9"


def spilled(count, width, height, more=0):
    """A value for each cell of their arrays."""
    for i, (row, column) in enumerate(array_places(count, width, height)):
        values = "\t".join(f"n:{i * 31 + n + more}.5" for n in range(width * height))
        yield f"put_spill\t0\t{row}\t{column}\t{width}\t{height}\t{values}"


def array_formulas(count, width, height):
    """Array formulas, each in a block of its own."""
    for row, column in array_places(count, width, height):
        yield f"set_user_array_formula\t0\t{row}\t{column}\t{width}\t{height}\t=XA1:XB9"


def cleared_blocks(count, width, height, command="range_clear_contents"):
    """The blocks, cleared."""
    for row, column in array_places(count, width, height):
        yield f"{command}\t0\t{row}\t{column}\t{width}\t{height}"


def each_command(count):
    """Each command: its name, what stands before, and so many lines of it."""
    cells = [f"set_user_input\t0\t{i}\t1\t{i}" for i in range(1, 101)] + [f"set_user_input\t0\t{i}\t2\t=A{i}*2+SUM(A1:A9)" for i in range(1, 101)]
    names = [f"new_defined_name\tname_{i}\t-\tSheet1!$A${i}" for i in range(count + 1)]
    sheets = [f"add_sheet\tT{i}" for i in range(count + 1)]
    dynamic = ["set_user_input\t0\t1\t5\t=A1:B2"]
    def same(line, before=cells):
        return before, [line] * count
    def every(form, before=cells):
        return before, [form.format(i) for i in range(1, count + 1)]
    def turns(one, other, before=cells):
        return before, [one, other] * (count // 2)
    style = "#,##0.00\t0\t1\t-"
    kinds = {
        "add_sheet": every("add_sheet\tS{}"), "insert_sheet": every("insert_sheet\tS{}\t0\t-"), "new_sheet": same("new_sheet"), "duplicate_sheet": same("duplicate_sheet\t0", []),
        "rename_sheet": turns("rename_sheet\tSheet1\tA", "rename_sheet\tA\tSheet1"), "rename_sheet_by_index": turns("rename_sheet_by_index\t0\tA", "rename_sheet_by_index\t0\tB"),
        "move_sheet": same("move_sheet\t0\t1", ["add_sheet\tT"]), "delete_sheet": same("delete_sheet\t1", sheets), "delete_sheet_by_name": every("delete_sheet_by_name\tT{}", sheets),
        "delete_sheet_by_sheet_id": (sheets, [f"delete_sheet_by_sheet_id\t{i + 2}" for i in range(count)]), "new_defined_name": every("new_defined_name\tname_{}\t-\tSheet1!$A$1"),
        "delete_defined_name": every("delete_defined_name\tname_{}\t-", names), "update_defined_name": turns("update_defined_name\ta\t-\tb\t-\tSheet1!$A$1", "update_defined_name\tb\t-\ta\t-\tSheet1!$A$1", ["new_defined_name\ta\t-\tSheet1!$A$1", *cells]),
        "would_capture": same("would_capture\ta\t-\tb\t-\tSheet1!$A$1", ["new_defined_name\ta\t-\tSheet1!$A$1", *cells]), "is_valid_defined_name": same("is_valid_defined_name\ta\t-\tSheet1!$A$1"),
        "get_defined_name_list": same("get_defined_name_list", ["new_defined_name\ta\t-\tSheet1!$A$1"]), "get_new_sheet_id": same("get_new_sheet_id"), "get_worksheets_properties": same("get_worksheets_properties"),
        "set_locale": turns("set_locale\tde", "set_locale\ten"), "set_language": turns("set_language\tde", "set_language\ten"), "set_timezone": turns("set_timezone\tUTC", "set_timezone\tEurope/Berlin"),
        "get_locale": same("get_locale"), "get_language": same("get_language"), "get_timezone": same("get_timezone"), "get_fmt_settings": same("get_fmt_settings"),
        "set_user_input": every("set_user_input\t0\t{}\t3\t12.5"), "update_cell_with_text": every("update_cell_with_text\t0\t{}\t3\tsome text"), "update_cell_with_formula": every("update_cell_with_formula\t0\t{0}\t3\t=A{0}*2"),
        "update_cell_with_bool": every("update_cell_with_bool\t0\t{}\t3\ttrue"), "update_cell_with_number": every("update_cell_with_number\t0\t{}\t3\t12.5"),
        "set_user_array_formula": every("set_user_array_formula\t0\t{}\t7\t2\t1\t=A1:B1"), "range_clear_contents": same("range_clear_contents\t0\t1\t1\t2\t2"), "range_clear_all": same("range_clear_all\t0\t200\t1\t2\t2"),
        "put_formula_value": same("put_formula_value\t0\t1\t2\tn:4"), "put_spill": same("put_spill\t0\t1\t5\t2\t2\tn:1\tn:2\tn:3\tn:4", dynamic),
    }
    for name in ("get_cell_formula", "get_localized_cell_content", "get_formatted_cell_value", "get_cell_value_by_index", "get_cell_type", "is_empty_cell", "get_cell_style_index", "get_style_for_cell", "get_cell_style_or_none"):
        kinds[name] = same(f"{name}\t0\t7\t2")
    kinds |= {
        "get_cell_value_by_ref": same("get_cell_value_by_ref\tSheet1!B7"), "get_all_cells": same("get_all_cells", cells[:3]), "get_sheet_markup": same("get_sheet_markup\t0", cells[:3]), "extend_to": same("extend_to\t0\t7\t2\t9\t2"),
        "extend_copied_value": same("extend_copied_value\t=A1*2\t0\t1\t1\t0\t2\t2"), "parse_reference": same("parse_reference\tSheet1!B7"),
        "set_column_style": every("set_column_style\t0\t{}\t" + style), "set_row_style": every("set_row_style\t0\t{}\t" + style), "get_column_style": same("get_column_style\t0\t1"), "get_row_style": same("get_row_style\t0\t1"),
        "delete_column_style": same("delete_column_style\t0\t1"), "delete_row_style": same("delete_row_style\t0\t1"), "set_column_width": every("set_column_width\t0\t{}\t5000"), "set_row_height": every("set_row_height\t0\t{}\t5000"),
        "get_column_width": same("get_column_width\t0\t1"), "get_row_height": same("get_row_height\t0\t1"), "set_column_hidden": every("set_column_hidden\t0\t{}\ttrue"), "set_row_hidden": every("set_row_hidden\t0\t{}\ttrue"),
        "is_column_hidden": same("is_column_hidden\t0\t1"), "is_row_hidden": same("is_row_hidden\t0\t1"), "set_sheet_color": same("set_sheet_color\t0\t#FF0000"), "set_sheet_state": same("set_sheet_state\t0\tvisible"),
        "set_show_grid_lines": same("set_show_grid_lines\t0\ttrue"), "set_frozen_rows": same("set_frozen_rows\t0\t2"), "set_frozen_columns": same("set_frozen_columns\t0\t2"), "get_frozen_rows_count": same("get_frozen_rows_count\t0"),
        "get_frozen_columns_count": same("get_frozen_columns_count\t0"), "set_theme": same("set_theme\tOffice"), "get_theme": same("get_theme"),
    }
    for name, (before, lines) in kinds.items():
        yield name, before, lines


def fuzz(count, folder):
    """Lines of the lists in a folder, one list after another, as often as it takes, each time in a book of its own language."""
    import glob
    lists = [open(path, "rb").read().split(b"\n")[:-1] for path in sorted(glob.glob(f"{folder}/*.lines"))]
    made = 0
    while made < count:
        for lines in lists:
            for line in lines[:count - made]:
                yield line
            made += len(lines)
            if made >= count:
                return
