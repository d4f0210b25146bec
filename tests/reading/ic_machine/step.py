"""One step of the whole machine, by subjects; and what a line leaves and answers."""
from ic_laws.core_step import core_step
from ic_laws.notations import ENGLISH
from ic_tables.tables import language_of
from .book import core_of, notations_in
from .command import SUBJECTS, command_in
from .reply import reply_bytes

STEPS = {subject: module.step for subject, module in SUBJECTS}


def step(book, command):
    return STEPS[command[0]](book, command[1])


def outcome_of(book, stepped):
    return (stepped[1], ("Ok", stepped[2])) if stepped[0] == "Ok" else (book, stepped)


def command_step(book, command):
    return (book, ("Err", ("BadLine",))) if command is None else outcome_of(book, step(book, command))


def line_step(rows, book, line):
    return command_step(book, command_in(language_of(book.tables, ENGLISH), rows, line))


def core_refusal(book, command):
    """What the identity machine refuses of a formula that is written; what it does otherwise is what the whole machine does."""
    if command is None or command[1][0] != "UpdateCellWithFormula":
        return None
    outcome = core_step(notations_in(book), core_of(book), command[1])
    return ("Err", (outcome[1],)) if outcome[0] == "Err" else None


def core_machine(rows, book, line):
    """The identity machine, with a table of its commands, over the whole book."""
    command = command_in(language_of(book.tables, ENGLISH), rows, line)
    left, reply = outcome_of(book, core_refusal(book, command) or step(book, command)) if command else command_step(book, None)
    return left, reply_bytes(reply)


def machine(rows, book, line):
    left, reply = line_step(rows, book, line)
    return left, reply_bytes(reply)
