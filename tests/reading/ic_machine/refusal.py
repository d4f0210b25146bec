"""Why a line is refused: a refusal is a tuple with its name first, and what it carries after that."""


def refusal_name(refusal):
    return refusal[0]


def first_refusal(causes):
    for holds, refusal in causes:
        if holds() if callable(holds) else holds:
            return refusal
    return None
