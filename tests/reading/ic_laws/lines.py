"""How bytes fall into lines, a line into words and words into texts."""

ESCAPES = {"\\": "\\\\", "\t": "\\t", "\n": "\\n", "\r": "\\r"}
MEANINGS = {"\\": "\\", "t": "\t", "n": "\n", "r": "\r"}


def lines_of(data):
    pieces = data.split(b"\n")
    last = pieces.pop()
    lines = [piece[:-1] if piece.endswith(b"\r") else piece for piece in pieces]
    return lines + ([last] if last else [])


def line_text(data):
    try:
        return data.decode("utf-8")
    except UnicodeDecodeError:
        return ""


def words_of(line):
    return line.split("\t")


def escaped(text):
    return "".join(ESCAPES.get(c, c) for c in text)


def unescaped(word):
    found, i = [], 0
    while i < len(word):
        if word[i] == "\\":
            i += 1
            if word[i:i + 1] not in MEANINGS:
                return None
            found.append(MEANINGS[word[i]])
        else:
            found.append(word[i])
        i += 1
    return "".join(found)


def word_texts(words):
    texts = [unescaped(word) for word in words]
    return None if None in texts else texts
