"""The style that a place of a sheet shows."""


def style_at(h, m, rows, columns, p):
    if p in m:
        return h.style(m[p])
    for lines, n in ((rows, p[0]), (columns, p[1])):
        if n in lines and lines[n].style is not None:
            return lines[n].style
    return 0
