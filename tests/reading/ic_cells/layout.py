"""How high a row is, and how wide a column, in hundredths."""


def height_of(props):
    return 2800 if props is None or props.height is None else props.height


def width_of(props):
    return 12500 if props is None or props.width is None else props.width
