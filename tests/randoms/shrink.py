"""Fewer lines and bytes that still show a difference."""


def fewer_lines(lines, differs):
    """Without every stretch of lines that can be left out, the last line excepted: by halves at first, then line by line."""
    width = max((len(lines) - 1) // 2, 1)
    while True:
        at = len(lines) - 1
        while at > 0:
            fewer = lines[:max(at - width, 0)] + lines[at:]
            lines = fewer if differs(fewer) else lines
            at = min(at, len(lines)) - width
        if width == 1:
            return lines
        width //= 2


def shorter(lines, number, differs):
    """With the last word of a line made shorter by pairs, from its end and from its front."""
    head, space, word = lines[number].rpartition(" ")
    width = max(len(word) // 4 * 2, 2)
    while width >= 2 and len(word) > 2:
        for less in (word[:-width], word[width:]):
            tried = lines[:number] + [head + space + (less or "-")] + lines[number + 1:]
            if len(less) < len(word) and differs(tried):
                lines, word = tried, less
                break
        else:
            width = width // 4 * 2
    return lines


def smaller(lines, differs):
    lines = fewer_lines(lines, differs)
    for number in range(len(lines)):
        lines = shorter(lines, number, differs)
    return lines
