"""Small changes of a file, by which a program and a second reader of its format are compared, and parts of it that can be left out."""
import collections

# Pieces of bytes that stand in a file of a format or must not, tokens of its lines, and what stands between these.
Alphabet = collections.namedtuple("Alphabet", "pieces tokens separator")

CERTIFICATE = Alphabet(
    [bytes([it]) for it in b"0123456789 \n\r\tabz._-\x00\xff"],
    [b"0", b"1", b"2", b"3", b"00", b"4294967295", b"4294967296", b"65536", b"1000001", b"999999", b"68719476737", b"268435457", b"4503599627370497",
     b"10000000000000000000", b"18446744073709551615", b"18446744073709551616", b"a", b"all", b"margin", b"box", b"lower", b"upper", b""],
    b" ",
)
INPUT = Alphabet(
    [b",", b'"', b"\n", b"\r", b"\r\n", b";", b" ", b"0", b"1", b"-", b".", b"\xff", b"\0", b"a", b"b", b'""', b"1024", b"4294967296", b"4294967297",
     b"00000000001", b"{", b"}", b"[", b"]", b":", b"null", b"true", b"-0", b"1e3", b"1e999", b"\\ud800", b"\\u0041", b'"k":0', b"\xef\xbb\xbf",
     "\u00b2".encode(), b"9" * 5000, "\u0430".encode(), "\u00a0".encode(), b"10.000", b"12e400", b"PK\x03\x04", b"yates-ratio 1\n", b"set box", b"True"],
    [b"0", b"1", b"2", b"1023", b"1024", b"65535", b"65536", b"4294967296", b"4294967297", b"0000000001", b"00000000001", b"a", b"b", b"c", b"", b'"a"'],
    b",",
)


def with_piece(draw, data, alphabet):
    at = draw.randrange(len(data) + 1)
    return data[:at] + draw.choice(alphabet.pieces) + data[at:]


def without_byte(draw, data, _):
    at = draw.randrange(len(data) + 1)
    return data[:at] + data[at + 1 :]


def with_other_byte(draw, data, alphabet):
    at = draw.randrange(len(data) + 1)
    return data[:at] + draw.choice(alphabet.pieces) + data[at + 1 :]


def beginning(draw, data, _):
    return data[: draw.randrange(len(data) + 1)]


def with_lines(draw, data, _):
    """A stretch of lines, mostly of one, is left out, stands twice, or stands elsewhere."""
    lines = data.split(b"\n")
    first = draw.randrange(len(lines))
    last = min(len(lines), first + draw.choice((1, 1, 1, 2, 5)))
    part, rest = lines[first:last], lines[:first] + lines[last:]
    at = draw.randrange(len(rest) + 1)
    return b"\n".join(draw.choice((rest, lines[:last] + lines[first:], rest[:at] + part + rest[at:])))


def with_changed_token(draw, data, separator, change):
    """The data after a change of one token of one line."""
    start = data.rfind(b"\n", 0, draw.randrange(len(data) + 1)) + 1
    end = data.find(b"\n", start)
    end = len(data) if end < 0 else end
    tokens = data[start:end].split(separator)
    place = draw.randrange(len(tokens))
    tokens[place] = change(tokens[place])
    return data[:start] + separator.join(tokens) + data[end:]


def with_token(draw, data, alphabet):
    return with_changed_token(draw, data, alphabet.separator, lambda _: draw.choice(alphabet.tokens))


def with_number(draw, data, alphabet):
    """A number becomes another one near it; what is no number becomes a token."""

    def change(token):
        if not token.isdigit() or len(token) > 30:
            return draw.choice(alphabet.tokens)
        return b"%d" % max(0, int(token) + draw.choice((-1, 1, 2)))

    return with_changed_token(draw, data, alphabet.separator, change)


CHANGES = (with_piece, without_byte, with_other_byte, beginning, with_lines, with_lines, with_token, with_number)


def with_change(draw, data, alphabet):
    """The file after one small change."""
    return draw.choice(CHANGES)(draw, data, alphabet)


def with_changes(draw, data, alphabet):
    """The file after one change, or a few."""
    for _ in range(draw.choice((1, 1, 1, 2, 3))):
        data = with_change(draw, data, alphabet)
    return data


def least(pieces, fails, tries):
    """As few of the pieces, in order, as can be found of which `fails` still holds, asked as often as this at most."""
    size, left = max(1, len(pieces) // 2), tries
    while size and left > 0:
        at, is_less = 0, False
        while at < len(pieces) and left > 0:
            without, left = pieces[:at] + pieces[at + size :], left - 1
            if fails(without):
                pieces, is_less = without, True
            else:
                at += size
        # Single pieces are tried again as long as one of them could go.
        size = size // 2 if size > 1 else int(is_less)
    return pieces


def smaller(data, separator, fails, tries):
    """The data without the lines, and then without the tokens, that it does not need so that `fails` holds."""
    data = b"\n".join(least(data.split(b"\n"), lambda lines: fails(b"\n".join(lines)), tries))
    lines = data.split(b"\n")
    for place, line in enumerate(lines):
        def fails_with(tokens, place=place):
            return fails(b"\n".join([*lines[:place], separator.join(tokens), *lines[place + 1 :]]))

        lines[place] = separator.join(least(line.split(separator), fails_with, tries // (len(lines) + 1)))
    return b"\n".join(lines)
