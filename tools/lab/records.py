"""The records of a CSV file as the program reads them, each with its place in the file."""
import re

MARK = b"\xef\xbb\xbf"
COMMA, QUOTE, LINE_FEED, CARRIAGE_RETURN = b",\"\n\r"
LINE_END = re.compile(rb"\r\n|\r|\n")


class Record:
    """The fields of a record, its number (the header is 0), the line on which it begins, counted from 1, and its bytes."""

    def __init__(self, number, line, fields, data):
        self.number, self.line, self.fields, self.data = number, line, fields, data


def records(data):
    """The records of the bytes, one after another. Lines without a byte are none."""
    start = len(MARK) if data.startswith(MARK) else 0
    spans = quoted_spans(data, start) if b'"' in data else plain_spans(data, start)
    line, counted = 1, 0
    for number, (begin, end, fields) in enumerate(spans):
        line += len(LINE_END.findall(data, counted, begin))
        counted = begin
        yield Record(number, line, fields, data[begin:end])


def plain_spans(data, start):
    """Where there are no quotes: each line that has a byte."""
    for found in re.compile(rb"[^\r\n]+").finditer(data, start):
        yield found.start(), found.end(), found.group().split(b",")


def quoted_spans(data, start):
    """Byte for byte, since a field in quotes may hold commas and ends of lines."""
    at, size = start, len(data)
    while at < size:
        if data[at] in (LINE_FEED, CARRIAGE_RETURN):
            at += 1
            continue
        begin, fields = at, []
        while True:
            field, at = field_at(data, at)
            fields.append(field)
            if at >= size or data[at] != COMMA:
                break
            at += 1
        yield begin, at, fields


def field_at(data, at):
    """The field that begins here, and the place of the byte that ends it."""
    field, size = bytearray(), len(data)
    if at < size and data[at] == QUOTE:
        at += 1
        while at < size:
            if data[at] != QUOTE:
                field.append(data[at])
            elif data[at + 1 : at + 2] == b'"':
                field.append(QUOTE)
                at += 1
            else:
                at += 1
                break
            at += 1
    while at < size and data[at] not in (COMMA, LINE_FEED, CARRIAGE_RETURN):
        field.append(data[at])
        at += 1
    return bytes(field), at
