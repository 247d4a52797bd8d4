"""In words: what is wrong at a fault, and what to do."""
from .header_words import HEADERS, header_words
from .inputs import Network
from .letters import shown
from .number_words import number_words
from .plan_words import plan_words
from .row_words import (
    failure_number_words, fields_words, header_again_words, interval_words, is_header, name_words, no_link_words, no_route_words, order_words,
    repeated_words, no_step_words, too_many_steps_words, too_many_words, unknown_words,
)

ORDINALS = ("first", "second", "third", "fourth")


def why(kind, fault, data, net):
    """Why the file of this kind is refused at the fault, and what to do; `net` has the nodes that are known, or is None."""
    net = net or Network()
    if kind == "plan":
        return plan_words(fault, data) if fault.kind != "too long" else simple_words(fault)
    if fault.kind == "header":
        return header_words(kind, data, net)
    if fault.record is not None and is_header(fault.record, HEADERS[kind]):
        return header_again_words()
    if fault.field is not None and fault.kind in ("name", "number", "unknown node"):
        return field_words(kind, fault, net)
    words = {
        "fields": lambda: fields_words(fault.record, HEADERS[kind], data),
        "too many": lambda: too_many_words(fault),
        "no such link": lambda: no_link_words(fault),
        "interval": lambda: interval_words(fault),
        "order": lambda: order_words(fault),
        "repeated": lambda: repeated_words(fault),
        "too many steps": lambda: too_many_steps_words(fault.record.fields[0]),
        "no step": lambda: no_step_words(fault),
        "no route": lambda: no_route_words(fault),
        "not the network": lambda: fault.value,
    }
    return words.get(fault.kind, lambda: simple_words(fault))()


def field_words(kind, fault, net):
    """What is wrong with a field."""
    field, column = fault.record.fields[fault.field], HEADERS[kind][fault.field].decode()
    if fault.kind == "name":
        return name_words(field, column)
    if fault.kind == "unknown node":
        return unknown_words(field, column, net)
    text = field.decode("utf-8", "replace").strip()
    if kind == "failures" and not any(it.isdigit() for it in text) or column == "link" and not text.isdecimal():
        return failure_number_words(text, column, net)
    return number_words(field, column, net)


def simple_words(fault):
    row = fault.record.fields if fault.record else []
    if fault.kind == "empty":
        return "there is no row below the header", "write a row for each directed link: source,target,capacity,cost"
    if fault.kind == "self link":
        return f"the link leads from {shown(row[0])} to itself", "drop the row"
    if fault.kind == "self pair":
        return f"the demand is of {shown(row[1])} to itself", "drop such rows: they are the diagonal of a full matrix, and no traffic of the network"
    return "the file has more than 67108864 bytes", "split the series into several files"
