"""What tools take of a certificate without its blocks, and of a matrix file beside it."""
import reference_check

from .inputs import Network, read_matrices


class Refused(Exception):
    """Why a file cannot be used."""


def head_in(name):
    """The network, the routing and the set of a certificate, which keep rules V1 to V7. What stands below them is not read."""
    with open(name, "rb") as file:
        data = file.read()
    try:
        head = reference_check.read_head(reference_check.Lines(data))
    except reference_check.ShapeFault as fault:
        raise Refused(f"refused: {name}: shape at line {fault}") from fault
    broken = reference_check.first_fault(reference_check.head_rules(head))
    if broken:
        raise Refused(f"refused: {name}: rule V{broken[0]} at {broken[1]}")
    return head


def series_in(name, head):
    """The series of a matrix file, by the nodes of the certificate."""
    net = Network()
    for node in head["names"]:
        net.number_of(node)
    with open(name, "rb") as file:
        series, faults = read_matrices(file.read(), net)
    if faults:
        raise Refused(f"refused: {name}: {faults[0].reason} (against the nodes of the certificate)")
    return series
