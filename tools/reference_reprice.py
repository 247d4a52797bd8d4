#!/usr/bin/env python3
"""The answer of `yates reprice`, worked out by a program of its own, for comparison with the proved one.

usage: reference_reprice.py CERT TOPOLOGY      prints what `yates reprice CERT TOPOLOGY` has to print, and ends with its status

It follows docs/FORMATS.md and shares no code with the crates. Needs are those of `reference_check.py --bounds`.
"""
import sys

import reference_check
from lab.inputs import INPUT_LIMIT, read_topology


def number_line(numbers):
    return " ".join(str(it) for it in numbers)


def head_lines(cert):
    """The lines of what stands before the blocks."""
    yield f"yates-ratio {cert['format']}"
    yield f"nodes {len(cert['names'])}"
    yield from (name.decode() for name in cert["names"])
    yield f"links {len(cert['links'])}"
    yield from (number_line(link) for link in cert["links"])
    yield f"pairs {len(cert['pairs'])}"
    for src, dst, paths in cert["pairs"]:
        yield number_line([src, dst, len(paths)])
        yield from (number_line([weight, len(path), *path]) for weight, path in paths)
    yield from set_lines(cert["set"])
    yield f"ratio {cert['ratio']}"


def set_lines(demands):
    if demands is None:
        yield "set all"
    elif demands[0] == "margin":
        yield f"set margin {demands[1]} {demands[2]}"
        yield number_line(["base", *demands[3]])
    else:
        yield "set box"
        yield number_line(["lower", *demands[1]])
        yield number_line(["upper", *demands[2]])


def block_lines(cert, block):
    yield number_line([block["link"], block["a"], block["b"], len(block["rows"])])
    yield number_line(block["weights"])
    yield from (number_line([source, *row]) for source, row in block["rows"])
    if cert["set"]:
        yield number_line(["plus", *block["plus"]])
        yield number_line(["minus", *block["minus"]])


def spelled(cert):
    """The text of a certificate."""
    lines = [*head_lines(cert), f"blocks {len(cert['blocks'])}"]
    for block in cert["blocks"]:
        lines += block_lines(cert, block)
    return "".join(f"{line}\n" for line in [*lines, "end"])


def network_of(name, data):
    """The network of a topology that is not refused."""
    if len(data) > INPUT_LIMIT:
        raise reference_check.Refused(f"refused: {name}: too long\n", 3)
    net, faults = read_topology(data)
    if faults:
        raise reference_check.Refused(f"refused: {name}: {faults[0].reason}\n", 3)
    return net


def repriced(cert, net):
    """The certificate with the capacities and costs of the network, and the greatest need of its blocks there as its ratio."""
    made = dict(cert, links=[list(link[:4]) for link in net.links])
    made["ratio"] = max((reference_check.need(made, block) for block in made["blocks"]), default=0)
    return made


def answer(names, bytes_of=reference_check.bytes_of):
    """The texts for standard output and error, and the status."""
    certificate, topology = names
    try:
        cert = reference_check.certificate_of(certificate, bytes_of(certificate))
    except reference_check.Refused as refusal:
        return ("", *refusal.args)
    return accepted(cert, topology, bytes_of)


def accepted(cert, topology, bytes_of):
    """The same of a certificate that is not refused, and the topology of this name."""
    try:
        net = network_of(topology, bytes_of(topology))
        if net.names != cert["names"] or [link[:2] for link in net.links] != [tuple(link[:2]) for link in cert["links"]]:
            raise reference_check.Refused(f"refused: {topology}: not the links\n", 3)
        made = repriced(cert, net)
        if made["ratio"] >= 10**19:
            raise reference_check.Refused(f"refused: {topology}: ratio too great\n", 3)
    except reference_check.Refused as refusal:
        return ("", *refusal.args)
    failed = reference_check.first_failure(cert, last=3)
    if failed:
        return reference_check.no_line(failed), "", 1
    return spelled(made), "", 0


def main(words):
    if len(words) != 2:
        print(__doc__.split("\n\n")[1], file=sys.stderr)
        return 2
    out, err, status = answer(words)
    sys.stdout.write(out)
    sys.stderr.write(err)
    return status


if __name__ == "__main__":
    sys.exit(main(sys.argv[1:]))
