"""The second checker over files in a row that differ in few lines: one block at a time, and none anew that stands in the same lines as before."""
import reference_check
from reference_check import Lines, ShapeFault


class Head:
    """What stands before the blocks: its lines, the certificate up to there, the rule that it breaks, if any, and what each link's block has failed."""

    def __init__(self, lines, cert):
        self.lines, self.cert = lines, cert
        self.broken = reference_check.first_fault(reference_check.head_rules(cert))
        self.shares = None if self.broken else reference_check.shares_of(cert)
        # Of the links without a block, as far as it was asked.
        self.of_absent = {}

    def failure(self, block):
        """The rule and place of the first inequality that fails for this block, which keeps its rules."""
        return reference_check.link_failure(self.cert, block["link"], block, self.shares[block["link"]])

    def failure_of_absent(self, e):
        if e not in self.of_absent:
            self.of_absent[e] = reference_check.link_failure(self.cert, e, reference_check.absent_block(self.cert), self.shares[e])
        return self.of_absent[e]

    @property
    def counts(self):
        """By what the shape of a block and its rules go."""
        return self.cert["format"], len(self.cert["names"]), len(self.cert["links"]), len(self.cert["pairs"]), bool(self.cert["set"])


class Seen:
    """A block that was read: its lines, what the rules ask of it, and by head what it fails there."""

    def __init__(self, lines, head, block):
        self.lines, self.numbers = lines, {key: block[key] for key in ("link", "a", "b")}
        self.is_small, self.failures = reference_check.has_small_numbers(head.cert, block), {}

    def keeps_rules(self, head, before):
        return self.is_small and reference_check.is_named_right(head.cert, before, self.numbers)


class Checker:
    """What `check` has to say of files of this name."""

    def __init__(self, name):
        self.name, self.heads, self.seen = name, [], {}

    def answer(self, data):
        """The texts and the status of a file with these bytes."""
        if len(data) > reference_check.limit(data):
            return self.refused("too long")
        try:
            head, blocks = self.read(Lines(data))
        except ShapeFault as fault:
            return self.refused(f"shape at line {fault}")
        broken = head.broken or reference_check.first_fault(self.block_rules(head, blocks))
        if broken:
            return self.refused(f"rule V{broken[0]} at {broken[1]}")
        failed = self.first_failure(head, blocks)
        return (reference_check.no_line(failed), "", 1) if failed else (reference_check.yes_line(head.cert), "", 0)

    def refused(self, reason):
        return "", f"refused: {self.name}: {reason}\n", 3

    def read(self, lines):
        """The head and the blocks, of which each is its place among the lines and what was seen there."""
        head = self.read_head(lines)
        count = lines.count(b"blocks", 0, reference_check.FORMATS[head.cert["format"]][2])
        blocks = [self.read_block(lines, head) for _ in range(count)]
        if lines.take() != b"end":
            raise lines.fault()
        lines.end()
        return head, blocks

    def read_head(self, lines):
        for head in self.heads:
            if lines.ended[: len(head.lines)] == head.lines:
                lines.number = len(head.lines)
                return head
        cert = reference_check.read_head(lines)
        cert["ratio"] = lines.worded(b"ratio", 1)[0]
        head = Head(lines.ended[: lines.number], cert)
        # The first one is that of most files.
        self.heads = [*self.heads[:1], head]
        return head

    def read_block(self, lines, head):
        first = lines.number
        seen = self.seen.get((first, head.counts))
        if seen is None or lines.ended[first : first + len(seen.lines)] != seen.lines:
            block = reference_check.read_block(lines, head.cert)
            seen = Seen(lines.ended[first : lines.number], head, block)
            self.seen.setdefault((first, head.counts), seen)
            if not head.broken and seen.keeps_rules(head, None):
                seen.failures[head] = head.failure(block)
        lines.number = first + len(seen.lines)
        return first, seen

    @staticmethod
    def block_rules(head, blocks):
        """Rules V8 and V9, as the second checker has them."""
        yield 8, 0, head.cert["ratio"] < 10**19
        before = None
        for k, (_, seen) in enumerate(blocks):
            yield 8, 1 + k, reference_check.is_named_right(head.cert, before, seen.numbers)
            before = seen.numbers["link"]
        for k, (_, seen) in enumerate(blocks):
            yield 9, k, seen.is_small

    @staticmethod
    def first_failure(head, blocks):
        by_link = {seen.numbers["link"]: seen for _, seen in blocks}
        for e in range(len(head.cert["links"])):
            seen = by_link.get(e)
            if seen is not None and head not in seen.failures:
                block = reference_check.read_block(Lines(b"".join(line + b"\n" for line in seen.lines)), head.cert)
                seen.failures[head] = head.failure(block)
            failed = head.failure_of_absent(e) if seen is None else seen.failures[head]
            if failed:
                return (e, *failed)
        return None
