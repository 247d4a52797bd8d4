"""The certificate of a routing whose blocks are the best ones of the weights from which every certificate starts, 2^20 on each link, by the
formulas of docs/FORMATS.md.
"""
import functools
import os
import sys

TOP = os.path.dirname(os.path.dirname(os.path.abspath(__file__)))
sys.path.insert(0, os.path.join(TOP, "tools"))

import reference_check  # noqa: E402
from lab.drawn_certificates import block_text  # noqa: E402
from lab.polish import STARTING_WEIGHT, Made  # noqa: E402


class Starting(Made):
    """Of each source the least paths are found once: the weights are the same for all links."""

    @functools.lru_cache(maxsize=None)
    def paths_from(self, source):
        return super().least_paths(source, [STARTING_WEIGHT] * len(self.links))

    def least_paths(self, source, weights):
        return self.paths_from(source)


def with_starting_blocks(data):
    """The certificate of these bytes with such blocks, and the greatest need as its ratio."""
    made = Starting(data)
    weights = [STARTING_WEIGHT] * len(made.links)
    used = [e for e, shares in enumerate(reference_check.shares_of(made.cert)) if shares]
    ratio = max((made.need(link, weights) for link in used), default=0)
    blocks = "".join(block_text(made, link, weights) for link in used)
    return data.partition(b"\nratio ")[0] + f"\nratio {ratio}\nblocks {len(used)}\n{blocks}end\n".encode()
