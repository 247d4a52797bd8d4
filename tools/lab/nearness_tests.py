"""How near the program's numbers are to the best ones, on three networks of the examples: published ratios, `parts` and `low` over the exact
values that are recorded of them. No clause says how near they are, so this is what tells where a change makes them worse.
"""
import importlib.machinery
import importlib.util
import os
import tempfile

import reference_check

from .program import TOP

NETWORKS = ("small", "abilene", "backbone")
# A regular network and a scheme, of which a margin has a greater ratio than all matrices where the weights for these are not offered.
MARGINS = (("fat-tree", "racke"),)
# The greatest quotient of a published ratio over the least that is true of its routing, and of each kind by its scheme, a step at a time.
OF_RATIOS = 1.02
# The greatest quotient of a published ratio over the bound of the witness that `challenge` writes of it.
OF_BRACKETS = 1.03
OF_STEPS = {("mcf", "parts / optimum"): 1.001, ("mcf", "optimum / low"): 1.005, ("smore", "parts / optimum on paths"): 1.002}


def nearness():
    """The script that measures it, as a module."""
    loader = importlib.machinery.SourceFileLoader("nearness", os.path.join(TOP, "bench", "nearness"))
    made = importlib.util.module_from_spec(importlib.util.spec_from_loader(loader.name, loader))
    loader.exec_module(made)
    return made


def is_above(quotient, most):
    """Whether a quotient is above this, or is not known: no exact value is recorded of what the program made."""
    return quotient is None or quotient > most


def faults_of(program, network):
    """What is wrong with what the program publishes and reports on a network of bench/nearness."""
    script = nearness()
    lab, values = script.Laboratory(program, *script.PLANS[network]), script.ExactValues(is_solved=False)
    try:
        ratios = list(script.ratios(lab, network, values))
        steps, found = script.quotients(lab, network, values)
    except (SystemExit, reference_check.ShapeFault) as fault:
        return [f"{fault}"]
    faults = [f"set {name}, ratio {published}: {quotient} of the exact one" for name, _, published, _, quotient, *_ in ratios if is_above(quotient, OF_RATIOS)]
    for name, scheme, published, _, _, shown in ratios:
        quotient = published / shown["challenge"]
        faults += [f"{scheme}, set {name}: {quotient} of the bound of challenge"] * (quotient > OF_BRACKETS)
    for (scheme, kind), most in OF_STEPS.items():
        quotients = found.get((scheme, kind), [])
        faults += [f"{scheme}, {kind}: {len(quotients)} steps of {steps}"] * (len(quotients) != steps)
        faults += [f"{scheme}, step {step}, {kind}: {quotient}" for step, quotient in enumerate(quotients) if is_above(quotient, most)]
    return faults + values.wrong


def faults_of_margin(program, network, scheme):
    """What is wrong where a margin, which has fewer matrices, has a greater ratio than all matrices."""
    script = nearness()
    try:
        with tempfile.TemporaryDirectory() as room:
            lab = script.laboratory(program, network, room)
            for_all, for_margin = (lab.certificate({"publish": scheme, **keys})["ratio"] for keys in script.SETS.values())
    except (SystemExit, reference_check.ShapeFault) as fault:
        return [f"{fault}"]
    return [f"the ratio is {for_margin} for a margin, and {for_all} for all matrices"] if for_margin > for_all * script.MOST_OF_MARGIN else []
