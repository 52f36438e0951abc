"""Each dump of samples/ in a router that has its interfaces: what a tool refuses of it is left out and told, and the rest is compared
as random dumps are, for each built-in chain."""
import copy
import ipaddress
import pathlib
import random
import re

from dumps import Corners, LINES, TYPES
from lab import Lab, Refused, TOOLS

FOLDER = pathlib.Path(__file__).resolve().parents[2] / "samples"
CHAINS = ["FORWARD", "INPUT", "OUTPUT"]
OTHERS = ["other0", "other1", "other2"]


def filter_of(text):
    """The lines of the filter table."""
    lines = text.splitlines()
    start = lines.index("*filter")
    return lines[start:lines.index("COMMIT", start) + 1]


def in_place_of_forward(lines, chain):
    """The lines with this built-in chain in the place of FORWARD, since packets come through FORWARD alone; FORWARD's rules are out of its reach."""
    if chain == "FORWARD":
        return lines
    other = {"FORWARD": chain, chain: "FORWARD"}
    kept = [line for line in lines if not line.startswith("-A FORWARD ")]
    return [re.sub(rf"^(:|-A )(FORWARD|{chain}) ", lambda found: f"{found[1]}{other[found[2]]} ", line) for line in kept]


def corners_of(lines, family):
    """What packets are drawn from: the names, the ends of networks and ranges, the ports and the types of ICMP messages that the lines speak of, and some others."""
    text = "\n".join(lines)
    names = [it.replace("+", "7") for it in re.findall(r" -[io] (\S+)", text)]
    addresses = list(LINES[family])
    for word in re.findall(r" -[sd] (\S+)", text):
        net = ipaddress.ip_network(word, strict=False)
        addresses += [str(net[0]), str(net[-1])] * 2
    for word in re.findall(r"-range (\S+)", text):
        addresses += word.split("-") * 2
    ports = {int(port) for word in re.findall(r"ports? ([0-9,:]+)", text) for port in re.split("[,:]", word)}
    near = sorted({port + step for port in ports for step in (-1, 0, 0, 1) if 0 <= port + step <= 65535} | {1024, 40000})
    types = [int(word) for word in re.findall(r"--icmp(?:v6)?-type (\d+)", text)]
    return Corners([it for it in dict.fromkeys([*names, *OTHERS]) if it != "lo"][:7], addresses, near, [*types, *types, *TYPES[family]])


def load(comparison, tool, family, lines, name):
    """Loads the lines but those that the tool refuses, and returns whether it takes any."""
    for _ in range(8):
        try:
            comparison.lab.restore(tool, family, "\n".join([*lines, ""]))
            return True
        except Refused as refusal:
            at = re.search(r"line:? (\d+)", str(refusal))
            refused = lines[int(at[1]) - 1] if at else str(refusal)
            comparison.numbers[f"left out of {name}, which {tool} refuses: {refused}"] += 1
            if not at or not refused.startswith("-A"):
                return False
            lines = [line for line in lines if line != refused]
    return False


def tried(comparison, rng, family, tool, chain, lines, corners, name):
    case = f"sample {name}, {tool}, chain {chain}"
    try:
        packets, states = comparison.drawn(rng, tool, family, True, corners)
        if load(comparison, tool, family, in_place_of_forward(lines, chain), name):
            comparison.numbers["samples"] += 1
            comparison.verdicts(rng, family, tool, packets, states, case)
    finally:
        comparison.quiet(tool, family)


def compare(comparison):
    """Compares each sample, each of its built-in chains that has rules, by each tool. A dump of IPv6 has a 6 at the end of its name."""
    for file in sorted(FOLDER.glob("*.rules")):
        family = 6 if file.stem.endswith("6") else 4
        lines = filter_of(file.read_text())
        corners = corners_of(lines, family)
        with Lab(corners.names) as lab:
            here = copy.copy(comparison)
            here.lab = lab
            for chain in CHAINS:
                if any(line.startswith(f"-A {chain} ") for line in lines):
                    for tool in TOOLS:
                        tried(here, random.Random(f"{file.stem} {chain} {comparison.seed}"), family, tool, chain, lines, corners, file.stem)
