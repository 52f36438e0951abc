#!/usr/bin/env python3
"""Holds the answers of the built program against the kernel's own filter.

    python3 tests/kernel/run.py PROGRAM [--dumps N] [--seed N] [--packets N] [--random-only]

Random filters, and those of samples/, are loaded by the real tools into a router of this machine that the test makes itself
(lab.py), for both tools and both families. The text that is analysed is the one that the tool saves. Packets are sent through the
router under that filter, under the filter of `upper`, and under that of `lower`; where no match is unknown all three have to pass
the same packets, and `explain` has to name that verdict. Where some is unknown, what passes has to pass under `upper`, and what
passes under `lower` has to pass, and `explain` must not exclude the kernel's verdict. A matrix has to have an edge exactly where
the service's packet passes (with unknown matches, within its two sides); forged packets have to be dropped where `spoof` says so,
and to pass where it shows one.

What can't be made here (root, namespaces, the tools) is told in one line, and nothing is tried then. The last line has the
numbers of dumps, packets and differences; the status is 1 where there was a difference."""
import argparse
import collections
import dataclasses
import ipaddress
import random
import signal
import subprocess
import sys

import borders
import dumps
import samples
import spellings
from lab import LONGEST, Lab, NAMES, Refused, TOOLS, lacking
from packets import ECHO, FLAGS, Packet, answer_to, error_of


@dataclasses.dataclass(frozen=True)
class Kind:
    name: str
    names: bool
    states: bool
    unknown: bool


KINDS = [Kind("known", True, False, False), Kind("states", True, True, False), Kind("unknown", True, False, True), Kind("nameless", False, False, False),
         Kind("doubtful", True, False, False)]
# A state in the three highest bits of the TOS byte, set behind the choice of the way out.
STATE_BITS = {"INVALID": 0x20, "NEW": 0x40, "RELATED": 0x60, "ESTABLISHED": 0x80, "UNTRACKED": 0xA0}
# Differences that are looked at for one dump and one of its filters.
MOST = 20
# Numbers that are headers between that of IPv6 and the protocol's.
EXTENSIONS = (0, 43, 44, 51, 60)


PROBE = """*filter
:FORWARD ACCEPT [0:0]
-A FORWARD -p tcp -m multiport --dports 1,2 -m conntrack --ctstate NEW -m comment --comment probe -j ACCEPT
COMMIT
"""


class Comparison:
    def __init__(self, program, lab, seed, count):
        self.program, self.lab, self.seed, self.count = program, lab, seed, count
        self.numbers = collections.Counter()
        self.differences = []

    def answer(self, mode, family, text, *words):
        made = subprocess.run([self.program, mode, "--family", str(family), *words], input=text.encode("latin-1"), capture_output=True, timeout=LONGEST)
        return made.returncode, made.stdout.decode("latin-1"), made.stderr.decode("latin-1").strip()

    def differs(self, what, case, packet=None):
        self.numbers["differences"] += 1
        self.differences.append((what, case, packet))
        if len(self.differences) <= 5:
            print(f"difference: {what} ({case})\n  packet {' '.join(packet.fields()) if packet else 'none'}")

    def passing(self, packets):
        """Whether each packet comes out. A frame that was lost on the way was not dropped, so what doesn't come is sent again, and as long
        as some of it comes then, but five times at most."""
        passed = [frame is not None for frame in self.lab.forwarded(packets)]
        for _ in range(4):
            missing = [at for at, it in enumerate(passed) if not it]
            frames = self.lab.forwarded([packets[at] for at in missing])
            for at, frame in zip(missing, frames):
                passed[at] = frame is not None
            if not any(frames):
                break
        return passed

    def sent(self, packets):
        """Those of the packets that the router forwards at all."""
        return [packet for packet, passes in zip(packets, self.passing(packets)) if passes]

    def run(self, total):
        for at in range(total):
            family, tool, kind = (4, 6)[at % 2], TOOLS[at // 2 % 2], KINDS[at // 4 % len(KINDS)]
            rng = random.Random(self.seed * 1_000_003 + at)
            try:
                self.dump(rng, family, tool, kind, f"seed {self.seed} case {at}, {tool}, IPv{family}, {kind.name}")
            finally:
                self.quiet(tool, family)

    def quiet(self, tool, family):
        self.lab.clear(tool, family)
        self.lab.restore(tool, family, "*mangle\n:FORWARD ACCEPT [0:0]\nCOMMIT\n")
        self.lab.restore(tool, family, "*raw\n:PREROUTING ACCEPT [0:0]\nCOMMIT\n")

    def dump(self, rng, family, tool, kind, case):
        packets, states = self.drawn(rng, tool, family, kind.states)
        text, bits = dumps.doubtful_text(rng, family, kind) if kind.name == "doubtful" else (dumps.text(rng, family, kind), 0)
        try:
            self.lab.restore(tool, family, text)
        except Refused as refusal:
            self.numbers["texts refused by a tool"] += 1
            self.numbers[f"refused: {str(refusal).splitlines()[0][:60]}"] += 1
            return
        self.numbers["dumps"] += 1
        if bits:
            self.may_and_must(rng, family, tool, packets, bits, case)
            return
        saved = self.verdicts(rng, family, tool, packets, states, case)
        if not kind.states:
            self.matrix(rng, family, tool, saved, kind, case)
        if kind.name == "known" or kind.unknown:
            self.forged(rng, family, tool, saved, kind, case)

    def drawn(self, rng, tool, family, with_states, corners=None):
        """Packets that the router forwards, and the state of each where states are wanted, else None."""
        packets = self.sent([dumps.packet(rng, family, corners) for _ in range(self.count)])
        self.numbers["ICMP messages that are drawn"] += sum(it.proto in ECHO for it in packets)
        if with_states:
            return self.with_states(rng, packets, tool, family, corners)
        return packets, [None] * len(packets)

    def verdicts(self, rng, family, tool, packets, states, case):
        """Holds explanations and both filters against the filter that is loaded, and returns what the tool saves of it."""
        saved = self.lab.save(tool, family, rng.random() < 0.5)
        unknown = self.has_unknown(family, saved)
        passes = self.passing(packets)
        self.numbers["packets"] += len(packets)
        self.explained(rng, family, tool, saved, unknown, packets, states, passes, case)
        self.filters(family, tool, saved, unknown, packets, states, passes, case)
        return saved

    def has_unknown(self, family, saved):
        """Whether some match of the dump, in reach or not, is unknown to the program."""
        status, text, line = self.answer("check", family, saved)
        if status != 0:
            self.differs(f"a dump that a tool saved is refused: {line}", "check")
        return not text.endswith(" unknown 0\n")

    def with_states(self, rng, packets, tool, family, corners):
        """The packets, and errors in answer to some, whose state is the same twice, with their states; a part of them is left untracked."""
        measure = "".join(f"-A FORWARD -m conntrack --ctstate {name} -j TOS --set-tos {bits:#x}/0xe0\n" for name, bits in STATE_BITS.items())
        half = "0.0.0.0/1" if family == 4 else "fc00::/7"
        name = self.lab.names[len(self.lab.names) // 2]
        self.lab.restore(tool, family, f"*raw\n:PREROUTING ACCEPT [0:0]\n-A PREROUTING -i {name} -d {half} -j CT --notrack\nCOMMIT\n")
        self.lab.restore(tool, family, f"*mangle\n:FORWARD ACCEPT [0:0]\n{measure}COMMIT\n")
        answers = [answer_to(it) for it in packets[::3]]
        errors = [error_of(it, dumps.address(rng, family, corners)) for it in packets[1::3]]
        self.lab.forwarded([*packets, *answers])
        packets = [*packets, *errors]
        first, second = self.lab.forwarded(packets), self.lab.forwarded(packets)
        found = [(packet, state_of(a)) for packet, a, b in zip(packets, first, second) if a and b and state_of(a) == state_of(b)]
        for _, state in found:
            self.numbers[f"state {state}"] += 1
        return [it for it, _ in found], [state for _, state in found]

    def alone(self, packet, state, tool, family, saved):
        """Whether the packet passes when it is sent alone under this filter, or None where its state isn't the given one before and behind it."""
        found = []
        for text in (None, saved, None):
            self.lab.clear(tool, family)
            if text:
                self.lab.restore(tool, family, text)
                passes = self.passing([packet])[0]
            elif state:
                frame = self.lab.forwarded([packet])[0]
                found.append(frame and state_of(frame))
        return None if any(it != state for it in found) else passes

    def has_changed(self, packet, state, tool, family, texts, wanted):
        """Whether the packet, alone, isn't treated any more by the filters as it seemed to be. An entry of a connection that ends between
        two sendings changes its state."""
        again = [self.alone(packet, state, tool, family, text) for text in texts]
        self.numbers["packets whose state has changed"] += again != wanted
        return again != wanted

    def explained(self, rng, family, tool, saved, unknown, packets, states, passes, case):
        for at in rng.sample(range(len(packets)), min(len(packets), 8)):
            words = packets[at].fields() + ([f"state={states[at]}"] if states[at] else [])
            status, text, line = self.answer("explain", family, saved, *words)
            self.numbers["explanations"] += 1
            if status == 0 and can_be(text, unknown, passes[at]):
                self.numbers["explanations that leave both verdicts open"] += unknown and "never" not in text
            elif not states[at] or not self.has_changed(packets[at], states[at], tool, family, [saved], [passes[at]]):
                self.differs(f"explain says {line or repr(text)}, the kernel {'accepts' if passes[at] else 'drops'}", case, packets[at])

    def filters(self, family, tool, saved, unknown, packets, states, passes, case):
        for side in ("upper", "lower"):
            status, text, line = self.answer(side, family, saved)
            if status != 0:
                self.numbers[f"{side} refused: {line}"] += 1
                continue
            for other in TOOLS:
                try:
                    self.lab.restore(other, family, text, test=True)
                except Refused as refusal:
                    self.differs(f"{other} refuses the text of {side}: {refusal}", case)
            self.lab.restore(tool, family, text)
            shown = self.passing(packets)
            self.numbers["packets"] += len(packets)
            found = [at for at in range(len(packets)) if not agree(side, unknown, passes[at], shown[at])]
            for at in found[:MOST]:
                if not states[at] or not self.has_changed(packets[at], states[at], tool, family, [saved, text], [passes[at], shown[at]]):
                    self.differs(f"the filter of {side} {'passes' if shown[at] else 'drops'}, the dump {'passes' if passes[at] else 'drops'}", case, packets[at])
        self.lab.restore(tool, family, saved)

    def may_and_must(self, rng, family, tool, packets, bits, case):
        """Over every mark, which is every truth of the unknown matches: what passes under some has to pass under `upper`, what passes under
        all under `lower`, and nothing else; and `explain` has to say "never" exactly of what comes under none."""
        saved = self.lab.save(tool, family)
        under = []
        for mark in range(1 << bits):
            self.lab.restore(tool, family, f"*mangle\n:PREROUTING ACCEPT [0:0]\n-A PREROUTING -j MARK --set-xmark {mark:#x}/0xffffffff\nCOMMIT\n")
            under.append(self.passing(packets))
        may, must = [any(it) for it in zip(*under)], [all(it) for it in zip(*under)]
        self.numbers["packets"] += len(packets) << bits
        self.numbers["truths of unknown matches"] += 1 << bits
        self.numbers["packets on which they differ"] += sum(a != b for a, b in zip(may, must))
        for at in rng.sample(range(len(packets)), min(len(packets), 8)):
            _, text, line = self.answer("explain", family, saved, *packets[at].fields())
            self.numbers["explanations"] += 1
            if ("accept under " in text, "drop under " in text) != (may[at], not must[at]):
                self.differs(f"explain says {line or text!r}, the kernel passes under {'all' if must[at] else 'some' if may[at] else 'no'} truths", case, packets[at])
        for side, wanted in (("upper", may), ("lower", must)):
            self.lab.restore(tool, family, self.answer(side, family, saved)[1])
            self.numbers["packets"] += len(packets)
            for packet, passes, right in zip(packets, self.passing(packets), wanted):
                if passes != right:
                    self.differs(f"the filter of {side} {'passes' if passes else 'drops'}, the dump doesn't so over all truths", case, packet)

    def matrix(self, rng, family, tool, saved, kind, case):
        """Between the ends of each two classes the service's packet passes exactly where an edge stands; where some match may be unknown,
        as that of a name is, it passes only where an edge of the upper matrix stands, and everywhere where one of the lower does."""
        proto, side = rng.choice([6, 17, 1 if family == 4 else 58]), rng.choice(["upper", "lower"])
        sport, dport = (0, 0) if proto in ECHO else (rng.choice(dumps.PORTS), rng.choice(dumps.PORTS))
        status, text, line = self.answer("matrix", family, saved, "--side", side, f"{proto}:{sport}:{dport}")
        if status != 0:
            self.numbers[f"matrix refused: {line}"] += 1
            return
        self.numbers["matrices"] += 1
        classes, edges = matrix_of(text)
        ends = [rng.sample(it, min(len(it), 2)) for it in classes]
        asked = [(a, b, Packet(family, rng.choice(NAMES), rng.choice(NAMES), src, dst, proto, sport, dport, 2 if proto == 6 else 0, ECHO.get(proto, 0)))
                 for a, sources in enumerate(ends) for b, targets in enumerate(ends) for src in sources for dst in targets]
        asked = rng.sample(asked, min(len(asked), 60))
        loaded = self.passing([it for _, _, it in asked])
        at_all = self.at_all([it for _, _, it in asked], tool, family, saved)
        for (a, b, packet), passes, can in zip(asked, loaded, at_all):
            if not can:
                self.numbers["pairs that no router forwards"] += 1
                continue
            self.numbers["pairs of a matrix"] += 1
            self.numbers["packets"] += 1
            if not agree(side, kind.names or kind.unknown, passes, (a, b) in edges):
                self.differs(f"the {side} matrix has {'an' if (a, b) in edges else 'no'} edge {a} {b}, the kernel {'passes' if passes else 'drops'}", case, packet)

    def at_all(self, packets, tool, family, saved):
        """Whether the router forwards each packet where no rule is loaded."""
        self.lab.clear(tool, family)
        found = self.passing(packets)
        self.lab.restore(tool, family, saved)
        return found

    def forged(self, rng, family, tool, saved, kind, case):
        name = rng.choice(NAMES)
        inside = ipaddress.ip_network("10.0.0.0/8" if family == 4 else "2001:db8::/32")
        status, text, line = self.answer("spoof", family, saved, f"{name}={inside}")
        if status != 0:
            self.numbers[f"spoof refused: {line}"] += 1
            return
        self.numbers["claims"] += 1
        forged = [dataclasses.replace(dumps.packet(rng, family), into=name) for _ in range(40)]
        forged = [it for it in forged if ipaddress.ip_address(it.src) not in inside and (it.proto != 6 or it.flags == 2)]
        if text == f"{name} holds\n":
            self.numbers["claims that hold"] += 1
            at_all = self.at_all(forged, tool, family, saved)
            for packet, passes in zip(forged, self.passing(forged)):
                if passes:
                    self.differs("spoof says that it holds, a forged packet passes", case, packet)
            self.numbers["forged packets"] += sum(at_all)
            self.numbers["packets"] += sum(at_all)
        elif kind.unknown:
            self.numbers["shown packets that an unknown match may keep back, not sent"] += 1
        else:
            self.shown(rng, family, tool, saved, text, inside, case)

    def shown(self, rng, family, tool, saved, text, inside, case):
        """The packet that breaks a claim passes; where no router forwards it, others that differ from it in what keeps it back."""
        base = packet_of(family, text.split()[2:])
        tries = [dataclasses.replace(base, out=out, src=src, dst=dst, proto=proto) for out in NAMES for proto in (base.proto, 47)
                 for src in (base.src, dumps.address(rng, family)) for dst in (base.dst, dumps.address(rng, family))]
        tries = [it for it in tries if ipaddress.ip_address(it.src) not in inside and (family == 4 or it.proto not in EXTENSIONS)]
        can = [it for it, can in zip(tries, self.at_all(tries, tool, family, saved)) if can]
        is_shown = lambda it: (it.src, it.dst, it.proto) == (base.src, base.dst, base.proto)
        can = sorted(can, key=is_shown, reverse=True)[:12]
        accepted = [it for it in can if self.answer("explain", family, saved, *it.fields())[1].startswith("accept under")]
        for packet, passes in zip(accepted, self.passing(accepted)):
            self.numbers["packets"] += 1
            if not passes:
                self.differs("a forged packet that spoof and explain let pass is dropped", case, packet)
        if any(map(is_shown, accepted)):
            self.numbers["shown packets that were sent"] += 1
        elif accepted:
            self.numbers["shown packets that no router forwards, others sent in their place"] += 1
        else:
            self.numbers["shown packets that no router forwards"] += 1


def packet_of(family, words):
    """The packet of a verdict on forged sources, out by the first interface."""
    fields = dict(word.split("=", 1) for word in words)
    flags = sum(1 << FLAGS.index(it) for it in fields["flags"].split(",") if it != "NONE")
    src, dst = (int(ipaddress.ip_address(fields[it])) for it in ("src", "dst"))
    return Packet(family, fields["in"], NAMES[0], src, dst, int(fields["proto"]), int(fields["sport"]), int(fields["dport"]), flags,
                  int(fields["icmp"]))


def can_be(text, unknown, passes):
    """Whether the lines of an explanation leave room for the kernel's verdict: exactly that one, or it among both where a match is unknown."""
    if not unknown:
        return text == ("accept under 0\ndrop never\n" if passes else "accept never\ndrop under 0\n")
    return f"{'accept' if passes else 'drop'} under " in text


def agree(side, unknown, passes, shown):
    if not unknown:
        return passes == shown
    return shown or not passes if side == "upper" else passes or not shown


def state_of(frame):
    tos = frame[1] if frame[0] >> 4 == 4 else (frame[0] & 15) << 4 | frame[1] >> 4
    return next((name for name, bits in STATE_BITS.items() if tos & 0xE0 == bits), None)


def matrix_of(text):
    """The ends of each class's ranges, and the edges."""
    lines = text.splitlines()
    count = int(lines[0].split()[1])
    classes = []
    for line in lines[1:count + 1]:
        ends = [end for part in line.split()[1].split(",") for end in part.split("-")]
        classes.append([int(ipaddress.ip_address(end)) for end in ends])
    return classes, {tuple(int(it) for it in line.split()) for line in lines[count + 2:]}


def refused(lab):
    """Why a tool doesn't load here what every dump of the comparison may hold, or None."""
    for tool in TOOLS:
        for family in (4, 6):
            try:
                lab.restore(tool, family, PROBE)
                lab.clear(tool, family)
            except Refused as refusal:
                return f"{tool}, IPv{family}: {(str(refusal).splitlines() or ['no cause told'])[0]}"
    return None


def main():
    parser = argparse.ArgumentParser(description="Holds the answers of the program against the kernel's filter.")
    parser.add_argument("program")
    parser.add_argument("--dumps", type=int, default=96)
    parser.add_argument("--packets", type=int, default=120)
    parser.add_argument("--seed", type=int, default=1)
    parser.add_argument("--random-only", action="store_true", help="leaves out spellings, borders and samples")
    words = parser.parse_args()
    # so that the namespaces are removed
    signal.signal(signal.SIGTERM, lambda number, _: sys.exit(128 + number))
    why = lacking()
    if why:
        print(f"kernel: left out, since {why}")
        return 0
    with Lab() as lab:
        why = refused(lab)
        if why:
            print(f"kernel: left out, since this kernel doesn't take what is compared: {why}")
            return 0
        compared = Comparison(words.program, lab, words.seed, words.packets)
        if not words.random_only:
            spellings.compare(compared)
            borders.compare(compared)
        compared.run(words.dumps)
    if not words.random_only:
        samples.compare(compared)
    for name, number in sorted(compared.numbers.items()):
        print(f"  {name}: {number:,}")
    numbers = compared.numbers
    print(f"kernel: {numbers['dumps']:,} dumps, {numbers['packets']:,} packets, {numbers['differences']:,} differences")
    return 1 if numbers["differences"] else 0


if __name__ == "__main__":
    sys.exit(main())
