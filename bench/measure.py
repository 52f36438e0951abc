"""Runs the built program on generated dumps, and prints seconds, peak memory and the growth from one size to the next."""
import os
import subprocess
import sys
import tempfile

TOP = os.path.dirname(os.path.dirname(os.path.abspath(__file__)))
MOST = 16_777_216
# A run that takes longer ends with status 124.
LONGEST = 120
HEAD, TAIL = b"*filter\n:FORWARD DROP [0:0]\n", b"COMMIT\n"


def wrapped(*parts):
    return b"".join((HEAD, *parts, TAIL))


def doubtful(share):
    """Doubtful calls of eight chains of returns and accepts, a fifth of the lines each kind."""
    lines = [b":S%d - [0:0]\n" % number for number in range(8)]
    for number in range(int(1000 * share)):
        net = b"10.%d.%d.0/24" % (number >> 8, number & 255)
        chain = number // 5 % 8
        lines.append([b"-A FORWARD -s %s -m limit --limit 5/sec -j S%d\n" % (net, chain),
                      b"-A S%d -s %s -j RETURN\n" % (chain, net),
                      b"-A S%d -d %s -p tcp -m tcp --dport %d -j ACCEPT\n" % (chain, net, number + 1),
                      b"-A S%d -p udp -m recent --rcheck -j DROP\n" % chain,
                      b"-A FORWARD -d %s -j ACCEPT\n" % net][number % 5])
    return wrapped(*lines)


def timed(program, words, text):
    """The status, seconds, and peak memory in MiB."""
    with tempfile.TemporaryFile() as given:
        given.write(text)
        given.seek(0)
        timer = ["/usr/bin/time", "-q", "-f", "%e %M", "timeout", str(LONGEST)]
        done = subprocess.run([*timer, program, *words], stdin=given, stdout=subprocess.DEVNULL, stderr=subprocess.PIPE)
    seconds, memory = done.stderr.split()[-2:]
    return done.returncode, float(seconds), int(memory) / 1024


def measure(families):
    """Each family is a name, the words, and a function from a share up to 1 to a text."""
    program = sys.argv[1] if len(sys.argv) > 1 else f"{TOP}/crates/fffuu/out/fffuu"
    print(f"{'dump':44} {'words':16} {'bytes':>12} {'status':>6} {'seconds':>8} {'MiB':>7} {'growth':>7}")
    for name, words, make in families:
        before = None
        for share in (0.25, 0.5, 1):
            text = make(share)
            status, seconds, memory = timed(program, words.split(), text)
            growth = f"{seconds / before:7.2f}" if before else ""
            before = seconds
            print(f"{name:44} {words:16} {len(text):12,} {status:6} {seconds:8.2f} {memory:7.0f} {growth}", flush=True)
