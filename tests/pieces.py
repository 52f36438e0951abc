"""Runs a program whose standard input gives its text piece by piece: each read gives one piece, however long the reader waits."""
import socket
import subprocess


def cut(text, size):
    """The text in pieces of this size."""
    return [text[at:at + size] for at in range(0, len(text), size)]


def cut_anywhere(rng, text, most):
    """The text in pieces of random sizes, of at most so many bytes each."""
    pieces, at = [], 0
    while at < len(text):
        size = rng.randint(1, most)
        pieces.append(text[at:at + size])
        at += size
    return pieces


def run(program, words, pieces):
    """The status, and what came on standard output and standard error, of a run over these pieces, then the end."""
    ours, theirs = socket.socketpair(socket.AF_UNIX, socket.SOCK_SEQPACKET)
    child = subprocess.Popen([program, *words], stdin=theirs, stdout=subprocess.PIPE, stderr=subprocess.PIPE)
    theirs.close()
    try:
        for piece in pieces:
            ours.send(piece)
    except (BrokenPipeError, ConnectionResetError):
        pass
    ours.close()
    out, err = child.communicate(timeout=120)
    return child.returncode, out, err
