"""What the system does to a command: outputs that are full, that are cut or that nobody reads, files that are pipes, and too little memory."""
import os
import resource
import socket
import subprocess
import threading
from pathlib import Path


def is_told(said, status, line, out=b""):
    return (said.status, said.out, said.err) == (status, out, line.encode())


def is_unwritten(said, out=b""):
    """Whether a command has written just this, and reports that it cannot write."""
    return is_told(said, 6, "tapa: cannot write\n", out)


def has_full(trial):
    """Whether there is a device that is always full."""
    if not os.path.exists("/dev/full"):
        trial.note("there is no /dev/full here, so no full device was tried")
        return False
    return True


def full(trial, words, *streams):
    """The answer where these outputs are a full device."""
    with open("/dev/full", "wb") as file:
        return trial.run(words, **dict.fromkeys(streams, file))


def unread(trial, words, *streams):
    """The answer where nobody reads these outputs any more."""
    reader, writer = os.pipe()
    os.close(reader)
    said = trial.run(words, **dict.fromkeys(streams, writer))
    os.close(writer)
    return said


def limit(what, most):
    """Sets a limit of the system in a command's process."""
    return lambda: resource.setrlimit(what, (most, most))


def cut(trial, words, most):
    """The answer where the output has room for so many bytes, and these bytes."""
    path = os.path.join(trial.folder.name, "cut")
    with open(path, "wb") as file:
        said = trial.run(words, stdout=file, before=limit(resource.RLIMIT_FSIZE, most))
    said.out = Path(path).read_bytes()
    return said


def read_front(call, words, most, piece=1 << 16):
    """The answer where a reader takes so many bytes of the output, in pieces, and goes away; little has room on the way to it."""
    ours, theirs = socket.socketpair()
    ours.setsockopt(socket.SOL_SOCKET, socket.SO_RCVBUF, 1)
    theirs.setsockopt(socket.SOL_SOCKET, socket.SO_SNDBUF, 1)
    found = []

    def listen():
        while (left := most - sum(map(len, found))) and (got := ours.recv(min(piece, left))):
            found.append(got)
        ours.close()

    listener = threading.Thread(target=listen)
    listener.start()
    said = call(words, stdout=theirs)
    theirs.close()
    listener.join()
    said.out = b"".join(found)
    return said


def piped(trial, words, files):
    """The answer where these files are pipes, each of which brings its file."""
    pipes = {file: f"pipe_{file}" for file in files}
    for pipe in pipes.values():
        os.mkfifo(os.path.join(trial.folder.name, pipe))
    feeds = "; ".join(f"cat {file} > {pipe}" for file, pipe in pipes.items())
    writer = subprocess.Popen(["sh", "-c", f"exec 2>&-; {feeds}"], cwd=trial.folder.name)
    said = trial.run([pipes.get(word, word) for word in words])
    writer.kill()
    writer.wait()
    for pipe in pipes.values():
        os.remove(os.path.join(trial.folder.name, pipe))
    return said


def try_little_memory(trial, words, whole, kilobytes, is_front=None):
    """Under each limit on memory a command ends well, or says that memory is out after a prefix of its text; one of the limits is too little."""
    short, has_begun = 0, False
    for size in kilobytes:
        said = trial.run(words, before=limit(resource.RLIMIT_AS, size << 10))
        if b"AddressSanitizer" in said.err:
            trial.note("a build with a sanitizer has no limit on memory, so too little memory was not tried")
            return
        is_short = (said.status, said.err) == (9, b"tapa: out of memory\n") and (is_front or whole.startswith)(said.out)
        is_whole = is_told(said, 0, "", whole)
        has_begun = has_begun or is_short or is_whole
        if is_short:
            short += 1
            trial.keep(said)
        if has_begun:
            trial.check(f"{words} with {size} KB", is_short or is_whole, f"   {said.status} {said.err}")
    trial.check(f"{words}: one of the limits is too little", short)
