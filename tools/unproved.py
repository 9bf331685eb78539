"""Runs the program with nothing proved of it, for `./minired try WORDS..`: the kit compiles it with checks, and runs it on these words until it ends.

What the program prints comes when it has ended, and its folder is a new one that goes with it: so the kit has it. A server is told of here once it answers."""

import os
import shutil
import signal
import socket
import subprocess
import sys
import threading

ROOT = os.path.dirname(os.path.dirname(os.path.abspath(__file__)))
# how long it runs at most, in seconds
LONGEST = 3600
# how often a server is looked for, in seconds
PAUSE = 0.5
HOST = "127.0.0.1"


def say(text):
    print(f"minired: {text}", file=sys.stderr, flush=True)


def port_of(words):
    """The port that these words have the program listen on, or None."""
    if words[:1] != ["serve"]:
        return None
    values = [after for word, after in zip(words, words[1:]) if word == "--port"]
    values += [word.partition("=")[2] for word in words if word.startswith("--port=")]
    return int(values[0]) if values and values[0].isdigit() and int(values[0]) < 65536 else None


def answers(port):
    """Whether something listens on the port."""
    try:
        socket.create_connection((HOST, port), timeout=PAUSE).close()
        return True
    except OSError:
        return False


def watch(port, ended):
    """Says so once the server listens, if it is one, unless it has ended before."""
    while port and not ended.wait(PAUSE):
        if answers(port):
            say(f"ready on {HOST}:{port}, unproved; Ctrl-C ends it")
            return


def run(words):
    """Runs the program on these words, and returns how it ended."""
    port = port_of(words)
    if port and answers(port):
        say(f"something listens on {HOST}:{port} already: name another port")
        return 2
    say("nothing is proved of this build, and it is slow: it is compiled with checks, in two or three minutes")
    say(f"it runs for {LONGEST // 60} minutes at most; what it prints comes at its end, and a file with a relative name goes with its folder")
    command = ["rt", "try", "--seconds", str(LONGEST), "--", *words]
    given = subprocess.DEVNULL if port else None
    started, ended = subprocess.Popen(command, cwd=os.path.join(ROOT, "crates", "minired"), stdin=given), threading.Event()
    # rt ends by the same Ctrl-C, and takes the program with it
    signal.signal(signal.SIGINT, signal.SIG_IGN)
    signal.signal(signal.SIGTERM, lambda number, _: started.send_signal(number))
    watcher = threading.Thread(target=watch, args=(port, ended), daemon=True)
    watcher.start()
    status = started.wait()
    ended.set()
    # what it has found, it says
    watcher.join(2 * PAUSE)
    return status


def main(words):
    if not words:
        say("say what it shall do, as in: ./minired try serve --port 6379")
        return 1
    if not shutil.which("rt"):
        say("cannot run the program: put the command rt of the Rattle kit on PATH")
        return 1
    return run(words)


if __name__ == "__main__":
    sys.exit(main(sys.argv[1:]))
