"""Runs one kernel over the objects of several clients, each a program in any language.

    python3 router.py [OPTION].. SCRIPT -- CLIENT ARGUMENT.. -- CLIENT ARGUMENT..

The options are those of a client on geqiwlla.py: --kernel PATH, --trace, --seed N, --test TEST, --record FILE, --quiet, --count.

Each client speaks the protocol (docs/PROTOCOL.md) over its standard input and output; a client on geqiwlla.py or geqiwlla.hpp does so
with `--stdio`. The router hands a `? need` to one client after the other, until one says `made`. That client then gets each `? ask`,
`! new` and `! back` of the object. Every other notice goes to all clients. The transcript goes to standard output. Clients must not write
ahead.

The exit status is that of the kernel, or 3.
"""
import argparse
import os
import subprocess
import sys
import time

# The kernel aborts the run at an answer with more lines, or at a longer line.
MOST_LINES = 1002
MOST_BYTES = 4098


class Gone(Exception):
    """A client or the kernel ended early."""


class Peer:
    """A program at the other ends of two pipes."""

    def __init__(self, words):
        self.name = words[0]
        self.process = subprocess.Popen(words, stdin=subprocess.PIPE, stdout=subprocess.PIPE)
        self.is_open = True

    def write(self, data, flush=False):
        """Writes bytes, if the program still reads."""
        try:
            if self.is_open:
                self.process.stdin.write(data)
                if flush:
                    self.process.stdin.flush()
        except BrokenPipeError:
            self.is_open = False

    def line(self):
        """Reads a line. Errors: Gone."""
        line = self.process.stdout.readline(MOST_BYTES)
        if not line:
            raise Gone(self.name + " ended early")
        return line

    def answer(self, question):
        """Returns the answer to a question. Errors: Gone."""
        self.write(question, flush=True)
        if question.startswith(b"? need "):
            return self.line()
        lines = []
        while len(lines) < MOST_LINES:
            lines.append(self.line())
            if lines[-1] == b"\n" or not lines[-1].endswith(b"\n"):
                break
        return b"".join(lines)

    def close(self):
        """Closes what the program reads."""
        try:
            self.process.stdin.close()
        except BrokenPipeError:
            pass
        self.is_open = False


class Router:
    """One run."""

    def __init__(self, kernel, clients, out, record):
        self.kernel, self.clients, self.out, self.record = kernel, clients, out, record
        self.owner = {}
        self.maker = None
        self.status = 3
        self.questions = 0

    def need(self, question):
        """Returns the answer of the first client that has the type, or `declined`."""
        for self.maker in self.clients:
            answer = self.maker.answer(question)
            if answer != b"declined\n":
                return answer
        return b"declined\n"

    def notice(self, line):
        """Passes a notice on, and returns whether it is the last line."""
        words = line[:-1].split(b" ")
        if words[1] == b"new":
            self.owner[words[2], words[3]] = self.maker
            self.maker.write(line)
        elif words[1] == b"back":
            self.owner.pop((words[2], words[3])).write(line)
        else:
            for client in self.clients:
                client.write(line)
        if words[1] == b"end":
            self.status = int(words[3])
            return True
        return False

    def route(self):
        """Passes lines on until the end. Errors: Gone."""
        while True:
            line = self.kernel.line()
            if line.startswith(b"! "):
                if self.notice(line):
                    return
            elif line.startswith(b"? "):
                words = line[:-1].split(b" ")
                answer = self.need(line) if words[1] == b"need" else self.owner[words[2], words[3]].answer(line)
                self.record.write(answer)
                self.kernel.write(answer, flush=True)
                self.questions += 1
            else:
                self.out.write(line)

    def abort(self):
        """Closes the answers, and passes on what the kernel still writes."""
        self.kernel.close()
        for line in self.kernel.process.stdout:
            if line.startswith(b"! ") and self.notice(line):
                break
            if not line.startswith((b"! ", b"? ")):
                self.out.write(line)


def main(arguments):
    """Runs a script as the command line says, and returns the exit status."""
    groups = [[]]
    for word in arguments:
        if word == "--":
            groups.append([])
        else:
            groups[-1].append(word)
    words = argparse.ArgumentParser(usage="%(prog)s [options] SCRIPT -- CLIENT ARGUMENT.. [-- CLIENT ARGUMENT..]..")
    words.add_argument("file", help="the script, in TOML")
    words.add_argument("--kernel", default=os.environ.get("KERNEL") or "script_bench", help="the program script_bench")
    words.add_argument("--trace", action="store_true", help="prints every entry of the log")
    words.add_argument("--seed", default="1", help="the seed of the run (1 if omitted)")
    words.add_argument("--test", help="runs this test instead of the file's own")
    words.add_argument("--record", metavar="FILE", default=os.devnull, help="writes the answers to FILE, for: script_bench serve SCRIPT < FILE")
    words.add_argument("--quiet", action="store_true", help="prints no transcript")
    words.add_argument("--count", action="store_true", help="prints the number of questions and the seconds to standard error")
    given = words.parse_args(groups[0])
    if len(groups) == 1 or not all(groups[1:]):
        words.error("name at least one client, each after --")
    options = ["--seed", given.seed] + ["--trace"] * given.trace + (["--test", given.test] if given.test is not None else [])
    peers = []
    try:
        with open(given.record, "wb") as record, open(os.devnull, "wb") as nothing:
            begun = time.perf_counter()
            peers = [Peer([given.kernel, "serve", *options, given.file])]
            for group in groups[1:]:
                peers.append(Peer(group))
            router = Router(peers[0], peers[1:], nothing if given.quiet else sys.stdout.buffer, record)
            try:
                router.route()
            except Gone as error:
                print("router: %s" % error, file=sys.stderr)
                router.abort()
            if given.count:
                seconds = time.perf_counter() - begun
                print("%d questions in %.3f s, %.0f a second" % (router.questions, seconds, router.questions / seconds), file=sys.stderr)
            return router.status
    except OSError as error:
        print("router: %s" % error, file=sys.stderr)
        return 3
    finally:
        sys.stdout.flush()
        for peer in peers:
            peer.close()
        for peer in peers:
            peer.process.stdout.close()
            peer.process.wait()


if __name__ == "__main__":
    sys.exit(main(sys.argv[1:]))
