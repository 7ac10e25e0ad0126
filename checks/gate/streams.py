#!/usr/bin/env python3
"""Tries the built ranksql_feed over FIFOs: pairs come before the rest of a stream, and one that is broken off is told.

The program is crates/ranksql_feed/out/ranksql_feed, or that which the variable RANKSQL_FEED names.
"""
import os, subprocess, sys, tempfile, threading

ROOT = os.path.dirname(os.path.dirname(os.path.dirname(os.path.abspath(__file__))))
PROGRAM = os.path.abspath(os.environ.get("RANKSQL_FEED", os.path.join(ROOT, "crates/ranksql_feed/out/ranksql_feed")))
HEAD = b"key,score\n"


def run(left, right, count="10"):
    """The output, the line on standard error and the status, where both streams are FIFOs. A stream is a list of pieces."""
    with tempfile.TemporaryDirectory() as folder:
        names = [os.path.join(folder, name) for name in ("left", "right")]
        for name in names:
            os.mkfifo(name)
        process = subprocess.Popen([PROGRAM, "left", "right", count, "-"], cwd=folder, stdout=subprocess.PIPE, stderr=subprocess.PIPE)
        done = threading.Event()

        def write(name, pieces):
            with open(name, "wb", buffering=0) as to:
                try:
                    for piece in pieces:
                        if piece is None:
                            # The rest of the stream comes only behind the end of the program.
                            done.wait(20)
                        else:
                            to.write(piece)
                except BrokenPipeError:
                    pass

        writers = [threading.Thread(target=write, args=pair, daemon=True) for pair in zip(names, (left, right))]
        for writer in writers:
            writer.start()
        try:
            out, err = process.communicate(timeout=15)
        finally:
            process.kill()
            done.set()
        return out, err, process.returncode


def check(name, got, want):
    if got != want:
        sys.exit(f"streams: {name}: {got} in place of {want}")


left, right = HEAD + b"a,9\nb,8\n", HEAD + b"b,9\na,1\n"
end = b"end,end\n"
whole = (b"1,17,b,8,9\n2,10,a,9,1\nleft=3 right=3\n", b"", 0)
check("whole", run([left + end], [right + end]), whole)
check("a byte a write", run([bytes([c]) for c in left + end], [bytes([c]) for c in right + end]), whole)
check("a pair before the rest", run([left, None, end], [right, None, end], "1"), (b"1,17,b,8,9\nleft=2 right=2\n", b"", 0))
check("broken off", run([left], [right + end]), (b"1,17,b,8,9\n", b"read: left: broken off\n", 3))
check("in a record", run([left + b"c,"], [right + end]), (b"1,17,b,8,9\n", b"read: left: broken off\n", 3))
check("without its line feed", run([left + b"end,end"], [right + end]), (b"1,17,b,8,9\n", b"read: left: broken off\n", 3))
check("a quoted line feed", run([HEAD + b'"a\nb",9\n' + end], [HEAD + b'"a\nb",8\n' + end]), (b'1,17,"a\nb",9,8\nleft=2 right=2\n', b"", 0))
check("out of order behind the last draw", run([left + b"c,99\n" + end], [right + end], "1"), (b"1,17,b,8,9\nleft=2 right=2\n", b"", 0))
check("columns", run([b"key,points\n" + end], [right + end]), (b"", b"table: left: Header\n", 6))
check("no row", run([HEAD + b"a\n" + end], [right + end]), (b"", b"table: left: NoRow record 2\n", 6))
check("no score", run([HEAD + b"a,-1\n" + end], [right + end]), (b"", b"score: left record 2: -1 is not in 0..4294967295\n", 7))
print("streams: 11 cases")
