"""The words of `advise`, and what it prints."""

import argparse
import subprocess

from .advice import Case, all_advice, calls_of_one, number, seeds_text
from .command import run_command, tell
from .limits import GREATEST_SEED
from .program import find_program, helper, no_program
from .queries import read_queries
from .refusal import READ, USAGE, Refusal
from .runner import Failed, Runner, TooLong
from .script_text import shown, without_mark

ABOUT = """\
Says what the queries of a script will cost before they are paid for. The formulas of its predicates stand for the scores, so
it calls nothing else: it runs EXPLAIN ANALYZE on copies of the script, by some seeds. Of each query and each cursor it
prints the plans, the calls that they make, those of the sample and the rank indexes, those that `plain` would make, and what
to change so that there are fewer."""
STATUSES = """\
The status is that of `ranksql` where it refuses the script, with its line; else 0 where all was counted, 1 where something took
too long, 2 for wrong words, 3 for a script that can't be read, and 70 where there is no program. docs/ADVISE.md has examples."""
NO_PROGRAM = 70
MOST_SHOWN = 100


def parser():
    words = argparse.ArgumentParser(description=ABOUT, epilog=STATUSES, allow_abbrev=False,
                                    formatter_class=argparse.RawDescriptionHelpFormatter)
    words.add_argument("script", metavar="SCRIPT", help="a script of ranksql; files are named from the current folder, as for ranksql")
    words.add_argument("--seeds", default="1,2,3,4,5", metavar="N,N,..", help="the seeds to try (1,2,3,4,5)")
    words.add_argument("--query", type=int, metavar="N", help="only query N of the script")
    words.add_argument("--seconds", type=float, default=60, metavar="S", help="how long one run may take (60)")
    return words


def read_script(path):
    try:
        with open(path, "rb") as file:
            return file.read()
    except FileNotFoundError:
        raise Refusal(READ, "there is no script %s" % path) from None
    except (OSError, ValueError) as error:
        raise Refusal(READ, "%s can't be read: %s" % (path, getattr(error, "strerror", None) or error)) from None


def read_seeds(text):
    seeds = text.split(",")
    if not all(seed.isascii() and seed.isdigit() and int(seed) <= GREATEST_SEED for seed in seeds):
        raise Refusal(USAGE, "--seeds %s: these are no numbers with commas between them" % text)
    return list(dict.fromkeys(map(int, seeds)))


def refuse_as_ranksql(program, path, body, seconds):
    """Ends as `ranksql` does on the script, or comes back where it runs."""
    try:
        ended = subprocess.run([program, "run", "/dev/stdin", "1"], input=body, capture_output=True, timeout=seconds, check=False)
    except subprocess.TimeoutExpired:
        return
    if ended.returncode != 0:
        line = ended.stderr.decode("utf-8", "replace").strip().replace("/dev/stdin", path)
        raise Refusal(ended.returncode, "%s (%s %s shows where, and says what to do)" % (line, helper("why"), shown(path)))


def work(words):
    program = find_program()
    if program is None:
        raise Refusal(NO_PROGRAM, no_program())
    if words.seconds <= 0:
        raise Refusal(USAGE, "--seconds is for a number above 0")
    seeds, raw = read_seeds(words.seeds), read_script(words.script)
    body = without_mark(raw)
    queries = read_queries(body)
    if queries is None:
        refuse_as_ranksql(program, words.script, raw, words.seconds)
    if not queries:
        tell("advise", "%s has no query" % words.script)
        return 0
    if words.query is not None and not 1 <= words.query <= len(queries):
        raise Refusal(USAGE, "--query %d: the script has %d" % (words.query, len(queries)))
    if words.query is not None:
        queries = [queries[words.query - 1]]
    with Runner(program, words.seconds) as runner:
        return max(advised(words, raw, body, query, runner, seeds) for query in queries)


def advised(words, raw, body, query, runner, seeds):
    """Prints what is found of a query, and gives the status."""
    try:
        case = Case(body, query, runner, seeds)
    except Failed as failed:
        runner.drop()
        refuse_as_ranksql(runner.program, words.script, raw, words.seconds)
        raise Refusal(failed.status, failed.line) from None
    except TooLong:
        runner.drop()
        tell("advise", "query %d took more than %g seconds: --seconds sets another limit" % (query.number, words.seconds))
        return 1
    print("\n".join(report(body, case)), flush=True)
    return 0


def report(body, case):
    """What is printed of a query."""
    query = case.query
    text = " ".join(body[query.tokens[0].start:query.tokens[-1].end].decode("utf-8", "replace").split())
    lines = ["Query %d, line %d%s: %s" % (
        query.number, query.line, "" if query.cursor is None else ", cursor %s with %s rows fetched" % (shown(query.cursor), number(query.fetched)),
        shown(text if len(text) <= MOST_SHOWN else text[:MOST_SHOWN - 3] + "..."))]
    for seeds in by_shape(case):
        lines += plan_lines(case, seeds)
    lines.append("  sample: %s" % case.sample().text(query))
    for create in case.used_indexes():
        index = create.parsed
        lines.append("  index %s, once in a run: %s" % (shown(index.name.says), calls_of_one(index.predicate.says, case.index_calls(create))))
    count = case.combinations()
    if count is None:
        lines.append("  plain: its combinations could not be counted in %g seconds" % case.runner.seconds)
    else:
        lines.append("  plain: %s, one for each term and each of %s" % (case.plain(count).text(query), combinations_text(count)))
    lines += ["  - " + shown(sentence) for sentence in all_advice(case, count)]
    return lines + [""]


def by_shape(case):
    """The seeds that choose plans of one shape, for each shape."""
    shapes = {}
    for seed, trial in case.trials.items():
        shapes.setdefault(trial.shape, []).append(seed)
    return shapes.values()


def plan_lines(case, seeds):
    """A plan with what it calls. By all seeds that choose plans of its shape it does the same; the estimates are those of the
    first one."""
    first = case.trials[seeds[0]]
    others = "" if len(seeds) == 1 else ", with est and cost of seed %d" % seeds[0]
    lines = ["  plan of %s%s: %s" % (seeds_text(seeds), others, case.price_of(first).text(case.query))]
    return lines + ["    " + shown(line) for line in first.text.splitlines()]


def combinations_text(count):
    return "1 combination" if count == 1 else "%s combinations" % number(count)


def main(arguments=None):
    words = parser().parse_args(arguments)
    return run_command("advise", lambda: work(words))
