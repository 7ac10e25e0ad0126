"""Explains a fault line: the line of the script with a caret, the rows of a file, and a sentence that says what to do."""

from ranksql_tools import asking_advice, bind_advice, certificate_advice, command_advice, data_advice, parse_advice
from ranksql_tools.faults import lines_of, read_asking_fault, read_fault
from ranksql_tools.file_sorts import of_odd_script
from ranksql_tools.foreign_advice import foreign_word
from ranksql_tools.limits import MOST_CURSORS
from ranksql_tools.program import helper
from ranksql_tools.script_parse import parse
from ranksql_tools.script_place import Place, scorings
from ranksql_tools.script_text import tokens_of, with_caret, without_mark
from ranksql_tools.word_forms import has_script


def token_at(tokens, place):
    """The token that begins at a byte, or the end."""
    for token in tokens:
        if token.start >= place:
            return token
    return tokens[-1]


def of_script(fault, body):
    """What to do about a script that is refused."""
    if fault.variant == "NotUtf8":
        return parse_advice.of_bytes(body, fault.place)
    if fault.step == "lex":
        return parse_advice.of_tokens(body, fault.variant, fault.place)
    tokens = tokens_of(body)
    parser, stopped = parse(tokens)
    token = token_at(tokens, fault.place)
    if fault.step == "parse":
        if stopped is None or tokens[stopped.index].start != fault.place:
            stopped_at = next((index for index, other in enumerate(tokens) if other.start >= fault.place), len(tokens) - 1)
            place = Place(tokens, stopped_at, ("statement",), (), [], 0, {})
            return parse_advice.of_parse(place, fault.variant) if fault.variant.startswith("Too") else "Something else is expected here."
        start = parser.starts[-1] if parser.starts else 0
        place = Place(tokens, stopped.index, stopped.trail, stopped.ended, stopped.expected, start, scorings(parser))
        if fault.variant == "NotInProfile":
            return foreign_word(place)
        return parse_advice.of_parse(place, fault.variant)
    if fault.step == "catalogue":
        return bind_advice.of_catalogue(fault.variant, token)
    return bind_advice.of_bind(parser, fault.variant, token, fault.place)


def explanation(line, words, body):
    """The lines that explain a fault line, where the program was called with these words and the script has these bytes, or
    None where there is no script. An unknown line has no explanation."""
    fault = read_fault(line)
    return explained_fault(fault, words, body) if fault else []


def explained_fault(fault, words, body):
    """The lines that explain a fault."""
    if fault.kind == "usage":
        return [command_advice.of_usage(words)]
    if fault.kind == "write":
        return [command_advice.of_write()]
    if fault.kind == "memory":
        return [command_advice.of_memory()]
    if fault.kind == "probe":
        return [command_advice.of_probe(fault)]
    if fault.kind == "session":
        return [*session_lines(fault, body), command_advice.of_session(fault)]
    if fault.kind == "ineligible":
        return [*ineligible_lines(fault, body), command_advice.of_ineligible(fault)]
    if fault.kind == "script":
        if body is None:
            return []
        body = without_mark(body)
        odd = of_odd_script(words[1], body, helper("prepare")) if fault.step in ("", "lex", "parse") else ""
        if odd:
            return [odd]
        says = of_script(fault, body)
        return [*with_caret(body, fault.place), *([says] if says else [])]
    return of_data(fault, words, body)


def asking_explanation(said, words, body):
    """The lines that explain what ranksql_ask says on standard error, where it was called with these words and the script has
    these bytes."""
    fault = next((fault for line in lines_of(said) for fault in [read_asking_fault(line)] if fault), None)
    if fault is None:
        return []
    if fault.kind == "usage":
        return [asking_advice.of_usage(words)]
    if fault.kind == "scores":
        lines, says = asking_advice.of_scores(fault, words)
        return [*lines, says]
    if fault.kind == "ask":
        return [asking_advice.of_ask(fault, parse(tokens_of(without_mark(body)))[0] if body is not None else None)]
    if fault.kind == "probe":
        return [asking_advice.of_probe(fault)]
    if fault.kind == "write":
        return [asking_advice.of_write()]
    if fault.kind == "differs":
        return [asking_advice.of_differs()]
    if fault.kind == "lost":
        return [asking_advice.of_lost(words)]
    if fault.kind == "answer":
        return [asking_advice.of_answer(fault)]
    if fault.kind == "score" and fault.name in words[0].split(","):
        return [asking_advice.of_score(fault)]
    ends = asking_advice.of_read(fault, words) if fault.kind == "read" else ""
    if ends:
        return [ends]
    return explained_fault(fault, words[4:], body)


def of_data(fault, words, body):
    """The lines that explain a fault of a table, of a score, or of a file that can't be read."""
    parser, token, lines = None, None, []
    if body is not None:
        body = without_mark(body)
        parser, _ = parse(tokens_of(body))
    if fault.kind == "score" and words[:1] == ["top"]:
        lines, says = data_advice.of_top(fault, words[1], words[2])
    elif fault.kind == "score" and words[:1] in (["feed"], ["cert"]):
        lines, says = data_advice.of_feed_score(fault, words[1:3])
    elif fault.kind == "score":
        token, lines, says = data_advice.of_score(fault, parser)
    elif fault.kind == "table" and fault.variant == "HeaderDiffers" and words[:1] in (["feed"], ["cert"]):
        lines, says = data_advice.of_feed_header(fault)
    elif fault.kind == "table" and fault.variant in ("CertForm", "CertTooLong"):
        lines, says = certificate_advice.of_certificate(fault)
    elif fault.kind == "table":
        token, lines, says = data_advice.of_table(fault, parser)
    else:
        script = words[1] if words and has_script(words[0]) and len(words) > 1 else None
        token, says = data_advice.of_read(fault, parser, script)
    shown = with_caret(body, token.start) if body is not None and token is not None else []
    return [*shown, *lines, says]


def ineligible_lines(fault, body):
    """The line at which the statement begins that a word doesn't take."""
    if body is None:
        return []
    body = without_mark(body)
    tokens = tokens_of(body)
    parser, _ = parse(tokens)
    return with_caret(body, tokens[parser.starts[fault.numbers[0] - 1]].start)


def session_lines(fault, body):
    """The line of the statement that names a cursor which isn't open, or is: the first that does so in the order of the script."""
    if body is None:
        return []
    body = without_mark(body)
    parser, _ = parse(tokens_of(body))
    opened = set()
    for statement in parser.statements:
        word = getattr(statement, "word", None)
        if word is None:
            continue
        name = statement.name.says
        faulty = {"NameTaken": word == "DECLARE" and name in opened, "Full": word == "DECLARE" and len(opened) == MOST_CURSORS,
                  "Unknown": word != "DECLARE" and name not in opened}[fault.variant]
        if faulty and name == fault.name:
            return with_caret(body, statement.name.start)
        if word == "DECLARE":
            opened.add(name)
        if word == "CLOSE":
            opened.discard(name)
    return []
