"""Reads certificates of joins of two feeds, and checks them, as they are defined: all pairs of the rows are listed and sorted."""

MOST = 4294967295
GREATEST = 4000000000000000000


def records(text):
    """The records of a file of comma-separated fields, read byte by byte: a field that begins with a quote ends at the next one that
    isn't doubled, what stands behind it joins the field, and empty lines are no records."""
    if text[:3] == b"\xef\xbb\xbf":
        text = text[3:]
    made, fields, field, state = [], [], bytearray(), "record"
    for byte in text:
        if state == "quoted":
            if byte == 34:
                state = "quote"
            else:
                field.append(byte)
        elif state == "quote" and byte == 34:
            field.append(byte)
            state = "quoted"
        elif state == "record" and byte in b"\r\n":
            pass
        elif state in ("record", "field") and byte == 34:
            state = "quoted"
        elif byte == 44:
            fields.append(bytes(field))
            field, state = bytearray(), "field"
        elif byte in b"\r\n":
            made.append(fields + [bytes(field)])
            fields, field, state = [], bytearray(), "record"
        else:
            field.append(byte)
            state = "inside"
    if state != "record":
        made.append(fields + [bytes(field)])
    return made


def number(field, most):
    digits = field[1:] if field[:1] in (b"+", b"-") else field
    if not digits or any(byte not in b"0123456789" for byte in digits):
        return None
    value = int(digits)
    if value > GREATEST:
        return None
    value = -value if field[:1] == b"-" else value
    return value if 0 <= value <= most else None


def is_text(field):
    try:
        field.decode("utf-8")
    except UnicodeDecodeError:
        return False
    return True


def read(text):
    """The certificate of a file, or the number of the first record with which no certificate begins."""
    made = records(text)
    if not made:
        return 1
    head = made[0]
    if len(head) != 3 or head[:2] != [b"cert", b"1"] or number(head[2], 1000000) is None:
        return 1
    sides, ended, pairs = ([], []), [False, False], []
    for place, fields in enumerate(made[1:], 2):
        if len(fields) != 3:
            return place
        name, one, other = fields
        if name == b"pair":
            pair = number(one, MOST), number(other, MOST)
            if None in pair:
                return place
            pairs.append(pair)
            continue
        if name not in (b"left", b"right") or pairs:
            return place
        side = 0 if name == b"left" else 1
        if ended[side] or (side == 0 and (sides[1] or ended[1])):
            return place
        if (one, other) == (b"end", b"end"):
            ended[side] = True
            continue
        if number(one, MOST) is None or not is_text(other) or len(sides[side]) == 8192:
            return place
        sides[side].append((number(one, MOST), other))
    return number(head[2], 1000000), sides, ended, pairs


def verdict(cert):
    """Whether a certificate is good, or the first part of it that fails, as it is printed."""
    wanted, sides, ended, pairs = cert
    for side, rows in enumerate(sides, 1):
        for i in range(1, len(rows)):
            if rows[i][0] > rows[i - 1][0]:
                return f"Order side {side} row {i + 1}"
    lefts, rights = sides
    key = lambda i, j: (-(lefts[i][0] + rights[j][0]), i + 1, j + 1)
    answers = sorted(key(i, j) for i in range(len(lefts)) for j in range(len(rights)) if lefts[i][1] == rights[j][1])
    if len(pairs) > wanted or pairs != [answer[1:] for answer in answers[: len(pairs)]]:
        return "Pairs"
    if len(pairs) < wanted:
        none_comes = all(ended) or any(end and not rows for end, rows in zip(ended, sides))
        if len(pairs) < len(answers) or not none_comes:
            return "Short"
    if pairs and not ended[0] and answers[len(pairs) - 1] > key(len(lefts) - 1, 0):
        return "Left"
    if pairs and not ended[1] and answers[len(pairs) - 1] > key(0, len(rights) - 1):
        return "Right"
    return "yes"


def check(cert):
    return verdict(cert).split()[0]


def said(text):
    cert = read(text)
    return ("Form", cert) if isinstance(cert, int) else (check(cert), 0)


def line(text):
    """What the word `check` prints of a file, or the end of the line of its fault."""
    cert = read(text)
    if isinstance(cert, int):
        return f"CertForm record {cert}"
    found = verdict(cert)
    return found if found == "yes" else f"no {found}"


def quoted(text):
    if not any(sign in text for sign in (b",", b'"', b"\r", b"\n")) and text:
        return text
    return b'"' + text.replace(b'"', b'""') + b'"' if text else b""


def written(wanted, sides, draws, pairs):
    """The certificate of these pairs, where so many draws were made on both sides of feeds with these rows: scores and texts."""
    made = [b"cert,1,%d" % wanted]
    for name, rows, drawn in zip((b"left", b"right"), sides, draws):
        made += [b"%s,%d,%s" % (name, score, quoted(text)) for text, score in rows[:drawn]]
        if drawn > len(rows):
            made.append(b"%s,end,end" % name)
    made += [b"pair,%d,%d" % pair for pair in pairs]
    return b"".join(record + b"\n" for record in made)
