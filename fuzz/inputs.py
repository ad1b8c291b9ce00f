"""Stimuli of a process, and inputs that are changed a little: tokens of a file, lines of a module, fields of a stimulus."""

import re

WORDS = (b"chan proc left right logic reg loop let set send recv cycle if else shl shr cat "
         b"{ } ( ) [ ] , ; : := = . @ # ? >> ~ + - * & | ^ == != < <= > >= 0 1 8 64 65 65535 65536 1'd0 8'd255 8'd256 "
         b"64'd18446744073709551615 65'd0 4294967295 4294967296 x1 r0 e0 m0 p0 c0 () //").split()
# Tokens that may stand in each other's place.
LIKE = [b"left right".split(), b"; >>".split(), b"+ - * & | ^ == != < <= > >=".split(), b"shl shr cat".split(),
        b"e0 e1 e2".split(), b"m0 m1 m2 m3".split(), b"c0 c1 c2".split(), b"r0 r1 r2 r3 r4".split(), b"p0 p1 p2".split(),
        b"x1 x2 x3 x4 x5 x6".split(), b"send recv".split(), b"1 2 3 7 8".split(), b"recv send set cycle".split()]
TOKEN = re.compile(rb"[A-Za-z_][A-Za-z_0-9]*|[0-9]+'[a-z][0-9A-Za-z]*|[0-9]+|:=|>>|[=!<>]=|\s+|.", re.S)


def stimulus(random, process):
    """Rows for the ports of a process. The data of a port change now and then, or never."""
    rows = random.choice([0, 1, 3, 10, 20, 40, 40, 60, 200])
    changes = random.choice([0.0, 0.0, 0.02, 0.1, 0.5])
    offered = random.choice([0.2, 0.5, 0.8, 1.0])
    data = {index: random.getrandbits(message.width) for index, (_, message, _) in enumerate(process.ports)}
    lines = []
    for _ in range(rows):
        fields = []
        for index, (_, message, received) in enumerate(process.ports):
            bit = int(random.random() < offered)
            if received:
                if random.random() < changes:
                    data[index] = random.getrandbits(message.width)
                fields.append(f"{bit}:{data[index]}")
            else:
                fields.append(str(bit))
        lines.append(" ".join(fields) + "\n")
    text = "".join(lines).encode()
    form = random.random()
    if form < 0.05:
        return text.replace(b"\n", b"\r\n")
    return text[:-1] if form < 0.1 else text


def cut(random, text):
    return text[: random.randrange(len(text) + 1)]


def bytes_changed(random, text):
    made = bytearray(text)
    for _ in range(random.randint(1, 3)):
        if not made:
            return bytes(made)
        place = random.randrange(len(made))
        kind = random.random()
        if kind < 0.4:
            made[place] = random.choice(b" \t\r\n0129azAZ_'\"#@;{}()[]:=<>\\/\x00\x7f\xc3\xff")
        elif kind < 0.6:
            made[place] ^= 1 << random.randrange(8)
        elif kind < 0.8:
            del made[place]
        else:
            made.insert(place, random.randrange(256))
    return bytes(made)


def tokens_changed(random, text):
    tokens = TOKEN.findall(text)
    for _ in range(random.randint(1, 2)):
        if not tokens:
            break
        place = random.randrange(len(tokens))
        kind = random.random()
        if kind < 0.5:
            places = [(index, like) for index, token in enumerate(tokens) for like in LIKE if token in like]
            if places:
                place, like = random.choice(places)
                tokens[place] = random.choice(like)
        elif kind < 0.6:
            del tokens[place]
        elif kind < 0.65:
            tokens.insert(place, tokens[random.randrange(len(tokens))])
        elif kind < 0.7:
            other = random.randrange(len(tokens))
            tokens[place], tokens[other] = tokens[other], tokens[place]
        elif kind < 0.9:
            numbers = [index for index, token in enumerate(tokens) if token[:1].isdigit()]
            place = random.choice(numbers) if numbers else place
            tokens[place] = re.sub(rb"[0-9]+$", lambda _: random.choice([b"0", b"1", b"2", b"63", b"64", b"65", b"255", b"65535"]),
                                   tokens[place])
        else:
            tokens[place] = random.choice(WORDS)
    return b"".join(tokens)


def lines_changed(random, text):
    lines = text.splitlines(keepends=True)
    for _ in range(random.randint(1, 2)):
        if not lines:
            break
        place = random.randrange(len(lines))
        kind = random.random()
        if kind < 0.25:
            del lines[place]
        elif kind < 0.4:
            lines.insert(place, lines[random.randrange(len(lines))])
        elif kind < 0.6 and place + 1 < len(lines):
            lines[place], lines[place + 1] = lines[place + 1], lines[place]
        else:
            lines[place] = tokens_changed(random, lines[place])
    return b"".join(lines)


def repeated(random, text):
    """One part many times over, for depth and length."""
    if not text:
        return text
    first = random.randrange(len(text))
    part = text[first : first + random.choice([1, 2, 5, 20])]
    return text[:first] + part * random.choice([10, 70, 600]) + text[first:]


def changed(random, text):
    kind = random.random()
    if kind < 0.4:
        return tokens_changed(random, text)
    if kind < 0.65:
        return lines_changed(random, text)
    if kind < 0.85:
        return bytes_changed(random, text)
    return cut(random, text) if kind < 0.95 else repeated(random, text)
