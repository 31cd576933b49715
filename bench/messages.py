#!/usr/bin/env python3
"""The cases of crates/hr_messages, and what each must come to.

    messages.py cases > crates/hr_messages/stdin
    messages.py verdicts < crates/hr_messages/stdin > crates/hr_messages/stdout
    messages.py check < crates/hr_messages/stdin

The verdicts are those of a plain reader, written from RFC 9112 and from the limits and
strictnesses that harborrep adds: it goes over the bytes once, and knows nothing of devices, of
pieces, or of the crates. `check` compares it with Python's http.client on the replies that both
read.
"""
import http
import http.client
import io
import random
import re
import sys

TOKEN = frozenset(b"!#$%&'*+-.^_`|~0123456789"
                  b"ABCDEFGHIJKLMNOPQRSTUVWXYZabcdefghijklmnopqrstuvwxyz")
HEX = frozenset(b"0123456789abcdefABCDEF")
VERBS = ("GET", "HEAD", "POST", "PUT", "PATCH", "DELETE")
INTERIM, LINES = 8, 100
BYTES = 65536  # of a head, of a size line, of a trailer section, with their line ends


class Malformed(Exception):
    pass


class Ended(Exception):
    pass


class TooLong(Exception):
    pass


class Reader:
    """Goes over the bytes of a message."""

    def __init__(self, data):
        self.data, self.at = data, 0
        self.stop, self.fault = None, None
        self.met_end = False

    def within_limit(self, fault):
        """From here on there may be so many bytes; one more is this fault."""
        self.stop, self.fault = self.at + BYTES, fault

    def peek(self):
        if self.at == len(self.data):
            self.met_end = True
            raise Ended
        if self.at == self.stop:
            self.at += 1
            raise self.fault
        return self.data[self.at]

    def some(self, test, least=1, most=None):
        start = self.at
        while test(self.peek()):
            self.at += 1
            if most is not None and self.at - start > most:
                raise Malformed
        if self.at - start < least:
            raise Malformed
        return self.data[start:self.at]

    def exact(self, text):
        for byte in text:
            if self.peek() != byte:
                raise Malformed
            self.at += 1

    def line_end(self):
        """RFC 9112, section 2.2: a line feed alone ends a line too."""
        if self.peek() == 10:
            self.at += 1
        else:
            self.exact(b"\r\n")

    def at_line_end(self):
        return self.peek() in b"\r\n"

    def lines(self, most=LINES):
        """RFC 9112, section 5."""
        found = []
        while not self.at_line_end():
            name = self.some(lambda b: b in TOKEN)
            self.exact(b":")
            value = self.some(is_value, 0)
            self.line_end()
            found.append((name, value.strip(b" \t")))
            if most is not None and len(found) > most:
                raise Malformed
        self.line_end()
        return found

    def version(self):
        self.exact(b"HTTP/1.")
        return self.some_count(lambda b: b in b"01", 1)

    def some_count(self, test, count):
        start = self.at
        for _ in range(count):
            if not test(self.peek()):
                raise Malformed
            self.at += 1
        return self.data[start:self.at]

    def empty_lines(self):
        while self.at_line_end():
            self.line_end()

    def reply_head(self):
        """RFC 9112, section 4."""
        self.within_limit(TooLong(BYTES + 1))
        self.empty_lines()
        self.version()
        self.exact(b" ")
        status = int(self.some_count(lambda b: b in b"0123456789", 3))
        if not self.at_line_end():
            self.exact(b" ")
            self.some(is_value, 0)
        self.line_end()
        return status, self.lines()

    def request_head(self):
        """RFC 9112, section 3."""
        self.within_limit(TooLong(BYTES + 1))
        self.empty_lines()
        method = self.some(lambda b: b in TOKEN)
        self.exact(b" ")
        target = self.some(lambda b: b > 32 and b != 127)
        self.exact(b" ")
        try:
            target.decode("utf-8")
        except UnicodeDecodeError:
            raise Malformed
        self.version()
        self.line_end()
        return method, target, self.lines()

    def chunked(self, limit):
        """RFC 9112, section 7.1."""
        body = b""
        while True:
            self.within_limit(Malformed())
            digits = self.some(lambda b: b in HEX, 1, 16)
            self.some(lambda b: b in b" \t", 0)
            if self.peek() == 59:
                self.some(lambda b: b not in b"\r\n", 1)
            self.exact(b"\r\n")
            size = int(digits, 16)
            if size == 0:
                self.within_limit(Malformed())
                self.lines(None)
                return body
            body += self.take(size, limit - len(body), limit)
            self.stop = None
            self.exact(b"\r\n")

    def take(self, size, room, limit):
        part = self.data[self.at:self.at + size]
        if len(part) > room:
            self.at += room + 1
            raise TooLong(limit + 1)
        self.at += len(part)
        if len(part) < size:
            self.met_end = True
            raise Ended
        return part

    def body(self, lines, neither, limit):
        """RFC 9112, section 6.3."""
        lengths = [v for n, v in lines if n.lower() == b"content-length"]
        codings = [v for n, v in lines if n.lower() == b"transfer-encoding"]
        if not lengths and not codings:
            if neither == "none":
                return b""
            self.met_end = len(self.data) - self.at <= limit
            return self.take(len(self.data) - self.at, limit, limit)
        if len(lengths) + len(codings) > 1:
            raise Malformed
        if codings:
            if codings[0].lower() != b"chunked":
                raise Malformed
            return self.chunked(limit)
        if not re.fullmatch(rb"[0-9]{1,19}", lengths[0]) or int(lengths[0]) >= 2 ** 63:
            raise Malformed
        size = int(lengths[0])
        if size > limit:
            raise TooLong(size)
        return self.take(size, limit, limit)


def is_value(byte):
    return byte == 9 or (byte >= 32 and byte != 127)


def reply(reader, head_only, limit):
    for _ in range(INTERIM + 1):
        status, lines = reader.reply_head()
        if not 100 <= status <= 199:
            bare = head_only or status in (204, 304)
            return status, lines, b"" if bare else reader.body(lines, "end", limit)
    raise Malformed


def request(reader, limit):
    method, target, lines = reader.request_head()
    return method, target, lines, reader.body(lines, "none", limit)


def read(kind, limit, data):
    """The message, or the name of the fault with its number."""
    return read_by(Reader(data), kind, limit)


def reads(kind, limit, data):
    """How many bytes it takes, and one read more where it meets the end."""
    reader = Reader(data)
    read_by(reader, kind, limit)
    return reader.at + reader.met_end


def read_by(reader, kind, limit):
    data = reader.data
    if kind == "request" and not data:
        reader.met_end = True
        return "nothing", None
    try:
        if kind == "request":
            return "read", request(reader, limit) + (len(data) - reader.at,)
        return "read", reply(reader, kind == "head", limit) + (len(data) - reader.at,)
    except Malformed:
        return "malformed", None
    except Ended:
        return "ended", len(data)
    except TooLong as long:
        return "too long", long.args[0]


def lines_text(lines):
    return "lines" + "".join(f".x{n.hex()}:x{v.hex()}" for n, v in lines)


def verb_text(method):
    word = method.decode()
    return word if word in VERBS else "other"


def told(kind, outcome):
    """A long text is told by its length and its sum."""
    text = text_of(kind, outcome)
    if len(text) <= 2000:
        return text
    total = 0
    for byte in text.encode():
        total = (total * 31 + byte) % 2 ** 64
    return f"{len(text)} characters with the sum {total}"


def text_of(kind, outcome):
    name, value = outcome
    if name != "read":
        return name if value is None else f"{name} {value}"
    if kind == "request":
        method, target, lines, body, left = value
        front = f"{verb_text(method)} x{target.hex()}"
    else:
        status, lines, body, left = value
        front = str(status)
    return f"{front} {lines_text(lines)} x{body.hex()} left {left}"


NAMES = {"read": "r", "nothing": "n", "malformed": "m", "ended": "e", "too long": "t"}


def letters(kind, limit, data):
    return "".join(NAMES[read(kind, limit, data[:k])[0]] for k in range(len(data) + 1))


def failing(kind, limit, data):
    """How many reads of one byte can fail; of a malformed message that isn't fixed."""
    letter = NAMES[read(kind, limit, data)[0]]
    if letter == "m":
        return "fails, then m"
    return f"fails {reads(kind, limit, data)} times, then {letter}"


def reason(status):
    """The reasons of the statuses that the cases have."""
    return http.HTTPStatus(status).phrase if status in set(http.HTTPStatus) else ""


def written(kind, outcome):
    name, value = outcome
    if name != "read":
        return None
    if kind == "request":
        method, target, lines, body, _ = value
        bare = method in (b"GET", b"HEAD", b"DELETE")
        if verb_text(method) == "other" or (bare and body):
            return None
        front = method + b" " + target + b" HTTP/1.1\r\n"
    else:
        status, lines, body, _ = value
        bare = kind == "head" or status in (204, 304)
        front = b"HTTP/1.1 %03d %s\r\n" % (status, reason(status).encode())
    text = front + b"".join(n + b": " + v + b"\r\n" for n, v in lines if n.lower() not in
                            (b"content-length", b"transfer-encoding"))
    if not bare:
        text += b"Content-Length: %d\r\n" % len(body)
    return text + b"\r\n" + body


# Messages by hand: the limits and the edges of the grammar.
OK, CL2 = b"HTTP/1.1 200 OK\r\n", b"Content-Length: 2\r\n"
TE = b"Transfer-Encoding: chunked\r\n"
HAND = [
    ("reply", 100, OK + CL2 + b"\r\n{}"),
    ("reply", 100, OK + CL2 + b"\r\n{}HTTP/1.1 404"),
    ("head", 100, OK + CL2 + b"\r\n{}"),
    ("reply", 100, OK + b"\r\nto the end"),
    ("reply", 3, OK + b"\r\nto the end"),
    ("reply", 1, OK + CL2 + b"\r\n{}"),
    ("reply", 2, OK + CL2 + b"\r\n{}"),
    ("reply", 0, OK + b"Content-Length: 0\r\n\r\n"),
    ("reply", 100, b"HTTP/1.1 2x0 OK\r\n\r\n"),
    ("reply", 100, b"HTTP/1.1 204 No Content\r\n" + CL2 + b"\r\n{}"),
    ("reply", 100, b"HTTP/1.1 304 Not Modified\r\n" + TE + CL2 + b"\r\n{}"),
    ("reply", 100, b"HTTP/1.0 404\n\n"),
    ("reply", 100, b"\r\n\nHTTP/1.1 299 \nA:\nB:  b c \t\n\r\nx"),
    ("reply", 100, b"HTTP/1.1 099 \r\n" + CL2 + b"\r\n{}"),
    ("reply", 100, b"HTTP/2.0 200 OK\r\n\r\n"),
    ("reply", 100, b"HTTP/1.2 200 OK\r\n\r\n"),
    ("reply", 100, b"HTTP/1.1  200 OK\r\n\r\n"),
    ("reply", 100, OK + CL2 + CL2 + b"\r\n{}"),
    ("reply", 100, OK + CL2 + TE + b"\r\n{}"),
    ("reply", 100, OK + b"Transfer-Encoding: gzip, chunked\r\n\r\n"),
    ("reply", 100, OK + b"Content-Length: 9223372036854775808\r\n\r\n"),
    ("reply", 100, OK + b"Content-Length: 9223372036854775807\r\n\r\n"),
    ("reply", 100, OK + b"Content-Length: 00000000000000000002\r\n\r\n{}"),
    ("reply", 100, OK + b"Content-Length: 0000000000000000002\r\n\r\n{}"),
    ("reply", 100, OK + b"Content-Length: +2\r\n\r\n{}"),
    ("reply", 100, OK + b"Content-Length:\r\n\r\n{}"),
    ("reply", 100, OK + b"Content-Length : 2\r\n\r\n{}"),
    ("reply", 100, OK + b"A: b\r\n c\r\n\r\n"),
    ("reply", 100, OK + b"A: \x01\r\n\r\n"),
    ("reply", 100, OK + b"A: \xff\r\n" + CL2 + b"\r\n\x00\xff."),
    ("reply", 100, OK + TE + b"\r\n0\r\n\r\n"),
    ("reply", 100, OK + TE + b"\r\n2\r\n{}\r\n0\r\n\r\nmore"),
    ("reply", 100, OK + TE + b"\r\n2\r\n{}\r\n1;a=\"b\r\n.\r\n00\r\nA: b\r\nC:d\n\r\n."),
    ("reply", 2, OK + TE + b"\r\n2\r\n{}\r\n0\r\n\r\n"),
    ("reply", 1, OK + TE + b"\r\n2\r\n{}\r\n0\r\n\r\n"),
    ("reply", 3, OK + TE + b"\r\n2\r\n{}\r\n2\r\n{}\r\n0\r\n\r\n"),
    ("reply", 100, OK + TE + b"\r\n2 \t\r\n{}\r\n0\r\n\r\n"),
    ("reply", 100, OK + TE + b"\r\n2\n{}\r\n0\r\n\r\n"),
    ("reply", 100, OK + TE + b"\r\n2\r\n{}\n0\r\n\r\n"),
    ("reply", 100, OK + TE + b"\r\n-2\r\n{}\r\n0\r\n\r\n"),
    ("reply", 100, OK + TE + b"\r\n00000000000000002\r\n{}\r\n0\r\n\r\n"),
    ("reply", 100, OK + TE + b"\r\nffffffffffffffff\r\n{}"),
    ("reply", 100, OK + b"transfer-encoding:CHUNKED\r\n\r\n1\r\na\r\n0\r\n\n"),
    ("reply", 100, b"HTTP/1.1 100 \r\n\r\n" * 8 + OK + CL2 + b"\r\n{}"),
    ("reply", 100, b"HTTP/1.1 100 \r\n\r\n" * 9 + OK + CL2 + b"\r\n{}"),
    ("reply", 100, b"HTTP/1.1 199 a\r\n" + CL2 + b"\r\n" + OK + CL2 + b"\r\n{}"),
    ("head", 100, b"HTTP/1.1 103 Early Hints\nA:b\n\n" + OK + b"\r\n{}"),
    ("reply", 100, OK + b"A:b\n" * 100 + b"\n"),
    ("reply", 100, OK + b"A:b\n" * 101 + b"\n"),
    ("reply", 100, b""),
    ("request", 100, b""),
    ("request", 100, b"\r\n"),
    ("request", 100, b"GET /v2/ HTTP/1.1\r\nHost: a\r\n\r\n"),
    ("request", 100, b"GET /v2/ HTTP/1.1\r\nHost: a\r\n\r\nGET"),
    ("request", 100, b"PUT /v2/a HTTP/1.1\r\nHost: a\r\n" + CL2 + b"\r\n{}."),
    ("request", 1, b"PUT /v2/a HTTP/1.1\r\n" + CL2 + b"\r\n{}"),
    ("request", 100, b"GET / HTTP/1.1\r\n" + CL2 + b"\r\n{}"),
    ("request", 100, b"POST /v2/a/blobs/uploads/ HTTP/1.0\n\n"),
    ("request", 100, b"PATCH /u HTTP/1.1\r\n" + TE + b"\r\n1\r\na\r\n0\r\n\r\n"),
    ("request", 100, b"DELETE /x?y=%20 HTTP/1.1\r\nA:b\r\n\r\n"),
    ("request", 100, b"HEAD /x HTTP/1.1\r\nA:b\r\n\r\n"),
    ("request", 100, b"get /x HTTP/1.1\r\n\r\n"),
    ("request", 100, b"OPTIONS * HTTP/1.1\r\n\r\n"),
    ("request", 100, b"GET  /x HTTP/1.1\r\n\r\n"),
    ("request", 100, b"GET /x\r\n\r\n"),
    ("request", 100, b"GET /\xc3\xa9 HTTP/1.1\r\n\r\n"),
    ("request", 100, b"GET /\xc3 HTTP/1.1\r\n\r\n"),
    ("request", 100, b"G\x00T / HTTP/1.1\r\n\r\n"),
    ("request", 100, b"PUT / HTTP/1.1\r\n" + CL2 + b"content-length: 2\r\n\r\n{}"),
    ("request", 100, b"PUT / HTTP/1.1\r\nTransfer-Encoding: identity\r\n\r\n"),
    ("request", 100, b"GET http://a/b HTTP/1.1\r\nHost: a\r\n\r\n"),
    ("request", 100, b"GET / HTTP/1.1\n" + b"A:b\n" * 100 + b"\n"),
    ("request", 100, b"GET / HTTP/1.1\n" + b"A:b\n" * 101 + b"\n"),
    ("request", 2, b"PUT / HTTP/1.1\r\n" + TE + b"\r\n1\r\na\r\n2\r\nbc\r\n0\r\n\r\n"),
    ("reply", 2, OK + TE + b"\r\n5\r\nab"),
]
HAND += [(kind, limit, front + b"Content-Length: %d\r\n\r\n{}" % size)
         for kind, front in (("reply", OK), ("request", b"PUT / HTTP/1.1\r\n"))
         for limit, size in ((100, 2 ** 63 - 1), (2 ** 63 - 2, 2 ** 63 - 1),
                             (2 ** 63 - 1, 2 ** 63 - 1), (2 ** 63 - 1, 2 ** 63),
                             (2 ** 63 - 1, 10 ** 19 - 1), (100, 2 ** 64 + 2))]


def long_heads(kind, start):
    """Heads at their limit and one byte over it, and as many bytes that hold no head."""
    text = start + CL2 + b"\r\n"
    value, after = start + b"A: ", b"\r\n" + CL2 + b"\r\n"
    for size in (BYTES, BYTES + 1):
        yield kind, 2, [(1, value), (size - len(value + after), b"v"), (1, after + b"{}.")]
        yield kind, 2, [(size - len(text), b"\n"), (1, text + b"{}.")]
        ends, odd = divmod(size - len(text), 2)
        yield kind, 2, [(ends, b"\r\n"), (odd, b"\n"), (1, text + b"{}.")]
        yield kind, 2, [(1, value), (size - len(value), b"v")]
        yield kind, 2, [(size, b"\n")]
    yield kind, 2, [(1, value), (BYTES - 1 - len(value), b"v"), (1, b"\0\r\n\r\n")]


def long_bodies(kind, start):
    """The lines of the chunked coding, and bodies, at their limits and one byte over them."""
    coded = start + TE + b"\r\n"
    for size in (BYTES, BYTES + 1):
        yield kind, 2, [(1, coded + b"2;"), (size - 4, b"e"), (1, b"\r\n{}\r\n0\r\n\r\n.")]
        yield kind, 2, [(1, coded + b"2"), (size - 3, b" "), (1, b"\r\n{}\r\n0\r\n\r\n.")]
        yield kind, 2, [(1, coded + b"0;"), (size - 4, b"e"), (1, b"\r\n\r\n.")]
        yield kind, 2, [(1, coded + b"0\r\nA:"), (size - 6, b"v"), (1, b"\r\n\r\n.")]
        yield kind, 2, [(1, coded + b"0\r\n"), (BYTES // 3, b"A:\n"),
                        (1, b"\n." if size == BYTES else b"\r\n.")]
        yield kind, BYTES, [(1, start + b"Content-Length: %d\r\n\r\n" % size), (size, b"b")]
        yield kind, BYTES, [(1, coded + b"%x\r\n" % size), (size, b"b"), (1, b"\r\n0\r\n\r\n.")]
        yield kind, 9999 + BYTES - size, [(1, coded), (9999, b"1\r\na\r\n"), (1, b"0\r\n\r\n.")]
    yield kind, 9, [(1, coded), (3, b"2;" + b"e" * 99 + b"\r\n{}\r\n"), (1, b"0\r\n\r\n.")]


# Long messages, each of parts that are repeated: the limits of 65,536 bytes.
PUT = b"PUT /v2/a HTTP/1.1\r\n"
INTERIM_HEAD = (1, b"HTTP/1.1 103 \r\nA: "), (50000, b"v"), (1, b"\r\n\r\n")
LONG = [
    *long_heads("reply", OK), *long_heads("request", PUT),
    *long_bodies("reply", OK), *long_bodies("request", PUT),
    ("reply", BYTES, [(1, OK + b"\r\n"), (BYTES, b"b")]),
    ("reply", BYTES, [(1, OK + b"\r\n"), (BYTES + 1, b"b")]),
    ("reply", 2, [*INTERIM_HEAD, *INTERIM_HEAD, (1, OK + CL2 + b"\r\n{}.")]),
]


def random_message(rng):
    """A message that is mostly well formed."""
    end = rng.choice([b"\r\n", b"\r\n", b"\r\n", b"\n"])
    lines = b"".join(rng.choice([b"A: b", b"Etag:\"x\"", b"Warning:  a b ", b"X-y_z:\t1"]) + end
                     for _ in range(rng.randrange(3)))
    body = bytes(rng.randrange(256) for _ in range(rng.randrange(6)))
    framed = rng.choice(["none", "length", "length", "chunked"])
    if framed == "length":
        lines += b"Content-Length: %d" % len(body) + end
    if framed == "chunked":
        lines += b"Transfer-Encoding: chunked" + end
        cut = rng.randrange(len(body) + 1)
        body = b"".join(b"%x\r\n" % len(part) + part + b"\r\n"
                        for part in (body[:cut], body[cut:]) if part) + b"0\r\n\r\n"
    kind = rng.choice(["reply", "reply", "head", "request"])
    if kind == "request":
        front = rng.choice([b"GET /v2/ ", b"PUT /v2/a/manifests/b ", b"POST / ", b"M-SEARCH * "])
        front += b"HTTP/1.1" + end
    else:
        status = rng.choice([b"200 OK", b"201", b"206 Partial Content", b"404 ", b"204 x"])
        front = b"HTTP/1.1 " + status + end
        if rng.randrange(5) == 0:
            front = b"HTTP/1.1 100 Continue\r\n\r\n" + front
    data = front + lines + end + body + rng.choice([b"", b"", b"rest"])
    return kind, rng.choice([2, 4, 100]), data


def changed(rng, data):
    """The same with a byte changed, left out or put in."""
    at = rng.randrange(len(data))
    byte = bytes([rng.choice(b"\r\n :;0a\x00\x7f\xff")])
    return data[:at] + rng.choice([byte, b"", byte + data[at:at + 1]]) + data[at + 1:]


def cases():
    rng = random.Random(9112)
    for kind, limit, data in HAND:
        print(kind, limit, data.hex())
    for kind, limit, parts in LONG:
        print("long", kind, limit, *(f"{count}*{text.hex()}" for count, text in parts))
    for _ in range(90):
        kind, limit, data = random_message(rng)
        print(kind, limit, data.hex())
    for _ in range(90):
        kind, limit, data = random_message(rng)
        print(kind, limit, changed(rng, data).hex())


def given(lines):
    """Whether the case is long, what is read, the limit, and the bytes."""
    for line in lines:
        words = line.rstrip("\n").split(" ")
        if words[0] == "long":
            parts = [part.split("*") for part in words[3:]]
            data = b"".join(bytes.fromhex(text) * int(count) for count, text in parts)
            yield True, words[1], int(words[2]), data
        else:
            kind, limit, data = words
            yield False, kind, int(limit), bytes.fromhex(data)


def verdicts():
    for is_long, kind, limit, data in given(sys.stdin):
        outcome = read(kind, limit, data)
        print(told(kind, outcome))
        opened = read(kind, 2 ** 63 - 1, data)
        if kind != "request" and opened != outcome:
            print(f"opened: {told(kind, opened)}")
        if is_long:
            continue
        print(letters(kind, limit, data))
        print(failing(kind, limit, data))
        text = written(kind, outcome)
        if text is not None:
            print(f"writes x{text.hex()}")


class Socket:
    def __init__(self, data):
        self.data = data

    def makefile(self, *_):
        return io.BytesIO(self.data)


def check():
    """Compares with http.client, which passes over replies with status 100 alone."""
    same, others = 0, 0
    for _, kind, limit, data in given(sys.stdin):
        name, value = read(kind, limit, data)
        if kind == "request" or name != "read" or b" 199 " in data or b" 103 " in data:
            continue
        client = http.client.HTTPResponse(Socket(data), method="HEAD" if kind == "head" else "GET")
        try:
            client.begin()
            got = client.status, client.read()
        except (http.client.HTTPException, ValueError) as fault:
            print("http.client refuses", data[:200], repr(fault)[:200])
            others += 1
            continue
        if got == (value[0], value[2]):
            same += 1
        else:
            print("differs", data[:200], got, (value[0], value[2]))
            others += 1
    print(f"{same} the same, {others} not")


if __name__ == "__main__":
    {"cases": cases, "verdicts": verdicts, "check": check}[sys.argv[1]]()
