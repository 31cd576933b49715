"""The second program on configurations, patterns and digests, written by the rules alone. JSON is
read by `json`, with what RFC 8259 leaves open closed as harborrep closes it.

`check` gives the text and the status of a check of some bytes, `fault_of` the first fault of a
pattern, `fits` whether a text fits one, and `digest_in` what a text is as a digest.
"""
import json
import re

CONFIG_LIMIT = 1048576
DEPTH_LIMIT = 127
COMPONENT = "[a-z0-9]+(?:(?:[.]|_|__|-+)[a-z0-9]+)*"

# Addresses whose host or port only the URL Standard decides.
BASES = {
    "http://[::1]:65535": True,
    "http://127.0.0.1:80/": True,
    "http://999.1.1.1": False,
    "http://a:65536": False,
    "http://": False,
}


class Fault(Exception):
    """The first fault of a configuration; the text is what is said of it."""


# ---- JSON


def no_constant(text):
    raise ValueError("no JSON: " + text)


def integer(text):
    """A number without fraction and exponent; one that is not below 2^64 is none that is whole."""
    value = int(text) if len(text) < 30 else None
    if text.startswith("-0"):
        return -0.0
    if value is not None and -(2**63) <= value < 2**64:
        return value
    return real(text)


def real(text):
    value = float(text)
    if value in (float("inf"), float("-inf")):
        raise ValueError("no number: " + text)
    return value


def check_texts(value, depth=1):
    """No text has half of a pair of surrogates, and nothing lies too deep."""
    if isinstance(value, str):
        value.encode("utf-8")
    elif isinstance(value, (list, dict)):
        if depth > DEPTH_LIMIT:
            raise ValueError("too deep")
        for item in value if isinstance(value, list) else value.values():
            check_texts(item, depth + 1)
        for name in value if isinstance(value, dict) else []:
            check_texts(name, depth + 1)


def pairs(found):
    """An object of these members: of two of one name the last counts, but each has to be right."""
    for name, value in found:
        check_texts(name)
        check_texts(value)
    return dict(found)


def document(data):
    try:
        value = json.loads(
            data.decode("utf-8"), parse_int=integer, parse_float=real, parse_constant=no_constant,
            object_pairs_hook=pairs,
        )
        check_texts(value)
    except (ValueError, RecursionError):
        raise Fault("config json")
    if not isinstance(value, dict):
        raise Fault("config json")
    return value


# ---- patterns


def fault_of(pattern):
    """The place and the reason of the first fault of a pattern, where it has one."""
    if len(pattern) > 1024:
        return 1024, "long"
    at, opened, count, forms = 0, None, 0, 1
    while at < len(pattern):
        sign = pattern[at:at + 1]
        if sign == b"\\":
            if at + 1 == len(pattern):
                return at, "escape"
            at += 1
        elif sign == b"[":
            return at, "class"
        elif sign == b"{":
            if opened is not None:
                return at, "nested"
            opened, count = at, 1
        elif sign == b"," and opened is not None:
            count += 1
        elif sign == b"}":
            if opened is None:
                return at, "stray"
            forms *= count
            if forms > 256:
                return opened, "many"
            opened = None
        at += 1
    return None if opened is None else (opened, "unclosed")


def forms_of(pattern):
    """The expanded forms of a pattern, each a list of plain bytes and of `any` and `one`."""
    forms, choices, at = [[]], None, 0
    while at < len(pattern):
        sign, at = pattern[at:at + 1], at + 1
        if sign == b"{":
            choices = [[]]
        elif sign == b"," and choices is not None:
            choices.append([])
        elif sign == b"}":
            forms, choices = [form + choice for form in forms for choice in choices], None
        else:
            if sign == b"\\":
                item, at = pattern[at:at + 1], at + 1
            else:
                item = {b"*": "any", b"?": "one"}.get(sign, sign)
            for form in forms if choices is None else choices[-1:]:
                form.append(item)
    return forms


def split(items, slash):
    parts = [[]]
    for item in items:
        if item == slash:
            parts.append([])
        else:
            parts[-1].append(item)
    return parts


def covers(items, texts, is_any, covers_one):
    """Whether the items cover all of the texts: how many are covered so far may be one of several."""
    ends = {0}
    for item in items:
        if is_any(item):
            ends = set(range(min(ends), len(texts) + 1)) if ends else ends
        else:
            ends = {end + 1 for end in ends if end < len(texts) and covers_one(item, texts[end])}
    return len(texts) in ends


def covers_component(items, text):
    signs = [text[at:at + 1] for at in range(len(text))]
    return covers(items, signs, lambda item: item == "any", lambda item, sign: item in ("one", sign))


def covers_all(parts, texts):
    return covers(parts, texts, lambda part: part == ["any", "any"], covers_component)


def fits(pattern, text):
    return any(covers_all(split(form, b"/"), text.split(b"/")) for form in forms_of(pattern))


# ---- schedules


def is_field(text, least, most):
    """Whether a field of a schedule is a list of numbers, ranges and steps within these limits."""
    if text in ("*", "?"):
        return True
    for part in text.split(","):
        found = re.fullmatch("(?:([*])|([0-9]{1,2})(?:-([0-9]{1,2}))?)(?:/([0-9]{1,2}))?", part)
        if found is None or (part == "*"):
            return False
        star, first, last, step = found.groups()
        numbers = [] if star else [int(first), int(last if last is not None else first)]
        if any(not least <= number <= most for number in numbers) or sorted(numbers) != numbers:
            return False
        if step is not None and int(step) < 1:
            return False
    return True


def is_schedule(text):
    fields = text.split(" ")
    limits = [(0, 59), (0, 59), (0, 23), (1, 31), (1, 12), (0, 6)]
    return len(fields) == 6 and all(is_field(field, *limit) for field, limit in zip(fields, limits))


# ---- members


def size(text):
    return len(text.encode("utf-8"))


def is_whole(least, most):
    return lambda value: type(value) is int and least <= value <= most


def is_text(value):
    return isinstance(value, str)


def is_flag(value):
    return isinstance(value, bool)


def is_list(most):
    return lambda value: isinstance(value, list) and len(value) <= most


def is_path(text):
    return all(part not in ("", ".", "..") for part in text.split("/"))


def is_base(text):
    if text in BASES:
        return BASES[text]
    host = "[a-z][a-z0-9-]*(?:[.][a-z][a-z0-9-]*)*"
    found = re.fullmatch("http://%s(?::([0-9]{1,5}))?/?" % host, text)
    return found is not None and int(found.group(1) or 0) < 65536


def is_place(kind, text):
    return is_base(text) if kind == "http" else text == "" or is_path(text)


def is_namespace(value):
    if not is_text(value):
        return False
    return value == "" or (size(value) <= 255 and re.fullmatch("%s(?:/%s)*" % (COMPONENT, COMPONENT), value))


def is_trigger(value):
    if isinstance(value, dict):
        return is_text(value.get("cron")) and is_schedule(value["cron"])
    return value == "manual"


def is_value(kind, value):
    if kind in ("name", "tag"):
        return is_text(value) and fault_of(value.encode("utf-8")) is None
    if kind == "label":
        return isinstance(value, list) and all(is_text(text) and 1 <= size(text) <= 64 for text in value)
    return value in ("image", "artifact")


def is_decoration(kind, value):
    return value == "matches" or (value == "excludes" and kind != "resource")


MISSING = object()


class Members:
    """The members of an object, each tested in turn; what is no object has none."""

    def __init__(self, value, policy=0):
        self.members = value if isinstance(value, dict) else {}
        self.policy = policy

    def must(self, name, test):
        value = self.members.get(name, MISSING)
        if value is MISSING or not test(value):
            raise Fault("config field %d %s" % (self.policy, name))
        return value

    def may(self, name, test):
        if name in self.members:
            self.must(name, test)


def check_registry(value):
    members = Members(value)
    number = members.must("id", is_whole(1, 250))
    kind = members.must("kind", lambda kind: kind in ("memory", "folder", "http"))
    members.must("at", lambda at: is_text(at) and is_place(kind, at))
    return number


def check_policy(value):
    members = Members(value)
    members.policy = members.must("id", is_whole(1, 2**32 - 1))
    members.must("name", lambda name: is_text(name) and size(name) <= 255)
    members.may("enabled", is_flag)
    source = members.must("src", is_whole(1, 250))
    target = members.must("dst", is_whole(1, 250))
    members.may("namespace", is_namespace)
    members.may("replace", is_whole(-1, 3))
    members.may("override", is_flag)
    members.may("attempts", is_whole(1, 4))
    members.may("trigger", is_trigger)
    members.may("filters", is_list(16))
    for listed in members.members.get("filters", []):
        check_filter(Members(listed, members.policy))
    return members.policy, source, target


def check_filter(members):
    kind = members.must("kind", lambda kind: kind in ("name", "tag", "label", "resource"))
    members.must("value", lambda value: is_value(kind, value))
    members.may("decoration", lambda value: is_decoration(kind, value))


def first_repeated(numbers):
    return next((n for at, n in enumerate(numbers) if n in numbers[:at]), None)


def check_whole(registries, policies):
    """What is wrong between registries and policies."""
    for numbers in (registries, [policy[0] for policy in policies]):
        if first_repeated(numbers) is not None:
            raise Fault("config repeated %d" % first_repeated(numbers))
    for _, source, target in policies:
        for number in (source, target):
            if number not in registries:
                raise Fault("config unknown %d" % number)
    for number, source, target in policies:
        if source == target:
            raise Fault("config same %d" % number)
    targets = {policy[2] for policy in policies}
    for _, source, _ in policies:
        if source in targets:
            raise Fault("config chain %d" % source)


def check_bytes(data):
    if len(data) > CONFIG_LIMIT:
        raise Fault("config long %d" % len(data))
    members = Members(document(data))
    members.must("version", is_whole(1, 1))
    members.may("lanes", is_whole(1, 64))
    members.may("jobs", is_whole(1, 262144))
    members.may("keep", is_whole(0, 1000000))
    registries = members.must("registries", is_list(64))
    policies = members.must("policies", is_list(1024))
    registries = [check_registry(value) for value in registries]
    policies = [check_policy(value) for value in policies]
    check_whole(registries, policies)
    return "ok registries %d policies %d" % (len(registries), len(policies))


def check(data):
    """The text and the status of a check of a file with these bytes, or of none."""
    try:
        if data is None:
            raise Fault("config missing")
        text, status = check_bytes(data), 0
    except Fault as fault:
        text, status = str(fault), 2
    return text.encode() + b"\n", status


# ---- digests


def digest_in(text):
    """A text as a digest, or why it is none (OCI Image 1.1, "Digests")."""
    grammar = rb"[a-z0-9]+(?:[+._-][a-z0-9]+)*:[a-zA-Z0-9=_-]+"
    if re.fullmatch(grammar, text) is None:
        return "shape"
    if not text.startswith(b"sha256:"):
        return "algorithm"
    return text.decode() if re.fullmatch(rb"sha256:[a-f0-9]{64}", text) else "shape"
