"""The cases of checks, of patterns and of digests: what `cases.py` writes beside those of scripts."""
import hashlib
import json
import random

import config_model as model
from model import plain

LIMIT = model.CONFIG_LIMIT
MEMORY = {"id": 1, "kind": "memory", "at": "src.txt"}
OTHER = {"id": 2, "kind": "memory", "at": ""}
POLICY = {"id": 7, "name": "p", "src": 1, "dst": 2}


class Single:
    """A line that is a case by itself."""

    def __init__(self, kind, given, answer):
        self.line, self.answer = ("%s %s" % (kind, given)).rstrip(), "%s %s: %s" % (kind, given, answer)

    def given(self):
        return [self.line]

    def wanted(self):
        return [self.answer]


def argument(text):
    """A text as a word of such a line."""
    return plain(text).replace(" ", "%20")


# ---- configurations as texts


def config(registries=(MEMORY, OTHER), policies=(POLICY,), **root):
    """A configuration with these members, in the order in which they are given."""
    return compact(dict({"version": 1, "registries": registries, "policies": policies}, **root))


def compact(value):
    return json.dumps(value, separators=(",", ":"), ensure_ascii=False)


def without(value, name):
    return {key: kept for key, kept in value.items() if key != name}


def registry(**members):
    return config([dict(MEMORY, **members), OTHER])


def policy(**members):
    return config(policies=[dict(POLICY, **members)])


def filtered(*filters):
    return policy(filters=list(filters))


def named(kind, value, **members):
    return dict({"kind": kind, "value": value}, **members)


def numbered(count, first=1):
    """So many registries in memory."""
    return [dict(OTHER, id=number) for number in range(first, first + count)]


# ---- the cases


def checks(make, name, texts):
    """A check of a file for each of these texts."""
    return [make("%s, %d" % (name, at), text) for at, text in enumerate(texts, 1)]


def of_configurations(make):
    whole = policy(enabled=False, namespace="a/b", replace=3, override=False, attempts=1,
                   trigger={"cron": "0 0 * * * *"},
                   filters=[named("name", "library/**"), named("tag", "v{1,2}?", decoration="excludes"),
                            named("label", ["a", "é"]), named("resource", "image", decoration="matches")])
    http = {"id": 250, "kind": "http", "at": "http://registry.example:5000/"}
    folder = {"id": 3, "kind": "folder", "at": "a/b.c/..."}
    example = ('{"lanes":4,"policies":[{"dst":2,"id":1,"name":"p","namespace":"ns","replace":-1,"src":1}],'
               '"registries":[{"at":"src.txt","id":1,"kind":"memory"},{"at":"","id":2,"kind":"memory"}],'
               '"version":1}')
    cases = checks(make, "a configuration is counted", [
        example,
        config(),
        config([], []),
        config([MEMORY], []),
        whole,
        config([http, folder, OTHER], [dict(POLICY, src=250), dict(POLICY, id=8, src=3)]),
        config(lanes=64, jobs=262144, keep=1000000),
        config(lanes=1, jobs=1, keep=0),
        " \t\r\n" + config() + " \n\n",
        config(more=[1.5, None, {"version": 2}], lane=0),
        registry(more={}, Id=0),
        policy(more=[], Name=1, cron=1),
        filtered(named("tag", "*", more=1)),
        '{"version":2,' + config()[1:],
        config().replace('"id":7', '"id":0,"id":7'),
        policy(name="\u007fé\U0001f600"),
        config().replace('"p"', '"\\u0070\\n\\u0000\\ud83d\\ude00"'),
        config().replace('"version"', '"\\u0076ersion"'),
    ])
    cases += checks(make, "there is a chain", [
        config(numbered(3), [dict(POLICY, id=1), dict(POLICY, id=2, src=2, dst=3)]),
        config(numbered(3), [dict(POLICY, id=1, src=2, dst=3), dict(POLICY, id=2)]),
        config(numbered(4), [dict(POLICY, id=1), dict(POLICY, id=2, src=3, dst=1), dict(POLICY, id=3, src=4, dst=3)]),
        config(numbered(4), [dict(POLICY, id=1), dict(POLICY, id=2, src=1, dst=4), dict(POLICY, id=3, src=3)]),
    ])
    return cases


def of_fields(make):
    """Each member wrong in turn."""
    wrong = {
        "version": [0, 2, "1", 1.0, None, True, [1]],
        "lanes": [0, 65, -1, "4", None, 4.5],
        "jobs": [0, 262145, 2**64, None],
        "keep": [-1, 1000001, {}, None],
        "registries": [{}, None, "", numbered(65)],
        "policies": [{}, None, 1],
    }
    texts = [config(**{name: value}) for name, values in wrong.items() for value in values]
    texts += [compact(without(json.loads(config()), name)) for name in ("version", "registries", "policies")]
    texts += ['{"version":2,"lanes":0}', '{"version":1,"lanes":0,"jobs":0}', config(jobs=0, keep=-1), config(policies=[0], keep=-1),
              config([0], policies={}), config(keep=0).replace(':0}', ':-0}'), "{}"]
    cases = checks(make, "a member of the root is wrong", texts)
    wrong = {
        "id": [0, 251, "1", None],
        "kind": ["Memory", "", "https", None, 1],
        "at": [1, None, "/a", "a/", "a//b", ".", "a/../b", "./a"],
    }
    texts = [registry(**{name: value}) for name, values in wrong.items() for value in values]
    texts += [config([without(MEMORY, name)]) for name in ("id", "kind", "at")]
    texts += [registry(id=0, kind="x"), registry(kind="x", at="/"), registry(kind="folder", at="a/.."),
              registry(kind="folder", at="")]
    texts += [registry(kind="http", at=at) for at in [
        "http://a", "http://a/", "http://a:65535", "http://a:65536", "http://[::1]:65535", "http://127.0.0.1:80/",
        "http://999.1.1.1", "", "http://", "https://a", "HTTP://a", "http:a", "http://a/b", "http://a//", "http://a?b",
        "http://a#b", "http://u@a", "http://a ", "a/b",
    ]]
    texts += [config([MEMORY, value]) for value in (0, None, [], {}, "id")]
    texts += [config([dict(MEMORY, at="/"), dict(OTHER, id=0)]), config([dict(MEMORY, kind="x")], [dict(POLICY, id=0)])]
    cases += checks(make, "a member of a registry is wrong", texts)
    wrong = {
        "id": [0, 2**32, -1, "7", None, 7.0],
        "name": [1, None, ["p"]],
        "enabled": [0, 1, "true", None],
        "src": [0, 251, "1", None],
        "dst": [0, 251, -1, None],
        "namespace": ["a/", "A", "/a", "a//b", "a b", None, 1, "é"],
        "replace": [-2, 4, "1", None, 0.5],
        "override": [0, "false", None],
        "attempts": [0, 5, None],
        "trigger": ["", "Manual", "scheduled", None, {}, [], {"cron": 1}, {"cron": ""}, {"Cron": "0 0 * * * *"}],
        "filters": [{}, None, "", [named("tag", "*")] * 17],
    }
    texts = [policy(**{name: value}) for name, values in wrong.items() for value in values]
    texts += [config(policies=[without(POLICY, name)]) for name in POLICY]
    texts += [policy(trigger={"cron": text}) for text in SCHEDULES]
    texts += [policy(namespace=text) for text in ["", "a", "a.b_c__d---e/0", "a" * 255, "a" * 256]]
    names = list(wrong)
    texts += [policy(**{first: wrong[first][0], second: wrong[second][0]}) for first, second in zip(names, names[1:])]
    texts += [config(policies=[POLICY, value]) for value in (0, None, [], {})]
    texts += [config(policies=[dict(POLICY, dst=0), dict(POLICY, id=0)]),
              config(policies=[dict(POLICY, filters=[{}]), dict(POLICY, id=0)])]
    cases += checks(make, "a member of a policy is wrong", texts)
    return cases + of_filters(make)


SCHEDULES = [
    "0 0 * * * *", "? ? ? ? ? ?", "*/5 0-59/7 1/2 1,15 1-12 0,6", "59 59 23 31 12 6", "00 01 02 03 04 05",
    "60 * * * * *", "* 60 * * * *", "* * 24 * * *", "* * * 0 * *", "* * * 32 * *", "* * * * 0 *", "* * * * 13 *",
    "* * * * * 7", "* * * * *", "* * * * * * *", "*  * * * * *", " * * * * * *", "* * * * * * ", "5-1 * * * * *",
    "*/0 * * * * *", "1-2-3 * * * * *", "1, * * * * *", ",1 * * * * *", "001 * * * * *", "-1 * * * * *",
    "*,1 * * * * *", "?/2 * * * * *", "* * * * jan *", "1/ * * * * *", "/2 * * * * *",
]


def of_filters(make):
    lists = [["a"] * 3, [], ["a" * 64], ["é" * 32]]
    texts = [filtered(named("label", listed)) for listed in lists]
    texts += [filtered(named("label", value)) for value in ["a", None, [""], ["a", 1], ["a" * 65], ["é" * 33], {}]]
    for kind in ("name", "tag"):
        texts += [filtered(named(kind, value)) for value in ["", "*", "{a", "[", "a" * 1024, "a" * 1025, 1, None, ["*"]]]
    texts += [filtered(named("resource", value)) for value in ["image", "artifact", "", "chart", None, 1]]
    for kind, value in [("name", "*"), ("tag", ""), ("label", ["a"]), ("resource", "image")]:
        for decoration in ["matches", "excludes", "Matches", "", None, 1]:
            texts.append(filtered(named(kind, value, decoration=decoration)))
        texts.append(filtered({"kind": kind}))
        texts.append(filtered({"kind": kind, "decoration": "x"}))
    texts += [filtered(value) for value in [0, {}, [], None, {"value": "*"}, named("Tag", "*"), named(1, "*"), named(None, "")]]
    texts += [filtered(named("tag", "*"), named("tag", "[")), filtered(named("tag", "["), {}),
              filtered(*[named("tag", "")] * 16), policy(filters=[{}], attempts=0)]
    return checks(make, "a filter is right or wrong", texts)


def of_wholes(make):
    """What is wrong between registries and policies, and which of it is told."""
    twice = [MEMORY, dict(OTHER, id=1)]
    turning, unknown = dict(POLICY, id=8, dst=1), dict(POLICY, id=9, dst=3)
    return checks(make, "a configuration is wrong as a whole", [
        config(twice),
        config(twice + [OTHER], [POLICY, POLICY]),
        config(policies=[POLICY, dict(POLICY)]),
        config(numbered(3) + [dict(OTHER, id=3), dict(OTHER, id=1)]),
        config(policies=[unknown]),
        config(policies=[dict(POLICY, src=250)]),
        config(policies=[dict(POLICY, src=4, dst=3)]),
        config([], [POLICY]),
        config(policies=[POLICY, unknown, unknown]),
        config(policies=[turning, unknown]),
        config(policies=[turning]),
        config(policies=[POLICY, dict(turning, src=2, dst=2)]),
        config(policies=[dict(POLICY, src=2, dst=1), POLICY, turning]),
        config(policies=[POLICY, dict(POLICY, id=8, src=2, dst=1)]),
    ])


def of_sizes(make, counted):
    """Lists and texts at each limit and past it, and files at the limit of their bytes."""
    cases = []
    for count in [1024, 1025]:
        case = counted("a file of %d policies" % count, config(policies=[])[:-2])
        case.each(1, count, '{"id":*,"name":"","src":1,"dst":2},', decimal=True)
        cases.append(case.text(compact(dict(POLICY, id=1025)) + "]}"))
    for count in [64, 65]:
        cases.append(make("a file of %d registries" % count, config(numbered(count), [])))
    for length in [255, 256]:
        cases.append(make("a name of a policy of %d bytes" % length, policy(name="n" * length)))
    cases.append(make("a name of a policy of 128 letters of two bytes", policy(name="é" * 128)))
    for length in [LIMIT, LIMIT + 1, LIMIT + 5]:
        case = counted("a file of %d bytes" % length, config())
        cases.append(case.each(0, length - len(config()), " "))
    case = counted("a file of %d bytes in one text" % LIMIT, config()[:-1] + ',"more":"')
    cases.append(case.each(0, LIMIT - len(config()) - 11, "a").text('"}'))
    case = counted("a file of one byte more that is no JSON", "")
    cases.append(case.each(0, LIMIT + 1, "["))
    return cases


def of_hostile(make, counted):
    texts = [
        "", " ", "[]", "null", "1", '"{}"', "{", "}", "{}{}", "{},", config() + "x", config() + "{}", "\ufeff" + config(),
        config().replace(",", ",,", 1), config()[:-1] + ",}", "{'version':1}", '{version:1}', "// one\n" + config(),
        config().replace("1", "01", 1), config().replace("1", "+1", 1), config().replace("1", "1.", 1),
        config().replace("1", ".1", 1), config().replace("1", "1e", 1), config().replace("1", "0x1", 1),
        config(more=0).replace(':0}', ":NaN}"), config(more=0).replace(':0}', ":Infinity}"),
        config(more=0).replace(':0}', ":-Infinity}"), config(more=0).replace(':0}', ":1e400}"),
        config(more=0).replace(':0}', ":-1e400}"), config(more=0).replace(':0}', ":1e-400}"),
        config(more=0).replace(':0}', ":" + "7" * 400 + "}"), config(more=0).replace(':0}', ":" + "7" * 300 + "}"),
        config(lanes=0).replace(':0}', ":" + "7" * 300 + "}"), config(lanes=0).replace(':0}', ":0." + "7" * 400 + "}"),
        config(more=0).replace(':0}', ":tru}"), config(more=0).replace(':0}', ":True}"),
        policy(name="?").replace("?", "\\ud800"), policy(name="?").replace("?", "\\udc00"),
        policy(name="?").replace("?", "\\ud800\\u0041"), policy(name="?").replace("?", "\\ud800\\ud800"),
        policy(name="?").replace("?", "\\u12"), policy(name="?").replace("?", "\\x"), policy(name="?").replace("?", "\n"),
        policy(name="?").replace("?", "\0"), policy(name="?").replace("?", "\x1f"), policy(name="?").replace("?", "\t"),
        config()[:-1] + ',"\\ud800":1}', config()[:-1] + ',"version":2}', config()[:-1] + ',"policies":[]}',
        config()[:-1] + ',"registries":[]}',
    ]
    cases = checks(make, "a hostile file", texts)
    cases += checks(make, "a file that is no UTF-8", [
        config().encode().replace(b"p", byte, 1) for byte in [b"\xff", b"\x80", b"\xc3", b"\xc0\x80", b"\xed\xa0\x80", b"\xf4\x90\x80\x80"]
    ] + [b"\xff\xfe" + config().encode("utf-16-le"), config().encode("utf-16-le"), b"\0" + config().encode()])
    for depth in [126, 127, 128, 5000]:
        case = counted("lists in %d levels" % depth, config()[:-1] + ',"more":')
        cases.append(case.each(0, depth, "[").each(0, depth, "]").text("}"))
    case = counted("objects in 127 levels", config()[:-1] + ',"more":')
    cases.append(case.each(0, 127, '{"a":').text("1").each(0, 127, "}").text("}"))
    case = counted("a file of 500000 open lists", "")
    cases.append(case.each(0, 500000, "["))
    case = counted("a list of 200000 items", config()[:-1] + ',"more":[0')
    cases.append(case.each(0, 200000, ",0").text("]}"))
    case = counted("one member 100000 times", config()[:-1])
    cases.append(case.each(0, 100000, ',"x":1').text("}"))
    case = counted("30000 members", config()[:-1])
    cases.append(case.each(0, 30000, ',"x*":{}').text("}"))
    case = counted("one number 1024 times", config(policies=[])[:-2])
    cases.append(case.each(0, 1023, '{"id":1,"name":"","src":1,"dst":2},').text(compact(dict(POLICY)) + "]}"))
    text = config()
    cases += [make("a file that is cut, at %d" % at, text[:at]) for at in range(len(text))]
    return cases


def of_words(bare):
    """Words of checks, trees that fail, and files that are not there."""
    file, cases = config(), []
    for at, path in enumerate([b"", b"/a", b"a/", b"a//b", b".", b"..", b"a/../b", b"./a", b"a/."], 1):
        case = bare("a word that is no path gives the usage line, %d" % at, file, words=(b"check", path))
        cases.append(case.file("a").device(failing_files=[1]))
    words = [(b"check",), (b"check", b"a", b"a"), (b"Check", b"a"), (b"check ", b"a"), (b"a", b"check"),
             (b"replay", b"a"), (b"plan", b"a"), (b"", b"a"), (b"chec", b"a")]
    for at, said in enumerate(words, 1):
        case = bare("other words than check give the usage line, %d" % at, file, words=said)
        cases.append(case.file("a").device(failing_files=[1], failing_reads=[1]))
    for at, path in enumerate([b"a", b"a/b.c/...", b"a b", b"\xff\x00", b"..."], 1):
        case = bare("a file is found by its path, %d" % at, file, words=(b"check", path))
        cases.append(case.file(path))
    for at, path in enumerate([b"b", b"A", b"a/b", b"a "], 1):
        cases.append(bare("no file is there, %d" % at, file, words=(b"check", path)).file("a"))
    cases.append(bare("no file is there at all", words=(b"check", b"a")))
    case = bare("of two files at one path the last counts", "[]", words=(b"check", b"a")).file("a")
    cases.append(case.text(file).file("a"))
    case = bare("the input is not read", file, words=(b"check", b"a"), show=["content"]).file("a")
    cases.append(case.text("trigger 1\n").device(failing_reads=[1]))
    case = bare("a failing tree is a fault", file, words=(b"check", b"a")).file("a")
    cases.append(case.device(failing_files=[1]))
    case = bare("a failing tree comes before a missing file", words=(b"check", b"a"))
    cases.append(case.device(failing_files=[1, 2]))
    case = bare("a call that is not made does not fail", file, words=(b"check", b"a")).file("a")
    cases.append(case.device(failing_files=[2]))
    case = bare("a failing tree and a failing write", file, words=(b"check", b"a")).file("a")
    cases.append(case.device(failing_files=[1], failing_writes=[1]))
    for text in [file, "[]"]:
        case = bare("a failing write of what is said of a file of %d bytes" % len(text), text, words=(b"check", b"a"))
        cases.append(case.file("a").device(failing_writes=[1]))
    case = bare("a script does not read the tree", "[]").file("a")
    cases.append(case.text("image 1 a v\ntags 1\n").device(failing_files=[1]))
    return cases


# ---- patterns and digests

FITS = [
    ("*", "hello"), ("*", ""), ("*", "library/hello"), ("a**b", "ab"), ("a**b", "axyb"), ("a**b", "a/b"), ("", ""),
    ("", "a"), ("", "/"), ("/", "/"), ("?", ""), ("a?b", "axb"), ("a?b", "a/b"), ("*a*b*c", "xaybzabc"),
    ("*a*b*c", "xaybzab"), ("*ab", "aab"), ("library/**", "library/hello"), ("library/**", "library"),
    ("library/**", "library/"), ("library/**", "library/a/b"), ("library/**", "other/hello"), ("library/**", "libraryx"),
    ("***", "abc"), ("***", "a/b"), ("**", ""), ("**", "/"), ("**", "a/b/c"), ("**/x/**", "x"), ("**/x/**", "a/x"),
    ("**/x/**", "x/b"), ("**/x/**", "a/b/x/c/d"), ("**/x/**", "a/b"), ("**/x/y/**", "x/x/y"), ("a/**/b", "a/b"),
    ("a/**/b", "a/x/b"), ("a/**/b", "a/x/y/b"), ("a/**/b", "ab"), ("a/**/b", "a/x"), ("x/{*,y}*", "x/a/b"),
    ("x/{*,y}*", "x"), ("x/\\**", "x/*a"), ("x/\\**", "x/a"), ("v{1,2}?", "v10"), ("v{1,2}?", "v2"), ("v{1,2}?", "v3a"),
    ("\\*\\?\\{\\}\\[\\]\\,\\\\", "*?{}[],\\"), ("\\*", "a"), ("\\?", "a"), ("\\a", "a"), ("a\\/*", "a/b"),
    ("a,b]", "a,b]"), ("{a]}", "a]"), ("{\\,,\\}}", ","), ("{\\,,\\}}", "}"), ("a{,b}c", "ac"), ("a{,b}c", "abc"),
    ("a{,b}c", "abbc"), ("{}", ""), ("{a/b,c}/d", "a/b/d"), ("{a/b,c}/d", "c/d"), ("{a/b,c}/d", "b/d"),
    ("{a,b}{c,d}", "bc"), ("{a,b}{c,d}", "ab"), ("?", "é"), ("??", "é"), ("a b", "a b"), (" ", " "), ("%", "%"),
]
REFUSED = [
    "[a]", "a\\[b[", "{a,[", "{a,{b}}", "{a", "ab{a,\\}", "}", "{a}b}", "\\", "\\\\\\", "{a\\", "}[", "{[}", "{{", "{a}{b,{",
    "[" * 1025, "a" * 1025,
]
EIGHT = "{a,b}" * 8
EDGES = [
    ("a" * 1024, "a" * 1024), (EIGHT, "abababab"), (EIGHT, "ababababa"), ("{" + "," * 255 + "b}", "b"),
    ("{" + "," * 256 + "b}", "b"), (EIGHT + "{a,b}", ""), (EIGHT + "{a}{a,b}[", ""), (EIGHT + "*?{,,}{", ""),
    ("{a,b}" * 7 + "{a,b,c}", ""), ("{" + "," * 299 + "}\\", ""), (EIGHT + "{a}" * 100, "abababab" + "a" * 100),
    ("*a" * 20 + "b", "a" * 60), ("**/" * 20 + "b", "a/" * 30 + "c"),
]


def fit(pattern, text):
    pattern, text = (part if isinstance(part, bytes) else part.encode() for part in (pattern, text))
    fault = model.fault_of(pattern)
    answer = "%s at %d" % fault[::-1] if fault else "yes" if model.fits(pattern, text) else "no"
    given = ("%s %s" % (argument(pattern), argument(text))).rstrip()
    return Single("fits", given, answer)


def of_patterns():
    chance = random.Random(20262)
    cases = [fit(*pair) for pair in FITS + EDGES] + [fit(pattern, "") for pattern in REFUSED]
    cases += [fit(b"\xff?*", b"\xff\x80"), fit(b"\xff?*", b"\xff\xc3\xa9\x80"), fit(b"\xff?*", b"\xfe\x80")]
    for signs, most, letters, longest in [("a*?/{,}\\[", 6, "ab/", 3), ("a*/", 7, "a/", 5), ("ab*?", 6, "ab", 6)]:
        for _ in range(150):
            pattern = "".join(chance.choices(signs, k=chance.randint(0, most)))
            cases.append(fit(pattern, "".join(chance.choices(letters, k=chance.randint(0, longest)))))
    return cases


ABC = b"ba7816bf8f01cfea414140de5dae2223b00361a396177a9cb410ff61f20015ad"
DIGESTS = [
    b"", b":", b"sha256", b"sha256:", b":" + ABC, b"sha256:" + ABC[:-1], b"sha256:" + ABC + b"0", b"sha256:" + ABC[:-1] + b"D",
    b"sha256:" + ABC[:-1] + b"g", b"sha256:" + ABC[:-1] + b"=", b"sha256:" + ABC + b"\n", b"sha256:\xba" + ABC[2:],
    b"SHA256:" + ABC, b"sha256:sha256:" + ABC[7:], b"md5", b"md5:", b"md5:0:0", b"md5:0 0", b"md5:0+0",
    b"sha256+b64:uU0nuZNNPgilLlLX2n2r+sSE7+N6U4DukIj3rOLvzek=", b"md5:\x80", b"md\xff5:00", b"md/5:00", b"+a:b", b"a+:b",
    b"a..b:c", b"a+-b:c", b"aB:c", b"md5:00", b"a+b:c", b"0.a_9-z:A=_-", b"sha25:" + ABC,
    b"sha256+b64u:LCa0a2j_xo_5m0U8HTBBNBNCLXBkg7-g-YpeiGJm564", b"sha384:00", b"sha512:" + ABC, b"sha256:" + ABC,
    b" sha256:" + ABC, b"sha256:" + ABC + b" ", b"sha256:" + ABC[:63] + b"\0",
]


def of_digests():
    cases = [Single("digest", argument(text), model.digest_in(text)) for text in DIGESTS]
    sevens = bytes((7 * at + 3) % 256 for at in range(200))
    texts = [b"", b"{}", b"abc", b"a" * 1000] + [sevens[:count] for count in (1, 55, 56, 63, 64, 65, 119, 120, 128, 200)]
    return cases + [Single("hash", argument(text), "sha256:" + hashlib.sha256(text).hexdigest()) for text in texts]
