#!/usr/bin/env python3
"""Writes the cases of `crates/hr_cases`, which that crate's program reads from its standard input,
and what it must print for them. What it must print comes from `model.py` and `config_model.py` alone;
the cases of lanes stand in `lane_cases.py`, those of queues, hooks and rows in `core_cases.py`, and those of
checks, patterns and digests in `config_cases.py`.

The form of a case stands at the head of crates/hr_cases/src/main.rt, and the form of an answer is:

    case NAME
    status N
    sent LENGTH [TEXT]                  the text that was sent
    faults N M L                        of the input, of the output and of the tree
    entry JOB.REV WORD ..               `show journal`, and what a task does
    hook JOB.REV STATUS                 `show hooks`, the first to be emitted first
    word JOB.REV STATUS                 `show words`, of each job that is kept, its last revision that was
                                        opened; those before it are at Error
    execution E STATUS total ..         `show rows`, as `exec E` tells it, with the lines behind it
    row JOB.REV STATUS
    received JOB.REV STATUS             the hooks of that row, the first to be received first
    cause WORD ..                       `show causes`
    tag REG REPO TAG DIGEST             `show tags`, and of registry 2 behind a task
    listed REPO TAG LABEL ..            what registry 2 lists behind a task
    registry N                          `show content`, with the lines behind it
    repository REPO
    blob DIGEST BYTES
    manifest DIGEST MEDIA BYTES
    named TAG DIGEST LABEL ..

A line that is a case by itself has one line behind it: itself, `:` and the answer.

To add a case, add it below to the list that fits, and run this script.

Usage: python3 bench/cases.py [--check]
With --check it writes nothing, and tells by its status whether the files are those that it makes.
"""
import copy
import os
import random
import re
import sys

import config_cases
import core_cases
import lane_cases
import model
from compare import Maker
from core_check import current
from core_model import Board
from lane_model import Connection, Lane, Task, entry_text
from model import plain

HELLO = b"image 1 library/hello v1 7b7d 7b7d\ntrigger 1\nfinish\ntags 2\n"


class Case:
    """One case: what its lines say, and the script that they make."""

    def __init__(self, name, script=b"", show=(), words=(b"replay",)):
        self.lines, self.script, self.shows = ["case " + name], b"", list(show)
        self.words, self.devices, self.tasks, self.files = list(words), {}, [], {}
        for word in words:
            self.lines.append("word " + escaped(word))
        self.text(script)

    def text(self, text):
        """The input goes on with this text."""
        text = text.encode() if isinstance(text, str) else text
        self.script += text
        *lines, rest = text.split(b"\n")
        self.lines += [("line " + escaped(line)).rstrip() for line in lines]
        if rest:
            self.lines.append("text " + escaped(rest))
        return self

    def each(self, first, end, text, decimal=False):
        """The input goes on with this text for each of these numbers, in the place of `*`."""
        kind, form = ("count", "%d") if decimal else ("each", "%04x")
        made = (text.replace("*", form % number) for number in range(first, end))
        self.script += "".join(made).encode()
        self.lines.append("%s %d %d %s" % (kind, first, end, escaped(text.encode())))
        return self

    def steps(self, *jobs):
        """The input goes on with a step of each of these jobs."""
        self.script += "".join("step %d\n" % job for job in jobs).encode()
        self.lines.append(" ".join(["steps"] + [str(job) for job in jobs]))
        return self

    def file(self, path):
        """What the input had so far is a file, and the input begins anew."""
        path = path.encode() if isinstance(path, str) else path
        self.files[path], self.script = self.script, b""
        self.lines.append("file " + escaped(path))
        return self

    def device(self, **numbers):
        """`pieces`, `failing_reads`, `failing_writes` or `failing_files`."""
        for kind, listed in numbers.items():
            self.devices[kind] = listed
            self.lines.append(" ".join([kind] + [str(number) for number in listed]))
        return self

    def task(self, name, to, tag, how):
        """A task behind the call, between registries with what 1 and 2 hold then."""
        self.tasks.append((name, to, tag, how))
        self.lines.append("task %s %s %s %s" % (name, to, tag, how))
        return self

    def given(self):
        return self.lines + ["show " + show for show in self.shows] + ["run"]

    def wanted(self):
        ending = model.top(self.words, self.script, self.files, **self.devices)
        said = [self.lines[0], "status %d" % ending.status]
        said.append("sent %d [%s]" % (len(ending.text), plain(ending.text)))
        said.append("faults %d %d %d" % ending.faults)
        for show in self.shows if ending.kept else []:
            said += SHOWS[show](ending.kept)
        for name, to, tag, how in self.tasks:
            said += copied(ending, Task(name, to, [tag], how == "replace"))
        return said


def escaped(text):
    """A text as a line of a case has it."""
    text = plain(text)
    return re.sub("^ | $", "%20", text)


def tags(number, registry):
    return ["tag %d %s %s %s" % ((number,) + row) for row in registry.shown()]


def copied(ending, task):
    """What a task does between registries with what is kept in 1 and 2."""
    held = copy.deepcopy(ending.kept.registries[:2]) if ending.kept else [model.Registry(), model.Registry()]
    board = Board()
    board.move(1, 0, "Unopened", "Pending")
    lane = Lane(Connection(1, held[0]), Connection(2, held[1]), board, lambda *hook: None)
    lane.admit(1, 0, task)
    while 1 in lane.held:
        lane.step(1)
    said = journal(lane) + tags(2, held[1])
    for name, repository in sorted(held[1].repositories.items()):
        said += ["listed %s %s" % (name, tag) for tag in sorted(repository.tags)]
    return said


def journal(lane):
    return ["entry " + entry_text(entry) for entry in lane.journal]


def all_tags(kept):
    return [row for at, held in enumerate(kept.registries, 1) for row in tags(at, held)]


def causes(kept):
    ends = (about for _, _, (kind, *about) in kept.core.lane.journal if kind == "ended")
    return ["cause " + cause for _, cause in ends if cause]


def hooks(kept):
    return ["hook %d.%d %s" % hook for hook in kept.core.hooks]


def words(kept):
    jobs = (row.job for execution in kept.core.store.executions.values() for row in execution.rows)
    return ["word %d.%d %s" % (job, *current(kept.core.board, job)) for job in jobs]


def rows(kept):
    said = []
    for execution in kept.core.store.executions.values():
        said.append(execution.text())
        for row in execution.rows:
            said.append("row %d.%d %s" % (row.job, row.revision, row.status))
            said += ["received %d.%d %s" % (row.job, *hook) for hook in row.received]
    return said


def content(kept):
    said = []
    for at, registry in enumerate(kept.registries, 1):
        said.append("registry %d" % at)
        for name, held in sorted(registry.repositories.items()):
            said.append("repository " + name)
            said += ["blob %s %s" % (d, plain(b)) for d, b in sorted(held.blobs.items())]
            for digest, (media, data) in sorted(held.manifests.items()):
                said.append("manifest %s %s %s" % (digest, plain(media.encode("latin-1")), plain(data)))
            said += ["named %s %s" % pair for pair in sorted(held.tags.items())]
    return said


SHOWS = {
    "journal": lambda kept: journal(kept.core.lane),
    "causes": causes,
    "tags": all_tags,
    "content": content,
    "hooks": hooks,
    "words": words,
    "rows": rows,
}


# ---- manifests by hand


def listed(media, data, size=None):
    """A descriptor, with another size than the content has where one is given."""
    said = len(data) if size is None else size
    return '{"mediaType":"%s","digest":"%s","size":%d}' % (media, model.digest_of(data), said)


CONFIG = listed(model.CONFIG, b"{}")


def image(*layers, config=CONFIG):
    """The text of an image with these descriptors, without its media type."""
    return '{"schemaVersion":2,"config":%s,"layers":[%s]}' % (config, ",".join(layers))


def layer(text, size=None):
    return listed(model.LAYER, bytes.fromhex(text), size)


def index(*children):
    return '{"schemaVersion":2,"manifests":[%s]}' % ",".join(children)


def manifest(tag, text, media=model.IMAGE, name="app"):
    """A setup line of registry 1."""
    return "manifest 1 %s %s %s %s\n" % (name, tag, media, text)


def chain(levels, name="deep"):
    """An image `v` below so many indexes, `i1` on it and the last on top."""
    text = "image 1 %s v 01\n" % name
    for level in range(1, levels + 1):
        text += "index 1 %s i%d %s\n" % (name, level, "i%d" % (level - 1) if level > 1 else "v")
    return text


RUN = "trigger 1\nfinish\n"


# ---- the cases


def scripts(name, texts, show=()):
    """A case for each of these scripts."""
    return [Case("%s, %d" % (name, at), text, show) for at, text in enumerate(texts, 1)]


def of_scripts():
    cases = scripts("a script gives its status and its text", [
        HELLO,
        b"",
        b"image 1 library/hello v1 7b7d 7b7d\ntrigger 1\n",
        b"image 1 library/hello v1 7b7d 7b7d\n",
        b"image 1 library/hello v1 7b7d 7b7d\ntrigger 1\nfinish\n",
        b"image 1 a v\ntrigger 1\nfinish\ntags 2\n",
        b"image 1 a/b/c V1 7b7d\ntrigger 1\nfinish\ntags 2\n",
        b"image 1 0 9 01 02 01\ntrigger 1\nfinish\ntags 2\n",
        b"image 1 a v 00ff00ff00ff00ff00ff61\ntrigger 1\nfinish\ntags 2\n",
        b"# an image\n\nimage 1 a v\n#\n\n\ntrigger 1",
        b"\n\n\n",
        b"#trigger 1\n",
        b"#\0\xff\r\n",
    ])
    cases += scripts("the first bad line is refused, and nothing is kept", [
        b"images 1 a v\n",
        b" image 1 a v\n",
        b"trigger 1\r\nimage 1 a v\n",
        b"finish\r\n",
        b"\ntrigger 1\nimage 1 a v\n",
        b"image 1 a\n",
        b"image 1 a v \n",
        b"image 1  a v\n",
        b"trigger\n",
        b"finish 1\n",
        b"image 9 a v\n",
        b"image 0 a v\n",
        b"trigger 4294967296\n",
        b"trigger 01\n",
        b"image 1 library/Hello v1 7b7d\n",
        b"image 1 a//b v\n",
        b"image 1 a -v\n",
        b"image 1 a v 7b7\n",
        b"image 1 a v 7B\n",
        b"manifest 1 a v m\"m text\n",
        b"image 1 a v\nindex 1 a all v w\n",
        b"index 1 a all v\nimages\n",
        b"image 2 a v\nindex 1 a all v\n",
        b"images\nindex 1 a all v\n",
        b"finish\nimage 1 app a 01\n",
        b"finish now\n",
        b"tags 9\n",
        b"step 1\n",
        b"lanes 2\n",
        b"manifest 1 a v m/m\n",
        b"manifest 1 a v m\x7fm \xff\ntags 1\ntags 0\n",
        b"image 1 a v\n\0\n",
        b"orphan 1\n",
        b"orphan 1 a 0\n",
        b"image 1 a v 01\nindex 1 a\n",
        b"image 1 a v 01\ntrigger 1\nfinish\ntags\n",
    ], ["content", "journal"])
    for name, tag in [(255, 128), (256, 128), (255, 129), (1, 1)]:
        case = Case("a name of %d bytes and a tag of %d" % (name, tag), b"image 1 ")
        cases.append(case.each(0, name, "a").text(" ").each(0, tag, "V").text("\n"))
    for length in [1048576, 1048577, 1500000]:
        case = Case("a script of %d bytes" % length)
        cases.append(case.each(0, length, "#"))
    case = Case("a script of 1048576 bytes in pieces, whose last lines are events")
    cases.append(case.each(0, 1048535, "#").text("\nimage 1 a v 01\n" + RUN + "tags 2\n"))
    cases[-1].device(pieces=[65536, 1, 65536, 100000, 2, 0])
    return cases


def of_devices():
    cases = []
    for at, words in enumerate([[], [b"replay"] * 2, [b"Replay"], [b""], [b"replay "], [b"repla"]], 1):
        case = Case("other words than replay give the usage line, %d" % at, HELLO, words=words)
        cases.append(case.device(failing_reads=[1]))
    for read in [1, 2, 20, 59, 60]:
        case = Case("a failing read is an input fault, read %d" % read, HELLO, ["content"])
        cases.append(case.device(pieces=[1] * 60, failing_reads=[read]))
    for at, pieces in enumerate([[1] * 70, [0] * 70, [2, 30, 1]], 1):
        case = Case("an input in pieces is the same input, %d" % at, HELLO)
        cases.append(case.device(pieces=pieces))
    case = Case("a read that is not made does not fail", HELLO)
    cases.append(case.device(failing_reads=[3, 4]))
    case = Case("a failing write comes after the script was run", HELLO, ["tags", "journal"])
    cases.append(case.device(failing_writes=[1]))
    case = Case("a failing write of the usage line", words=())
    cases.append(case.device(failing_writes=[1]))
    case = Case("a failing write of a bad line", b"images\n", ["content"])
    cases.append(case.device(failing_writes=[1]))
    case = Case("a failing read and a failing write", HELLO, ["content"])
    cases.append(case.device(failing_reads=[2], failing_writes=[1]))
    case = Case("a text of no bytes is not written", b"image 1 a v\n", ["tags"])
    cases.append(case.device(failing_writes=[1]))
    case = Case("a text is written at once", HELLO)
    cases.append(case.device(failing_writes=[2]))
    return cases


def of_executions():
    cases = scripts("an execution succeeds once its tasks were run", [
        "finish\n",
        "trigger 1\n",
        "trigger 1\nfinish\n",
        "trigger 7\n",
        "trigger 0\n",
        "trigger 4294967295\n",
        "tags 1\n",
        "image 1 app a 05\ntrigger 1\n",
        "image 1 app a 05\ntrigger 7\nfinish\ntags 2\n",
        "image 1 app a 05\nfinish\ntrigger 1\n",
    ])
    cases += scripts("each trigger makes an execution of its own", [
        "image 1 app a 05\ntrigger 1\ntrigger 1\nfinish\ntags 2\n",
        "image 1 app a 05\ntrigger 1\nfinish\ntrigger 1\nfinish\ntags 2\n",
        "image 1 app a 05\nimage 1 lib a 01\n"
        "trigger 1\ntrigger 7\ntrigger 1\nfinish\nfinish\ntrigger 1\n",
    ], ["journal"])
    for count in [8192, 8193]:
        case = Case("there are 16384 jobs at most, two executions of %d" % count)
        cases.append(case.each(0, count, "image 1 r* v\n"))
        cases[-1].text("trigger 1\ntrigger 1\n")
    for count in [65536, 65537]:
        case = Case("a repository with %d tags" % count, show=["causes"])
        case.each(0, 65536, "image 1 a *\n")
        cases.append(case.text("image 1 a x\n" * (count - 65536) + RUN))
    return cases


def of_tags():
    cases = scripts("a tag names what was stored last under it", [
        "image 1 app a 05\nimage 2 app a 06\n" + RUN + "tags 2\n",
        "image 1 app a 01\nimage 1 app a 05\n" + RUN + "tags 2\n",
        "image 2 app a 05\nimage 2 app a 06\ntags 2\n",
    ], ["journal"])
    cases += scripts("what the destination has stays", [
        "image 1 app a 05\nimage 2 app b 06\n" + RUN + "tags 2\n",
        "image 1 app a 05\nimage 2 lib a 06\n" + RUN + "tags 2\n",
        "image 1 app a 05\nimage 2 app a 05\n" + RUN + "tags 2\n",
    ], ["journal", "content"])
    cases += scripts("each tag of a repository is copied", [
        "image 1 app a 05\nimage 1 app b 05\n" + RUN + "tags 2\n",
        "image 1 app B 05\nimage 1 app _ 06\nimage 1 app 0.1-a 07\n" + RUN + "tags 2\n",
    ], ["journal"])
    cases += scripts("each repository with a tag has a task", [
        "image 1 b v 01\nimage 1 a/b v 02\nimage 1 a v 03\norphan 1 a-b 04\n" + RUN + "tags 2\n",
    ], ["journal", "content"])
    cases += scripts("the tags of any registry are listed", [
        "image 3 app x 01\nimage 8 lib y 02\ntags 3\ntags 1\ntags 8\n",
        "image 1 app a 05\ntags 1\ntags 2\n" + RUN + "tags 2\n",
    ], ["tags"])
    return cases


def of_contents():
    return [
        Case("a copied image stands whole in registry 2", "image 1 app v 01\n" + RUN,
             ["content", "journal"]),
        Case("an image that is not copied stands in registry 1 alone",
             "image 1 app v 01\ntrigger 1\n", ["content", "journal"]),
        Case("eight registries are kept in order", "image 8 app v 01\n", ["content"]),
        Case("a manifest without blobs and without a tag", "orphan 1 app 01 02\n", ["content"]),
        Case("a text of a manifest is kept as it is",
             b"manifest 1 app v text/plain;a=b \x01 {\x7f%41\xc3\xa9 \n" + RUN.encode(),
             ["content", "journal"]),
        Case("a text of a manifest of no bytes", "manifest 1 app v m \n" + RUN,
             ["content", "journal"]),
    ]


def of_journals():
    return scripts("each task does what is left to do", [
        "image 1 app a 05\n" + RUN + RUN,
        "image 1 b t1 01\nimage 1 a/b t2 02\nimage 1 a t3 03\n" + RUN,
        "image 1 app a 01\nimage 1 app b 01 02\n" + RUN,
        "image 1 app x 01\nindex 1 app i x\norphan 2 app 01\n" + RUN,
        "image 1 app z 01\n" + manifest("a", "{}", "text/plain") + "image 1 lib v 01\n" + RUN,
        "image 1 app a 01\nimage 2 app z 01\nimage 2 app a 02\n" + RUN,
    ], ["journal", "tags"])


def of_graphs():
    cases = scripts("an index is copied with all below it", [
        "image 1 app a 01 02\nimage 1 app b 01 03\nindex 1 app all a b\norphan 2 app 01 02\n"
        + RUN + "tags 2\n",
        "image 1 app x 01\nimage 1 app y 02\nindex 1 app m x y\nindex 1 app a m x\n"
        + RUN + "tags 2\n",
        "image 1 app x 01\nindex 1 app i x\nindex 1 app j x\n" + RUN + "tags 2\n",
        "index 1 app none\n" + RUN + "tags 2\n",
    ], ["journal"])
    cases += scripts("an image is copied from the eighth level and not from the ninth", [
        chain(8) + RUN + "tags 2\n",
        chain(9) + RUN + "tags 2\n",
    ], ["causes"])
    met_again = chain(5) + "index 1 deep j1 i5\nindex 1 deep j2 j1\nindex 1 deep j3 j2\n"
    cases += scripts("a manifest that was copied has its height again", [
        met_again + "index 1 deep a i5 j2\n" + RUN,
        met_again + "index 1 deep a i5 j3\n" + RUN,
        met_again + "index 1 deep a j3\nindex 1 deep b i5 j3\n" + RUN,
    ], ["causes", "tags"])
    foreign = listed(model.FOREIGN, b"\x02")
    cases += scripts("a foreign layer is not asked for", [
        "image 1 app base 01\n" + manifest("win", image(layer("01"), foreign)) + RUN + "tags 2\n",
    ], ["journal", "tags"])
    gone = listed(model.IMAGE, model.image([b"\x09"]))
    failing = [
        manifest("a", image(layer("01"), layer("77"))),
        manifest("a", index(gone), model.INDEX),
        manifest("a", "no manifest"),
        manifest("a", "{}", "text/plain"),
        manifest("a", image(layer("01", 2))),
    ]
    cases += scripts("a task that fails shows no tag and the next one goes on", [
        "image 1 app z 01\n" + line + "image 1 lib v 03\n" + RUN + "tags 2\n" for line in failing
    ], ["journal", "tags"])
    return cases


FOREIGN = listed(model.FOREIGN, b"{}")
ANY = listed("m", b"{}")
GOOD = '"digest":"%s",' % model.digest_of(b"")


def filled(pattern):
    """The text with a descriptor for each `@`, and one of a foreign layer for each `~`."""
    return pattern.replace("@", ANY).replace("~", FOREIGN)


def index_with(media, digest, size):
    """An index of a whole child and one with these members."""
    return filled('{"schemaVersion":2,"manifests":[@,{' + media + digest + size + '"annotations":{}}]}')


def of_manifests():
    """Manifests that are read, and those that are refused, each alone in its script."""

    def shown(media, texts):
        """Scripts over a registry that has the blob `{}`."""
        return ["image 1 app z\n" + manifest("a", text, media) + RUN for text in texts]

    images = [filled(text) for text in [
        '{"schemaVersion":2,"layers":[@,~,@],"config":~,"x":[1e3,null]}',
        '{"schemaVersion":1,"schemaVersion":2,"config":@,"layers":[@],"layers":[]}',
        "{}",
        '{"schemaVersion":1,"config":@,"layers":[]}',
        '{"schemaVersion":"2","config":@,"layers":[]}',
        '{"schemaVersion":2.0,"config":@,"layers":[]}',
        '{"schemaVersion":-2,"config":@,"layers":[]}',
        '{"schemaVersion":null,"config":@,"layers":[]}',
        '{"schemaVersion":2,"schemaVersion":1,"config":@,"layers":[]}',
        '{"schemaVersion":2,"mediaType":"m","config":@,"layers":[]}',
        '{"schemaVersion":2,"mediaType":null,"config":@,"layers":[]}',
        '{"schemaVersion":2,"mediaType":"","manifests":[]}',
        '{"schemaVersion":2,"config":@,"layers":[],"manifests":[]}',
        '{"schemaVersion":2,"config":@,"layers":[],"manifests":null}',
        '{"schemaVersion":2,"manifests":[]}',
        '{"schemaVersion":2}',
        '{"schemaVersion":2,"config":null,"layers":[]}',
        '{"schemaVersion":2,"config":[@],"layers":{}}',
        '{"schemaVersion":2,"config":@,"config":"","layers":[]}',
        '{"schemaVersion":2,"config":@}',
        '{"schemaVersion":2,"config":@,"layers":null}',
        '{"schemaVersion":2,"config":{},"layers":{}}',
        "[]", "null", '"{}"', "2", "{}{}", "[" * 128,
    ]]
    indexes = [filled(text) for text in [
        '{"schemaVersion":2,"manifests":[]}',
        '{"schemaVersion":2,"manifests":[@,~]}',
        '{"schemaVersion":2,"config":@,"layers":[]}',
        '{"schemaVersion":2,"config":null,"manifests":[]}',
        '{"schemaVersion":2,"layers":null,"manifests":[]}',
        '{"schemaVersion":2,"layers":[],"manifests":{}}',
        '{"schemaVersion":2}',
        '{"schemaVersion":2,"manifests":{}}',
        '{"schemaVersion":2,"manifests":[@,[]]}',
    ]]
    some, size = '"mediaType":"m",', '"size":7,'
    short = '"digest":"sha256:e3b0c44298fc1c149afbf4c8996fb92427ae41e4649b934c",'
    other = '"digest":"md5:d41d8cd98f00b204e9800998ecf8427e",'
    children = [index_with(*members) for members in [
        ('"mediaType":"\\u006d\\n",', GOOD, '"size":9223372036854775807,'),
        ("", "", ""),
        ('"mediaType":null,', GOOD, size),
        ('"mediaType":{},', other, ""),
        (some, "", ""),
        (some, '"digest":7,', size),
        (some, short, size),
        (some, other, size),
        (some, '"digest":"",', '"size":-1,'),
        (some, GOOD, ""),
        (some, GOOD, '"size":-1,'),
        (some, GOOD, '"size":7.0,'),
        (some, GOOD, '"size":"7",'),
        (some, GOOD, '"size":9223372036854775808,'),
        (some, GOOD, '"size":18446744073709551616,'),
    ]]
    causes_alone = ["causes"]
    cases = scripts("an image is read or refused", shown(model.IMAGE, images), causes_alone)
    cases += scripts("an image of Docker is read", shown(model.DOCKER_IMAGE, images[:1]), causes_alone)
    cases += scripts("an index is read or refused", shown(model.INDEX, indexes), causes_alone)
    cases += scripts("a list of Docker is read or refused", shown(model.DOCKER_INDEX, indexes), causes_alone)
    cases += scripts("a child is read or refused", shown(model.INDEX, children), causes_alone)
    cases += scripts("texts that are no UTF-8 are no manifests", [
        b"image 1 app z\nmanifest 1 app a " + model.IMAGE.encode() + b" " + text + b"\n" + RUN.encode()
        for text in [b"\xef\xbb\xbf{}", b'{"\xff":1}']
    ], causes_alone)
    cases += scripts("other media types are refused", [
        "image 1 app z\n" + manifest("a", "{}", media) + RUN for media in [
            "", "application/json", model.IMAGE + ";charset=utf-8", model.IMAGE[:-1],
            "A" + model.IMAGE[1:], "application/vnd.docker.distribution.manifest.v1+json", model.CONFIG,
        ]
    ], causes_alone)
    whole = image(listed(model.LAYER, b"{}"), listed(model.LAYER, b"{}"))
    cut = "".join(manifest("v", whole[:length], name="r%d" % length) for length in range(len(whole) + 1))
    cases.append(Case("an image that is cut anywhere is refused", cut + RUN, causes_alone))
    return cases


def of_causes():
    gone = listed(model.IMAGE, model.image([b"\x09"]))
    child = model.image([b"\x01"])
    cases = scripts("the journal keeps why a task failed", [
        manifest("a", image()) + RUN,
        manifest("a", index(gone), model.INDEX) + RUN,
        manifest("a", "no manifest") + RUN,
        manifest("a", "{}", "text/plain") + RUN,
        "image 1 app z 01\n" + manifest("a", image(layer("01", 2))) + RUN,
        "image 1 app 0 01\n" + manifest("a", image(layer("01", 0))) + RUN,
        # A child manifest of another length than is said, met first and met again.
        "image 1 app z 01\n" + manifest("a", index(listed(model.IMAGE, child, 1)), model.INDEX) + RUN,
        "image 1 app z 01\n" + manifest("a", index(listed(model.IMAGE, child),
                                                   listed(model.IMAGE, child, 1)), model.INDEX) + RUN,
        # A layer whose length is right at first and wrong when it is met again.
        "image 1 app z 01\n" + manifest("a", image(layer("01"), layer("01", 3))) + RUN,
        # A child that is no manifest.
        manifest("0", "{}", "text/plain")
        + manifest("a", index(listed(model.IMAGE, b"{}")), model.INDEX) + RUN,
    ], ["causes", "journal"])
    # Each in a repository of its own, so that each has its task.
    odd = [
        ("a", model.IMAGE, '{"schemaVersion":3,"config":%s,"layers":[]}' % CONFIG),
        ("b", model.IMAGE, '{"config":%s,"layers":[]}' % CONFIG),
        ("c", model.IMAGE, '{"schemaVersion":"2","config":%s,"layers":[]}' % CONFIG),
        ("d", model.IMAGE, '{"schemaVersion":2,"mediaType":"%s","config":%s,"layers":[]}'
         % (model.INDEX, CONFIG)),
        ("e", model.IMAGE, '{"schemaVersion":2,"mediaType":2,"config":%s,"layers":[]}' % CONFIG),
        ("f", model.IMAGE, '{"schemaVersion":2,"config":%s,"layers":[],"manifests":[]}' % CONFIG),
        ("g", model.IMAGE, '{"schemaVersion":2,"layers":[]}'),
        ("h", model.IMAGE, '{"schemaVersion":2,"config":%s}' % CONFIG),
        ("i", model.IMAGE, '{"schemaVersion":2,"config":%s,"layers":{}}' % CONFIG),
        ("j", model.IMAGE, image("{}")),
        ("k", model.IMAGE, image(layer("01").replace("sha256:", "sha512:"))),
        ("l", model.IMAGE, image(layer("01").replace('"size":1', '"size":"1"'))),
        ("m", model.IMAGE, image(layer("01").replace('"size":1', '"size":-1'))),
        ("n", model.IMAGE, image(layer("01", 2**63))),
        ("o", model.IMAGE, image(layer("01")) + " x"),
        ("p", model.IMAGE, "[" + image(layer("01")) + "]"),
        ("q", model.INDEX, image(layer("01"))),
        ("r", model.INDEX, '{"schemaVersion":2,"manifests":[],"config":{}}'),
        ("s", model.INDEX, '{"schemaVersion":2,"manifests":[],"layers":[]}'),
        ("t", model.INDEX, '{"schemaVersion":2}'),
        ("u", model.IMAGE.upper(), image()),
        ("v", "", image()),
    ]
    text = "".join(manifest("v", text, media, name) for name, media, text in odd)
    cases.append(Case("manifests that are not read", text + RUN + "tags 2\n", ["causes"]))
    fine = [
        ("a", model.IMAGE, image()),
        ("b", model.DOCKER_IMAGE, image()),
        ("c", model.INDEX, index()),
        ("d", model.DOCKER_INDEX, index()),
        ("e", model.IMAGE, ' { "schemaVersion" : 2 , "config" : %s , "layers" : [ ] } ' % CONFIG),
        ("f", model.IMAGE, '{"layers":[],"config":%s,"schemaVersion":2,"more":{"a":[1]}}' % CONFIG),
        ("g", model.IMAGE, '{"schemaVersion":2,"mediaType":"%s","config":%s,"layers":[]}'
         % (model.IMAGE, CONFIG)),
    ]
    text = "".join("image 1 %s 0\n" % name + manifest("v", text, media, name)
                   for name, media, text in fine)
    cases.append(Case("manifests that are read", text + RUN + "tags 2\n", ["causes", "journal"]))
    return cases + of_limits()


def of_limits():
    cases = []
    for count in [4096, 4097, 30000]:
        case = Case("an index of %d children" % count, "image 1 app v 01\nindex 1 app a", ["causes"])
        cases.append(case.each(0, count, " v").text("\n" + RUN))
    for count in [4095, 4096]:
        case = Case("an image of %d layers" % count, "image 1 app a", ["causes"])
        cases.append(case.each(0, count, " *").text("\n" + RUN))
    # The index, its 17 images and their config are 19 of the pairs.
    for count in [65517, 65518]:
        case = Case("a graph of %d pairs" % (count + 19), show=["causes"])
        for at in range(17):
            case.text("image 1 app t%d" % at)
            case.each(3855 * at, min(3855 * (at + 1), count), " *00").text("\n")
        case.text("index 1 app a" + "".join(" t%d" % at for at in range(17)) + "\n")
        cases.append(case.text(RUN))
    return cases


def of_tasks():
    """Tasks that no script plans."""
    two = "image 1 app a 05\nimage 2 app a %s\n"
    tasks = [
        (two % "06", "app", "app", "a", "keep"),
        (two % "06", "app", "app", "a", "replace"),
        (two % "05", "app", "app", "a", "keep"),
        ("image 1 app a 05\nimage 2 app b 06\n", "app", "app", "a", "keep"),
        (two % "06", "app", "library/app", "a", "keep"),
        (two % "06", "app", "app", "b", "keep"),
        (two % "06", "lib", "app", "a", "replace"),
        (two % "06" + manifest("0", "{}", "text/plain"), "app", "app", "0", "keep"),
        ("image 1 app x 05\nindex 1 app i x\nindex 2 app i\n", "app", "app", "i", "keep"),
        ("image 1 app x 05\nindex 1 app i x\nindex 2 app i\n", "app", "app", "i", "replace"),
    ]
    name = "another image under the tag stays unless it is to be replaced, %d"
    return [Case(name % at, script).task(*rest) for at, (script, *rest) in enumerate(tasks, 1)]


def of_lanes():
    return [case for group in lane_cases.GROUPS for case in group(Case)]


def of_cores():
    return [case for group in core_cases.GROUPS for case in group(Case)]


def of_chance():
    """Scripts from a fixed seed."""
    chance = random.Random(20261)
    cases = []
    for at in range(1, 201):
        show = ["journal", "hooks", "tags"] if at % 8 == 0 else ["causes", "words", "rows", "tags"]
        cases.append(Case("a script from a seed, %d" % at, Maker(chance).script(), show))
    return cases


class Check(Case):
    """A check of a file `c.json`, which its text goes into."""

    def __init__(self, name, text=""):
        super().__init__(name, text, words=(b"check", b"c.json"))

    def given(self):
        return self.filed().lines + ["run"]

    def wanted(self):
        return Case.wanted(self.filed())

    def filed(self):
        return self if self.files else self.file("c.json")


def of_checks():
    return (config_cases.of_configurations(Check) + config_cases.of_fields(Check) + config_cases.of_wholes(Check)
            + config_cases.of_sizes(Check, Check) + config_cases.of_hostile(Check, Check) + config_cases.of_words(Case))


GROUPS = [
    of_scripts, of_devices, of_executions, of_tags, of_contents, of_journals, of_graphs, of_manifests, of_causes,
    of_tasks, of_lanes, of_cores, of_chance, of_checks, config_cases.of_patterns, config_cases.of_digests,
]


def main():
    cases = [case for group in GROUPS for case in group()]
    named = [case.lines[0] for case in cases if isinstance(case, Case)]
    assert len(set(named)) == len(named)
    head = "# Made by bench/cases.py."
    given = "\n\n".join([head] + ["\n".join(case.given()) for case in cases]) + "\n"
    wanted = "\n".join("\n".join(case.wanted()) for case in cases) + "\n"
    folder = os.path.join(os.path.dirname(os.path.dirname(os.path.abspath(__file__))), "crates", "hr_cases")
    files = [("stdin", given), ("stdout", wanted)]
    if sys.argv[1:] == ["--check"]:
        stale = [name for name, text in files if read(os.path.join(folder, name)) != text]
        print("cases %d, stale files: %s" % (len(cases), " ".join(stale) or "none"))
        sys.exit(1 if stale else 0)
    for name, text in files:
        with open(os.path.join(folder, name), "w", encoding="ascii") as out:
            out.write(text)
    print("cases %d, bytes %d and %d" % (len(cases), len(given), len(wanted)))


def read(path):
    try:
        with open(path, encoding="ascii") as file:
            return file.read()
    except OSError:
        return None


if __name__ == "__main__":
    main()
