"""Cases of lanes for `cases.py`: jobs that are copied one step at a time, stops between two steps,
operations that fail, tags that move, and the lines by which a script says all that.

The texts of `ROWS` are worked by hand; `of_rows` compares them with what `model.py` gives.
"""
import itertools
import random

import model
from model import IMAGE, INDEX, digest_of

E = "sha256:44136fa355b3678a1146ad16f7e8649e94fb4fc21fe77e8310c060f61caaff8a"
RUN = "trigger 1\nfinish\n"
HELLO = "image 1 library/hello v1 7b7d 7b7d\n"


def byte(word):
    """The digest of these bytes."""
    return digest_of(bytes.fromhex(word))


def image(*layers):
    """The canonical image of these layers."""
    return model.image([bytes.fromhex(layer) for layer in layers])


def index(*images):
    """The canonical index of these images."""
    return model.index([(IMAGE, made) for made in images])


def image_digest(*layers):
    return digest_of(image(*layers))


def lines(*texts):
    return "".join(text + "\n" for text in texts)


def texts(name, scripts, case, show=()):
    """A case for each of these scripts."""
    return [case("%s, %d" % (name, at), text, show) for at, text in enumerate(scripts, 1)]


# ---- rows

PAIR = index(image("01", "02"), image("01", "03"))

# One repository with one tag, an index of two images, and the first of these at the destination
# without its blobs.
INDEXED = lines(
    "image 1 app all 01 02", "image 1 app all 01 03", "manifest 1 app all %s %s" % (INDEX, PAIR.decode()),
    "orphan 2 app 01 02",
)
BEGUN = lines("trigger 1", "take")

SIXTEEN = [
    "job 1 read-tag all",
    "job 1 looked all none",
    "job 1 read-child %s" % image_digest("01", "02"),
    "job 1 has-blob %s none" % E,
    "job 1 copied %s 2" % E,
    "job 1 has-blob %s none" % byte("01"),
    "job 1 copied %s 1" % byte("01"),
    "job 1 has-blob %s none" % byte("02"),
    "job 1 copied %s 1" % byte("02"),
    "job 1 put-child %s" % image_digest("01", "02"),
    "job 1 read-child %s" % image_digest("01", "03"),
    "job 1 has-blob %s none" % byte("03"),
    "job 1 copied %s 1" % byte("03"),
    "job 1 put-child %s" % image_digest("01", "03"),
    "job 1 shown all put",
    "job 1 ended Success",
]


def chain(levels):
    """An image `v` below so many indexes, `i1` on it and the last on top."""
    below = ["v"] + ["i%d" % level for level in range(1, levels)]
    return lines("image 1 deep v 01", *("index 1 deep i%d %s" % pair for pair in enumerate(below, 1)))


def chained(levels):
    """The digests of the indexes of such a chain, the lowest first."""
    media, data, digests = IMAGE, image("01"), []
    for _ in range(levels):
        media, data = INDEX, model.index([(media, data)])
        digests.append(digest_of(data))
    return digests


CUT = '{"schemaVersion":2'
SHORT = image("01").decode().replace('"size":1}]', '"size":0}]')

# Each with its script, what is sent, and the status.
ROWS = [
    ("an image is copied to the end", HELLO + RUN + "tags 2\n",
     ["execution 1 tasks 1", "idle", "library/hello v1 " + image_digest("7b7d", "7b7d")], 0),
    ("an empty script says nothing", "", [], 0),
    ("an execution that is not finished", HELLO + "trigger 1\n", ["execution 1 tasks 1"], 7),
    ("an execution without tasks", "trigger 1\n", ["execution 1 tasks 0"], 0),
    ("no policy has the number 7", "trigger 7\n", ["no policy 7"], 0),
    ("a name with a great letter is refused", "image 1 library/Hello v1 7b7d\n", ["line 1 name"], 2),
    ("a setup line behind an event is refused", "trigger 1\nimage 1 a v\n", ["line 2 order"], 2),
    ("a number from 2 to the 32 on is refused", "step 4294967296\n", ["line 1 number"], 2),
    ("a job that ended can't be stopped", HELLO + RUN + "tags 2\nstop 1\n",
     ["execution 1 tasks 1", "idle", "library/hello v1 " + image_digest("7b7d", "7b7d"),
      "job 1 final 0 Success"], 0),
    ("an index of two images is copied in sixteen steps", INDEXED + BEGUN + "step 1\n" * 16,
     ["execution 1 tasks 1", "job 1 rev 0 begins"] + SIXTEEN, 7),
    ("an index and its two images are copied",
     lines("image 1 app a 01 02", "image 1 app b 01 03", "index 1 app all a b", "orphan 2 app 01 02")
     + RUN + "tags 2\n",
     ["execution 1 tasks 1", "idle", "app a " + image_digest("01", "02"), "app all " + digest_of(PAIR),
      "app b " + image_digest("01", "03")], 0),
    ("eight indexes above an image are copied and a ninth is not", chain(9) + RUN + "tags 2\ncause 1\n",
     ["execution 1 tasks 1", "idle"]
     + ["deep i%d %s" % pair for pair in enumerate(chained(8), 1)]
     + ["cause 1 2 deep " + image_digest("01")], 7),
    ("eight indexes above an image are copied, and no cause is told", chain(8) + RUN + "cause 1\n",
     ["execution 1 tasks 1", "idle", "no cause 1"], 0),
    ("a job is stopped between two steps",
     HELLO + BEGUN + "step 1\n" * 4 + lines("stop 1", "step 1", "word 1 0", "cause 1"),
     ["execution 1 tasks 1", "job 1 rev 0 begins", "job 1 read-tag v1", "job 1 looked v1 none",
      "job 1 has-blob %s none" % E, "job 1 copied %s 2" % E, "job 1 stopped 0", "job 1 lost Stopped",
      "word 1 0 Stopped", "no cause 1"], 7),
    ("a blob with other bytes ends its job",
     lines("image 1 app v 01", "break 1 app 01 02") + BEGUN + "step 1\n" * 6 + "cause 1\n",
     ["execution 1 tasks 1", "job 1 rev 0 begins", "job 1 read-tag v", "job 1 looked v none",
      "job 1 has-blob %s none" % E, "job 1 copied %s 2" % E, "job 1 has-blob %s none" % byte("01"),
      "job 1 ended Error differs %s %s" % (byte("01"), byte("02")),
      "cause 1 0 differs %s %s" % (byte("01"), byte("02"))], 7),
    ("a layer of another size than is said ends its job",
     lines("image 1 app v 01", "manifest 1 app w %s %s" % (IMAGE, SHORT)) + RUN + "cause 1\n",
     ["execution 1 tasks 1", "idle", "cause 1 2 size %s 0 1" % byte("01")], 7),
    ("a text that is no manifest ends its job", "manifest 1 app v %s %s\n" % (IMAGE, CUT) + RUN + "cause 1\n",
     ["execution 1 tasks 1", "idle", "cause 1 2 unreadable " + digest_of(CUT.encode())], 7),
    ("a put that fails ends its job", HELLO + "lands 0 2 3\n" + BEGUN + "step 1\n" * 4 + "cause 1\n",
     ["execution 1 tasks 1", "job 1 rev 0 begins", "job 1 read-tag v1", "job 1 looked v1 none",
      "job 1 has-blob %s none" % E, "job 1 ended Error fault 2 0 1", "cause 1 0 fault 2 0 1"], 7),
]


def of_rows(case):
    for name, script, wanted, status in ROWS:
        ending = model.replay(script.encode())
        assert (ending.text.decode(), ending.status) == (lines(*wanted), status), (name, ending.text)
    return [case("%s: a worked row" % name, script, ["hooks", "words"]) for name, script, _, _ in ROWS]


# ---- operations


def operations(script):
    """How many operations the connections to registries 1 and 2 made by the end of a script."""
    lane = model.replay(script.encode()).kept.core.lane
    return lane.source.operations, lane.dest.operations


def of_stops(case):
    """A stop between any two of the sixteen steps. The next operations are planned to fail, so that one
    behind the stop would be seen."""
    cases = []
    for done in range(17):
        made = operations(INDEXED + BEGUN + "step 1\n" * done)
        planned = lines(*("fault 0 %d %d" % (reg, count + 1) for reg, count in enumerate(made, 1)))
        stopped = case("a job that is stopped behind %d of sixteen steps does nothing more" % done,
                       INDEXED + planned + BEGUN, ["journal", "hooks", "words"])
        stopped.steps(*[1] * done).text("stop 1\n").steps(1, 1)
        cases.append(stopped.text("stop 1\nword 1 0\ncause 1\ntags 2\n"))
    return cases + texts("a job is stopped before it begins", [
        HELLO + lines("trigger 1", "stop 1", "take", "step 1", "word 1 0", "finish", "tags 2"),
        HELLO + lines("trigger 1", "stop 1", "finish", "stop 1", "cause 1"),
        lines("image 1 a v", "image 1 b v", "trigger 1", "stop 1", "take", "take", "take", "finish", "word 2 0"),
        lines("image 1 a v", "image 1 b v", "trigger 1", "stop 2", "finish", "word 1 0", "word 2 0", "tags 2"),
    ], case, ["journal", "hooks", "words"]) + texts("a stop answers by the word that it finds", [
        "stop 1\n",
        "stop 0\nstop 4294967295\n",
        HELLO + "stop 1\ntrigger 1\nstop 1\nstop 1\nstop 2\n",
        HELLO + BEGUN + "stop 1\nstop 1\nstep 1\nstop 1\n",
        HELLO + RUN + "stop 1\nstop 1\n",
        "image 1 app v 01\nbreak 1 app 01 02\n" + RUN + "stop 1\nword 1 0\ncause 1\n",
    ], case, ["hooks", "words"])


def of_faults(case):
    cases = []
    small = "image 1 app v 01\n"
    again = lines("cause 1", "trigger 1", "finish", "cause 2", "tags 2")
    for kind in ["fault", "lands"]:
        for reg, last in enumerate(operations(small + RUN), 1):
            for operation in range(1, last + 2):
                planned = small + "%s 0 %d %d\n" % (kind, reg, operation)
                failing = case("a step at a time, operation %d of registry %d fails: %s" % (operation, reg, kind),
                               planned + BEGUN)
                cases.append(failing.steps(*[1] * 9).text(again))
        for reg, last in enumerate(operations(INDEXED + RUN), 1):
            for operation in range(1, last + 1):
                planned = INDEXED + "%s 0 %d %d\n" % (kind, reg, operation)
                cases.append(case("an index, operation %d of registry %d fails: %s" % (operation, reg, kind),
                                  planned + RUN + again, ["journal"]))
    two = "image 1 a v 01\nimage 1 b v 01\n"
    other = image("01").decode().replace('"size":1}]', '"size":2}]')
    cases += texts("faults go by the numbers of operations", [
        small + "fault 0 1 1\nfault 0 1 2\n" + BEGUN + "step 1\ntrigger 1\ntake\nstep 2\nfinish\ncause 1\ncause 2\n",
        small + "fault 0 2 1\nfault 0 2 1\n" + RUN + RUN + "cause 1\ncause 2\n",
        small + "fault 0 2 3\nlands 0 2 3\n" + RUN + "cause 1\n" + RUN,
        small + "lands 0 2 3\nfault 0 2 3\n" + RUN + "cause 1\n" + RUN,
        small + "fault 0 3 1\nlands 0 8 1\n" + RUN + "cause 1\ntags 3\n",
        small + "fault 0 1 1\nfault 0 2 1\n" + RUN + "cause 1\n" + RUN + "cause 2\n" + RUN,
        small + "fault 0 1 1\nstop 1\n" + BEGUN + "stop 1\nstep 1\ntrigger 1\nfinish\ncause 2\n",
        small + "fault 0 1 4294967295\n" + RUN,
        # A copy that ends by another digest or size has begun its put, and one of a blob that is gone
        # has not: the look for the next repository's tag is the fourth operation then, or the third.
        two + "break 1 a 7b7d 7b\nfault 0 2 3\nfault 0 2 4\n" + RUN + "cause 1\ncause 2\n",
        two + "manifest 1 a v %s %s\nfault 0 2 5\nfault 0 2 6\n" % (IMAGE, other) + RUN + "cause 1\ncause 2\n",
        "manifest 1 a v %s %s\nimage 1 b v\nfault 0 2 3\n" % (IMAGE, other) + RUN + "cause 1\ncause 2\n",
        two + "fault 0 1 2\nfault 0 2 3\n" + RUN + "cause 1\ncause 2\n",
        two + "break 1 a 01 0202\nlands 0 2 5\nfault 0 2 6\n" + RUN + "cause 1\ncause 2\n",
    ], case, ["journal", "hooks", "tags"])
    return cases


def of_changes(case):
    source = lines("image 1 app v 01", "image 1 app w 02", "image 1 app x 03")
    dest = lines("image 1 app v 01", "image 2 app same 01", "image 2 app other 02", "image 2 app v 03")
    fresh = lines("image 1 app v 01", "image 2 app same 01", "image 2 app other 02")
    # The second look is operation 6 of registry 2 where no blob is copied, and operation 4 where all
    # are there; the put behind it is the next one.
    second = operations(fresh + RUN)[1] - 1
    steps = BEGUN + "step 1\n" * 9 + "tags 1\ntags 2\n"
    return texts("a tag of the source moves before an operation", [
        source + "change 0 1 1 app v w\n" + RUN + "tags 1\ntags 2\n",
        source + "change 0 1 2 app v w\n" + RUN + "tags 1\ntags 2\n",
        source + "change 0 1 1 app new v\n" + RUN + RUN + "tags 1\ntags 2\n",
        source + "change 0 1 1 app v w\nchange 0 1 1 app v x\nchange 0 1 2 app w v\n" + RUN + "tags 1\ntags 2\n",
        source + "change 0 1 1 app v w\nfault 0 1 1\n" + RUN + "tags 1\n" + RUN + "tags 2\n",
        source + "change 0 1 4 app v w\n" + RUN + RUN + "tags 2\n",
        source + "change 0 1 1 app v w\nimage 1 app w 04\n" + RUN + "tags 1\n",
        "image 1 lib v 05\n" + source + "change 0 1 1 lib v v\nchange 0 1 9 lib u v\n" + RUN + "tags 1\n",
        source + "change 0 1 1 app v w\n" + "trigger 1\ntags 1\ntake\ntags 1\nstep 1\ntags 1\n",
        source + "image 3 app a\nimage 3 app b 01\nchange 0 3 1 app a b\n" + RUN + "tags 3\n",
    ], case, ["journal"]) + texts("a tag of the destination moves before the first look", [
        fresh + "change 0 2 1 app v same\n" + steps,
        fresh + "change 0 2 1 app v other\n" + steps,
        dest + "change 0 2 1 app v same\n" + steps,
        dest + "change 0 2 1 app v other\n" + steps,
        fresh + "change 0 2 1 app v same\nchange 0 2 1 app v other\n" + steps,
        fresh + "change 0 2 1 app v same\nfault 0 2 1\n" + steps,
    ], case, ["journal"]) + texts("a tag of the destination moves before the second look", [
        fresh + "change 0 2 %d app v same\n" % second + steps,
        fresh + "change 0 2 %d app v other\n" % second + steps,
        dest + "change 0 2 %d app v same\n" % second + steps,
        dest + "change 0 2 %d app v other\n" % second + steps,
        fresh + "change 0 2 %d app v same\nfault 0 2 %d\n" % (second, second) + steps,
        fresh + "change 0 2 1 app v other\nchange 0 2 %d app v same\n" % second + steps,
    ], case, ["journal"]) + texts("a tag of the destination moves before another operation", [
        fresh + "change 0 2 %d app v other\n" % (second + 1) + steps,
        fresh + "change 0 2 %d app v other\nfault 0 2 %d\n" % (second + 1, second + 1) + steps,
        fresh + "change 0 2 %d app v other\nlands 0 2 %d\n" % (second + 1, second + 1) + steps,
        fresh + "change 0 2 2 app v same\n" + steps,
        "image 1 app v 01\nimage 2 lib a\nimage 2 lib b 02\nchange 0 2 3 lib a b\n" + steps,
        "image 1 app v 01\nimage 2 lib a\nimage 2 lib b 02\nchange 0 2 3 lib a b\nfault 0 2 3\n" + steps,
    ], case, ["journal"])


def of_breaks(case):
    image_line = "image 1 app v 01\n"
    there = image_line + "image 2 app z 01\n"
    events = RUN + "cause 1\ntags 2\n"
    cases = texts("a source has other bytes under a digest", [
        image_line + "break 1 app 01 02\n" + events,
        image_line + "break 1 app 01 0101\n" + events,
        image_line + "break 1 app 7b7d 01\n" + events,
        image_line + "break 1 app 01 01\n" + events,
        image_line + "break 1 app 01 02\nimage 1 app w 01\n" + events,
        image_line + "break 1 app 01 02\nbreak 1 app 01 01\n" + events,
        image_line + "break 1 app 02 01\nbreak 1 lib 01 02\nbreak 3 app 01 02\n" + events,
        "break 1 app 01 02\n" + image_line + events,
        "break 1 app 01 02\n" + events + "tags 1\n",
        "orphan 1 app 01\nimage 1 app v\nbreak 1 app 01 01\n" + events,
    ], case, ["journal"])
    cases += texts("a destination has other bytes under a digest", [
        there + "break 2 app 01 02\n" + events,
        there + "break 2 app 01 0202\n" + events,
        there + "break 2 app 7b7d 01\n" + events,
        image_line + "break 2 app 01 02\n" + events,
        image_line + "break 2 lib 01 02\n" + events,
        there + "break 1 app 01 02\n" + events,
        there + "break 1 app 01 02\nbreak 2 app 01 03\n" + events,
    ], case, ["journal", "content"])
    return cases


# ---- jobs side by side


def interleavings(counts):
    """All orders in which jobs from 1 on make so many steps each."""
    if not any(counts):
        yield ()
    for at, count in enumerate(counts):
        if count:
            left = counts[:at] + [count - 1] + counts[at + 1:]
            yield from ((at + 1,) + order for order in interleavings(left))


def side_by_side(name, script, counts, case, chosen=None):
    """A case for each of these orders, or for some of them that are chosen by chance."""
    found = list(interleavings(counts))
    if chosen is not None:
        found = found[:1] + sorted(random.Random(7).sample(found[1:-1], chosen - 2)) + found[-1:]
    cases = []
    for order in found:
        made = case("%s: %s" % (name, "".join(map(str, order))), script)
        cases.append(made.steps(*order).text("tags 2\n"))
    return cases


def of_jobs(case):
    both = "trigger 1\ntake\ntake\n"
    cases = side_by_side("two repositories, side by side", "index 1 a v\nindex 1 b v\n" + both, [4, 4], case)
    cases += side_by_side("one repository twice, side by side",
                          "index 1 a v\ntrigger 1\ntrigger 1\ntake\ntake\n", [4, 4], case)
    cases += side_by_side("one tag twice that is to be replaced, side by side",
                          "image 1 a v\nimage 2 a v 01\ntrigger 1\ntrigger 1\ntake\ntake\n", [6, 6], case, 40)
    cases += side_by_side("two images with a layer in common, side by side",
                          "image 1 a v 01\nimage 1 b v 01\n" + both, [8, 8], case, 40)
    cases += side_by_side("three jobs, side by side",
                          "index 1 a v\nindex 1 b v\nindex 1 c v\ntrigger 1\ntake\ntake\ntake\n", [4, 4, 4],
                          case, 40)
    moved = "image 1 a v 01\nimage 1 a w 02\nchange 0 1 2 a v w\n"
    two = "image 1 a v 01\nimage 1 b v\n"
    cases += texts("a job is stepped while another is held", [
        moved + "trigger 1\ntrigger 1\ntake\ntake\nstep 1\nstep 2\nfinish\ntags 1\n" + "step 1\nstep 2\n" * 14
        + "tags 2\n",
        two + both + "step 2\nfinish\nstep 2\nstep 1\nstop 1\nstep 2\nstep 1\nstep 2\nword 1 0\nword 2 0\ntags 2\n",
        two + "trigger 1\ntake\nstep 1\nfinish\nword 1 0\nword 2 0\ntags 2\nstep 1\ntake\nstep 1\n",
        two + "trigger 1\ntake\nfinish\n" + "step 1\n" * 8 + "finish\ntags 2\n",
        two + "fault 0 2 2\n" + both + "step 1\nstep 2\nstep 1\nstep 2\nstep 1\nstep 2\ncause 1\ncause 2\nfinish\n",
        two + both + "stop 1\nstop 2\nstep 2\nstep 1\nstep 1\ntrigger 1\nfinish\nword 3 0\nword 4 0\ntags 2\n",
        two + both + "take\nstep 3\nstep 2\n",
    ], case, ["journal", "hooks", "words", "tags"])
    cases += texts("an answer says that there is nothing to do", [
        "take\n",
        "take\nstep 1\nstep 0\nstep 4294967295\nword 1 0\nword 0 0\ncause 1\ncause 0\n",
        HELLO + "take\n" + BEGUN + "take\nstep 1\ntake\nfinish\ntake\nstep 2\n",
        HELLO + "step 1\ntrigger 1\nstep 1\nfinish\nstep 1\n",
        HELLO + "trigger 1\n" + "word 1 0\nword 1 1\nword 1 2\nword 1 3\nword 2 0\nword 2 3\ntake\nword 1 0\nword 1 1\n"
        + "finish\nstop 1\nword 1 0\nword 1 1\n",
        HELLO + RUN + "word 1 0\nword 1 1\ncause 1\ncause 2\nstep 1\n",
        "finish\nfinish\ntake\n",
    ], case, ["hooks", "words"])
    for count in [8192, 8193]:
        made = case("the words of many jobs, two executions of %d" % count).each(0, count, "image 1 r* v\n")
        made.text(lines("trigger 1", "trigger 1", "trigger 7", "word 8192 0", "word 8193 0", "word 16384 0",
                        "word 16385 0", "stop 16384", "stop 16385", "stop 1", "take", "take", "step 2", "step 1"))
        cases.append(made)
    return cases


# ---- causes


def of_told_causes(case):
    child = digest_of(image("09"))
    gone = '{"schemaVersion":2,"manifests":[{"mediaType":"%s","digest":"%s","size":%d}]}' % (
        IMAGE, child, len(image("09")))
    events = BEGUN + "step 1\n" * 4 + "finish\ncause 1\nword 1 0\n"
    cases = texts("a cause is told by the step and again later", [
        "manifest 1 app v %s %s\n" % (INDEX, gone) + events,
        "manifest 1 app v %s %s\n" % (IMAGE, image("01").decode()) + events,
        "image 1 app z\nmanifest 1 app v %s %s\n" % (IMAGE, image("01").decode()) + RUN + "cause 1\n",
        "manifest 1 app v text/plain %s\n" % image("01").decode() + events,
        "manifest 1 app v %s {}\n" % INDEX + events,
        "manifest 1 app w text/plain {}\nindex 1 app v w\n" + events,
        "image 1 app v\nfault 0 1 1\n" + events,
        "image 1 app v\nfault 0 2 1\n" + events,
        "image 1 app w 01\nimage 2 app w 01\nbreak 2 app 7b7d 01\n" + events,
        "image 1 app w 01\nbreak 1 app 7b7d 01\n" + events,
    ], case, ["journal", "hooks", "words"])
    for count, name in [(4097, "many"), (30000, "long")]:
        made = case("the cause is that something is too %s" % name, "image 1 app v 01\nindex 1 app a")
        cases.append(made.each(0, count, " v").text("\n" + events))
    deep = chain(9).replace(" i9 ", " a ")
    cases += texts("the cause is that a manifest is too deep", [
        deep + BEGUN + "step 1\n" * 11 + "cause 1\n",
        # What stands before the manifest that is too deep is copied first.
        deep + "image 1 deep b 02\nindex 1 deep a b a\n" + BEGUN + "step 1\n" * 18 + "cause 1\n",
    ], case, ["journal"])
    return cases


# ---- refusals


def of_refused_lines(case):
    image_line = "image 1 a v\n"
    jobs = [word + rest for word in ["step", "stop", "cause"] for rest in
            ["", " 1 2", " x", " 01", " -1", " +1", " ", " 4294967296", " 99999999999999999999", " 1 "]]
    words = ["word", "word 1", "word 1 0 0", "word x 0", "word 4294967296 0", "word 1 4", "word 1 00", "word 1 x",
             "word 1 -1", "word x 4", "word 01 0"]
    breaks = ["break", "break 1 a 01", "break 1 a 01 02 03", "break 0 a 01 02", "break 9 a 01 02", "break x A 0 0",
              "break 1 A 01 02", "break 1 A 0 0", "break 1 a 0 02", "break 1 a  02", "break 1 a 0G 02", "break 1 a 0A 02",
              "break 1 a 01 0", "break 1 a 01 ", "break 1 a 01 0g", "break 1 a 01 02 "]
    faults = [word + rest for word in ["fault", "lands"] for rest in
              [" 0 1", " 0 1 1 1", " x 1 1", " 1 1 1", " 2 9 0", " 64 1 1", " 4294967295 x x", " 4294967296 1 1",
               " 00 1 1", " -1 1 1", " 0 0 1", " 0 9 1", " 0 x 0", " 0 1 0", " 0 1 x", " 0 1 01", " 0 1 4294967296",
               " 1 1", " 1"]]
    changes = ["change 0 1 1 a v", "change 0 1 1 a v v v", "change x 1 1 a v v", "change 1 9 0 A -v -v",
               "change 4294967296 1 1 a v v", "change 0 9 1 a v v", "change 0 1 0 a v v", "change 0 1 1 A v v",
               "change 0 1 1 a -v v", "change 0 1 1 a v -v", "change 0 1 1 a -v x", "change 0 1 1 a v w",
               "change 0 1 1 b v v", "change 0 2 1 a v v", "change 0 1 1 a w x", "change 0 1 0 A -v w", "change 0 1"]
    cases = texts("a line of lanes that is bad is refused", [
        image_line + line + "\n" for line in jobs + words + breaks + faults + changes
        + ["take 1", "take ", "steps 1", "Step 1", "tak", "takes", "faults 0 1 1", " take", "take\t"]
    ], case)
    cases += texts("a setup line behind an event is bad by its order", [
        event + "\n" + line + "\n"
        for event, line in itertools.product(["take", "step 1", "word 1 0"], ["break", "fault 1 1", "lands 0 1 1", "change"])
    ], case)
    cases += texts("a line of the language that is not built yet is refused", [
        before + word + after + "\n" for word, after in zip(model.LATER, itertools.cycle(["", " 1", " 1 2 x"]))
        for before in ["", "take\n"]
    ], case)
    cases += texts("the first bad line of lanes counts", [
        "image 1 a v\nchange 0 1 1 a v w\nimages\n",
        "image 1 a v\nchange 0 1 1 a x v\nchange 0 1 1 a y x\n",
        "orphan 1 a 01\nchange 0 1 1 a x v\n",
        "change 0 1 1 a x v\nimage 1 a v\n",
        "image 1 a v\nfault 0 1 1\nfault 1 1 1\nfault 0 1 0\n",
        "step 1\nstep 2\nstep x\ntake 1\n",
        "take\nfinish\nword 1 4\nimage 1 a v\n",
    ], case, ["content", "journal", "hooks", "words"])
    return cases


GROUPS = [of_rows, of_stops, of_faults, of_changes, of_breaks, of_jobs, of_told_causes, of_refused_lines]
