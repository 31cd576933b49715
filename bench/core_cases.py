"""Cases of the core for `cases.py`: turns that are tried again, settled and stopped, hooks in any order,
rows and counters, executions that are swept, and the lines by which a script says all that.

The texts of `ROWS` are worked by hand; `of_rows` compares them with what `model.py` gives. What holds
between any two events is checked for every case by `core_check.py`.
"""
import itertools
import random

import model
from lane_cases import BEGUN, E, HELLO, INDEXED, RUN, byte, image_digest, lines, texts

SMALL = "image 1 library/hello v1 7b7d\n"
MADE = "execution 1 tasks 1"
BEGINS = "job 1 rev 0 begins"


def failing(*operations):
    """Setup lines by which these operations of the source fail."""
    return lines(*("fault 0 1 %d" % operation for operation in operations))


def tally(execution, status, succeed=0, failed=0, in_progress=0, stopped=0):
    """The answer to `exec`."""
    total = succeed + failed + in_progress + stopped
    counts = (execution, status, total, succeed, failed, in_progress, stopped)
    return "execution %d %s total %d succeed %d failed %d in_progress %d stopped %d" % counts


# ---- rows

HELLO_TAG = "library/hello v1 " + image_digest("7b7d", "7b7d")
FOUR_STEPS = ["job 1 read-tag v1", "job 1 looked v1 none", "job 1 has-blob %s none" % E, "job 1 copied %s 2" % E]
TWICE = SMALL + failing(1, 2) + BEGUN + lines(
    "step 1", "settle 1", "wait 10", "take", "step 1", "settle 1", "wait 20", "take")
TWICE_TOLD = [
    MADE, BEGINS, "job 1 ended Error fault 1 0 1", "job 1 again 10", "now 10", "job 1 rev 1 begins",
    "job 1 ended Error fault 1 1 2", "job 1 again 30", "now 30", "job 1 rev 2 begins",
]
ONCE = SMALL + failing(1) + BEGUN + "step 1\n"
ONCE_TOLD = [MADE, BEGINS, "job 1 ended Error fault 1 0 1"]

# Each with its script, what is sent, and the status.
ROWS = [
    ("an image is copied and its tag named", HELLO + RUN + "tags 2\n", [MADE, "idle", HELLO_TAG], 0),
    ("a job is stopped, stepped and settled",
     HELLO + BEGUN + "step 1\n" * 4 + lines("stop 1", "step 1", "settle 1", "finish", "tags 2", "row 1"),
     [MADE, BEGINS] + FOUR_STEPS
     + ["job 1 stopped 0", "job 1 lost Stopped", "job 1 done Stopped", "idle", "row 1 0 Stopped"], 7),
    ("a job that succeeded can't be stopped", HELLO + RUN + "tags 2\nstop 1\n",
     [MADE, "idle", HELLO_TAG, "job 1 final 0 Success"], 0),
    ("a stop between two steps", HELLO + BEGUN + "step 1\n" * 4 + lines("stop 1", "step 1", "word 1 0", "cause 1"),
     [MADE, BEGINS] + FOUR_STEPS + ["job 1 stopped 0", "job 1 lost Stopped", "word 1 0 Stopped", "no cause 1"], 7),
    ("a turn is out, settled, delayed and taken again",
     SMALL + failing(1) + lines("trigger 1", "take", "step 1", "take", "settle 1", "settle 1", "take", "wait 10", "take",
                                "word 1 0", "word 1 1"),
     ONCE_TOLD + ["busy 1", "job 1 again 10", "job 1 not out", "later 10", "now 10", "job 1 rev 1 begins",
                  "word 1 0 Error", "word 1 1 Running"], 7),
    ("counters follow the rows",
     SMALL + failing(1) + lines(
         "trigger 1", "take", "step 1", "deliver 1", "deliver 2", "exec 1", "settle 1", "take", "wait 10", "take",
         "deliver 3", "exec 1", "finish", "deliver 2", "exec 1"),
     ONCE_TOLD + ["hook 1 raised", "hook 2 raised", tally(1, "Failed", failed=1), "job 1 again 10", "later 10", "now 10",
                  "job 1 rev 1 begins", "hook 3 raised", tally(1, "InProgress", in_progress=1), "idle", "hook 2 known",
                  tally(1, "Succeed", succeed=1)], 0),
    ("the newest hook comes first", TWICE + lines("deliver 5", "deliver 2", "deliver 2", "deliver 1", "deliver 5", "row 1"),
     TWICE_TOLD + ["hook 5 raised", "hook 2 known", "hook 2 known", "hook 1 known", "hook 5 known", "row 1 2 Running"], 7),
    ("the oldest hook comes first", TWICE + lines("deliver 1", "deliver 2", "deliver 5", "row 1"),
     TWICE_TOLD + ["hook 1 raised", "hook 2 raised", "hook 5 raised", "row 1 2 Running"], 7),
    ("a stop comes before a turn is settled", ONCE + lines("stop 1", "settle 1", "finish", "row 1"),
     ONCE_TOLD + ["job 1 stopped 1", "job 1 done Stopped", "idle", "row 1 1 Stopped"], 7),
    ("a stop comes behind a turn that was settled", ONCE + lines("settle 1", "stop 1", "finish", "row 1"),
     ONCE_TOLD + ["job 1 again 10", "job 1 stopped 1", "idle", "row 1 1 Stopped"], 7),
    ("a job fails three times", SMALL + failing(1, 2, 3) + RUN + lines("row 1", "word 1 3"),
     [MADE, "idle", "row 1 2 Error", "word 1 3 Unopened"], 7),
    ("a fault that lands, and the blob is found", HELLO + "lands 0 2 3\n" + BEGUN + "step 1\n" * 4
     + lines("settle 1", "finish", "tags 2", "cause 1"),
     [MADE, BEGINS] + FOUR_STEPS[:3] + ["job 1 ended Error fault 2 0 1", "job 1 again 10", "idle", HELLO_TAG,
                                        "cause 1 0 fault 2 0 1"], 0),
    ("there is no room for two jobs", "jobs 1\nimage 1 a v\nimage 1 b v\ntrigger 1\n", ["full 1"], 0),
    ("one of 51 executions is swept", SMALL + RUN * 51 + lines("sweep 50", "deliver 1", "exec 1"),
     [line for number in range(1, 52) for line in ("execution %d tasks 1" % number, "idle")]
     + ["swept 1", "hook 1 swept", "no execution 1"], 0),
    ("an execution without tasks succeeded", lines("trigger 1", "exec 1"), ["execution 1 tasks 0", tally(1, "Succeed")], 0),
    ("forged hooks are not taken", SMALL + lines("trigger 1", "forge 1 0 Success", "forge 9 0 Running", "row 1"),
     [MADE, "hook 0 unconfirmed Pending", "hook 0 unknown", "row 1 0 Pending"], 7),
    ("a word of a swept job", SMALL + RUN + lines("sweep 0", "word 1 0", "stop 1", "row 1", "exec 1", "cause 1"),
     [MADE, "idle", "swept 1", "no job 1", "no job 1", "no row 1", "no execution 1", "no cause 1"], 0),
    ("a job that is gone at the source is tried three times",
     "manifest 1 app v %s %s\n" % (model.IMAGE, model.image([b"\x01"]).decode()) + RUN + lines("cause 1", "row 1", "wait 0"),
     [MADE, "idle", "cause 1 2 gone %s" % E, "row 1 2 Error", "now 30"], 7),
    ("a blob with other bytes is tried three times", lines("image 1 app v 01", "break 1 app 01 02") + RUN + "cause 1\n",
     [MADE, "idle", "cause 1 2 differs %s %s" % (byte("01"), byte("02"))], 7),
    ("two jobs that are delayed to one moment come by number",
     lines("image 1 a v", "image 1 b v") + failing(1, 2) + lines(
         "trigger 1", "take", "take", "step 2", "step 1", "settle 2", "settle 1", "take", "wait 10", "take", "take", "take"),
     ["execution 1 tasks 2", "job 1 rev 0 begins", "job 2 rev 0 begins", "job 2 ended Error fault 1 0 1",
      "job 1 ended Error fault 1 1 2", "job 2 again 10", "job 1 again 10", "later 10", "now 10", "job 1 rev 1 begins",
      "job 2 rev 1 begins", "busy 2"], 7),
    ("a job is settled while it is held", SMALL + BEGUN + lines("settle 1", "step 1", "settle 1", "settle 2"),
     [MADE, BEGINS, "job 1 busy", "job 1 read-tag v1", "job 1 busy", "job 2 not out"], 7),
    ("nothing is there", lines("take", "settle 1", "stop 1", "deliver 1", "forge 1 0 Running", "sweep 0", "wait 0", "row 1",
                               "exec 1", "word 1 0", "cause 1", "step 1", "finish"),
     ["idle", "job 1 not out", "no job 1", "no hook 1", "hook 0 unknown", "swept 0", "now 0", "no row 1",
      "no execution 1", "no job 1", "no cause 1", "job 1 not here", "idle"], 0),
    ("a status of a hook has a name", "forge 1 0 Unopened\n", ["line 1 policy"], 2),
    ("a jobs line behind an event is refused", "take\njobs 1\n", ["line 2 order"], 2),
    ("a wait of more than a thousand million seconds is refused", "wait 1000000001\n", ["line 1 number"], 2),
]


def of_rows(case):
    for name, script, wanted, status in ROWS:
        ending = model.replay(script.encode())
        assert (ending.text.decode(), ending.status) == (lines(*wanted), status), (name, ending.text)
    return [case("%s: a row of the core" % name, script, ["hooks", "words", "rows"]) for name, script, _, _ in ROWS]


# ---- turns that are tried again

ASK = lines("row 1", "exec 1", "cause 1", "word 1 0", "word 1 1", "word 1 2", "word 1 3", "wait 0")
SHOWN = ["journal", "hooks", "words", "rows"]


def again(wait, steps):
    """A job that failed is settled, waits, and is taken again for so many steps."""
    return lines("settle 1", "take", "wait %d" % (wait - 1), "take", "wait 1", "take") + "step 1\n" * steps


def operations(script):
    """How many operations the connections to registries 1 and 2 made by the end of a script."""
    lane = model.replay(script.encode()).kept.core.lane
    return lane.source.operations, lane.dest.operations


def of_retries(case):
    image = "image 1 app v 01\n"
    cases = texts("a job fails so many times", [SMALL + failing(*range(1, count)) + RUN + ASK for count in range(1, 6)],
                  case, SHOWN)
    cases += texts("a job fails so many times, a step at a time", [
        SMALL + failing(*range(1, count)) + BEGUN + "step 1\n" + again(10, 1) + again(20, 1) + again(40, 1) + "finish\n" + ASK
        for count in range(1, 6)
    ], case, SHOWN)
    # The steps of the second revision show what the first one left at the destination.
    for kind in ["fault", "lands"]:
        for registry, last in enumerate(operations(image + RUN), 1):
            for operation in range(1, last + 1):
                made = image + "%s 0 %d %d\n" % (kind, registry, operation) + BEGUN
                tried = case("operation %d of registry %d fails and the job is tried again: %s" % (operation, registry, kind),
                             made)
                cases.append(tried.steps(*[1] * 8).text(again(10, 8) + "settle 1\ntags 2\nfinish\n" + ASK))
    cases += texts("a job ends with the cause of its last revision", [
        image + "break 1 app 01 02\n" + failing(1) + RUN + ASK,
        image + "break 1 app 01 02\n" + failing(1, 2) + RUN + ASK,
        image + "manifest 1 app w text/plain {}\n" + RUN + ASK + "tags 2\n",
        image + "manifest 1 app w %s %s\n" % (model.IMAGE, model.image([b"\x09"]).decode()) + failing(5) + RUN + ASK,
        image + "fault 0 2 1\nfault 0 1 2\nfault 0 1 4\n" + RUN + ASK,
    ], case, SHOWN)
    cases += texts("a revision finds what another one left", [
        image + "image 1 app w 02\nfault 0 1 4\n" + RUN + ASK + "tags 2\n",
        image + "image 1 app w 02\nlands 0 2 6\n" + RUN + ASK + "tags 2\n",
        image + "image 1 app w 02\nfault 0 2 3\nfault 0 2 6\n" + RUN + ASK + "tags 2\n",
        image + "image 1 app w 02\nfault 0 1 2\nchange 0 1 3 app v w\n" + RUN + ASK + "tags 1\ntags 2\n",
        INDEXED + "lands 0 2 5\nlands 0 2 9\n" + RUN + ASK + "tags 2\n",
        INDEXED + "fault 0 2 6\nfault 0 2 12\nfault 0 2 18\n" + RUN + ASK + "tags 2\n",
    ], case, SHOWN)
    return cases


# ---- stops

# Each leads job 1 to one of its states; the first two operations of the source fail, or all of them.
STATES = [
    ("that waits", [1, 2], lines("trigger 1")),
    ("that is held", [1, 2], BEGUN),
    ("that did a step", [], BEGUN + "step 1\n"),
    ("that failed", [1, 2], BEGUN + "step 1\n"),
    ("that is delayed", [1, 2], BEGUN + "step 1\nsettle 1\n"),
    ("that is due again", [1, 2], BEGUN + "step 1\nsettle 1\nwait 10\n"),
    ("that is held again", [1, 2], BEGUN + "step 1\nsettle 1\nwait 10\ntake\n"),
    ("that failed again", [1, 2], BEGUN + "step 1\nsettle 1\nwait 10\ntake\nstep 1\n"),
    ("that is delayed again", [1, 2], BEGUN + "step 1\nsettle 1\nwait 10\ntake\nstep 1\nsettle 1\n"),
    ("that failed for the last time", [1, 2, 3],
     BEGUN + "step 1\nsettle 1\nwait 10\ntake\nstep 1\nsettle 1\nwait 20\ntake\nstep 1\n"),
    ("that is over with an error", [1, 2, 3], RUN),
    ("that succeeded", [], BEGUN + "step 1\n" * 6),
    ("that is over with success", [1, 2], RUN),
    ("that was stopped", [1, 2], lines("trigger 1", "stop 1")),
    ("that was stopped and given up", [1, 2], BEGUN + "stop 1\nstep 1\n"),
]

BEHIND = [
    lines("take", "step 1", "settle 1", "take"),
    lines("settle 1", "take", "step 1", "settle 1"),
    lines("step 1", "settle 1", "wait 20", "take", "settle 1"),
]


def of_stops(case):
    cases = []
    for state, faults, events in STATES:
        named = "a job %s is stopped" % state
        cases += texts(named, [SMALL + failing(*faults) + events + "stop 1\n" + behind + "stop 1\nexec 1\nfinish\n" + ASK
                               for behind in BEHIND], case, SHOWN)
    return cases + texts("one of two jobs is stopped", [
        lines("image 1 a v", "image 1 b v") + failing(1) + events + "exec 1\nfinish\nrow 1\nrow 2\nexec 1\n" for events in [
            BEGUN + lines("step 1", "stop 2", "settle 1", "stop 1", "take", "take"),
            BEGUN + lines("take", "step 1", "stop 1", "step 2", "stop 2", "settle 2", "settle 1", "take"),
            BEGUN + lines("step 1", "settle 1", "stop 1", "take", "wait 10", "take", "settle 1", "settle 2"),
            lines("trigger 1", "stop 1", "stop 2", "take", "take", "take", "settle 2", "settle 1", "take"),
        ]
    ], case, SHOWN)


# ---- turns


def of_turns(case):
    two, three = lines("image 1 a v", "image 1 b v"), lines("image 1 a v", "image 1 b v", "image 1 c v")
    cases = texts("take gives what is due, then what waits", [
        "take\nfinish\ntake\n",
        SMALL + "take\ntrigger 1\ntake\ntake\nstep 1\ntake\nfinish\ntake\n",
        two + failing(1) + BEGUN + lines("step 1", "settle 1", "take", "take", "step 2", "take", "wait 10", "take", "take"),
        two + failing(1) + BEGUN + lines("step 1", "settle 1", "wait 10", "take", "take", "take"),
        two + failing(1) + BEGUN + lines("step 1", "settle 1", "wait 9", "take", "take", "wait 1", "take"),
        two + failing(1) + BEGUN + lines("step 1", "settle 1", "trigger 1", "wait 11", "take", "take", "take", "take", "take"),
        two + failing(1, 2) + BEGUN + lines("take", "step 2", "step 1", "settle 2", "wait 1", "settle 1", "take", "wait 9",
                                            "take", "take", "wait 1", "take", "take"),
        two + failing(1, 2) + BEGUN + lines("take", "step 1", "step 2", "settle 1", "wait 1", "settle 2", "wait 100", "take",
                                            "take"),
        three + failing(1, 2, 3) + BEGUN + lines("take", "take", "step 3", "step 1", "step 2", "settle 3", "settle 1",
                                                 "settle 2", "take", "wait 10", "take", "take", "take", "take"),
        # The second revision of job 1 and the first of job 2 come to one moment.
        two + failing(1, 2, 3) + BEGUN + lines("take", "step 1", "settle 1", "wait 10", "take", "step 1", "settle 1",
                                               "wait 10", "step 2", "settle 2", "take", "wait 10", "take", "take", "take"),
    ], case, SHOWN)
    cases += texts("settle takes back what is out", [
        "settle 0\nsettle 1\nsettle 4294967295\n",
        SMALL + lines("trigger 1", "settle 1", "take", "settle 1", "settle 2", "finish", "settle 1"),
        SMALL + BEGUN + "step 1\nsettle 1\n" * 6 + "settle 1\ntake\n",
        SMALL + lines("trigger 1", "stop 1", "take", "settle 1", "settle 1", "take"),
        SMALL + failing(1, 2, 3) + BEGUN + lines("step 1", "settle 1", "settle 1", "wait 10", "take", "settle 1", "step 1",
                                                 "settle 1", "wait 20", "settle 1", "take", "step 1", "settle 1", "settle 1"),
        two + BEGUN + lines("take", "settle 2", "settle 1") + "step 2\n" * 6 + lines("settle 2", "settle 1", "take"),
    ], case, SHOWN)
    cases += texts("finish runs what is out and what is delayed", [
        two + BEGUN + lines("take", "step 2", "finish", "exec 1", "take", "step 1"),
        two + failing(1) + BEGUN + lines("step 1", "finish", "wait 0", "exec 1"),
        two + failing(1, 2) + BEGUN + lines("take", "step 2", "step 1", "settle 2", "finish", "wait 0", "exec 1"),
        two + failing(1) + BEGUN + lines("take", "step 1", "stop 1", "stop 2", "finish", "wait 0", "exec 1"),
        two + failing(1) + BEGUN + lines("step 1", "settle 1", "stop 1", "finish", "wait 0", "exec 1", "stop 1"),
        two + lines("trigger 1", "stop 2", "take", "finish", "exec 1", "finish", "wait 0"),
        two + failing(1, 2, 3, 4, 5) + RUN + lines("exec 1", "wait 0") + RUN + "exec 2\nwait 0\n",
        two + failing(1, 2, 3, 4, 5, 6) + RUN + lines("exec 1", "wait 0", "trigger 1", "finish", "exec 2", "wait 0"),
        two + failing(2, 4) + "wait 5\n" + RUN + lines("wait 0", "exec 1"),
        # What is held waits for what is delayed, and the delayed turn of another job comes first.
        three + failing(1, 3) + BEGUN + lines("step 1", "settle 1", "take", "finish", "wait 0", "exec 1"),
    ], case, SHOWN)
    return cases


# ---- moments


def of_moments(case):
    cases = texts("seconds pass", [
        "wait 0\nwait 1\nwait 0\nwait 1000000000\nwait 1000000000\n",
        SMALL + failing(1) + "wait 7\n" + BEGUN + lines("step 1", "wait 0", "settle 1", "wait 0", "take", "wait 9", "take",
                                                       "wait 1", "take"),
    ], case)
    behind = [
        lines("wait 1", "wait 0", "wait 1000000000"),
        BEGUN + lines("step 1", "settle 1", "take", "step 1", "settle 1", "take"),
        RUN + lines("row 1", "wait 0"),
    ]
    for at, events in enumerate(behind, 1):
        made = case("nothing passes behind the last moment, %d" % at, SMALL + failing(1, 2))
        cases.append(made.each(0, 253, "wait 1000000000\n").text(events))
    # Five seconds before the last moment, with two jobs: both are delayed to the last one.
    two = lines("image 1 a v", "image 1 b v") + failing(1, 2, 3)
    behind = [
        BEGUN + lines("take", "step 2", "step 1", "settle 2", "wait 3", "settle 1", "take", "wait 1", "take", "wait 1", "take",
                      "take", "step 2", "settle 2", "take"),
        BEGUN + lines("step 1", "settle 1", "take", "finish", "wait 0"),
        RUN + lines("exec 1", "wait 0"),
    ]
    for at, events in enumerate(behind, 1):
        made = case("jobs are delayed to the last moment at the latest, %d" % at, two)
        cases.append(made.each(0, 252, "wait 1000000000\n").text("wait 999999995\n" + events))
    return cases


# ---- hooks


def five_hooks(jobs):
    """A script by which each of so many jobs has five hooks, and those of each job by number."""
    script = "".join("image 1 r%02d v\n" % at for at in range(jobs)) + failing(*range(1, 2 * jobs + 1)) + "trigger 1\n"
    every = range(1, jobs + 1)
    for wait in [10, 20]:
        script += "take\n" * jobs + lines(*("step %d" % job for job in every), *("settle %d" % job for job in every))
        script += "wait %d\n" % wait
    return script + "take\n" * jobs, [[job + jobs * part for part in range(5)] for job in every]


def of_orders(case):
    """Every order of five hooks of one job, each of which comes twice."""
    orders, cases, count = list(itertools.permutations(range(5))), [], 12
    script, hooks = five_hooks(count)
    for first in range(0, len(orders), count):
        made = case("the hooks of a job come in orders %d to %d" % (first + 1, first + count), script, ["rows"])
        for job, order in enumerate(orders[first:first + count], 1):
            once = [hooks[job - 1][at] for at in order]
            twice = once + once if job % 2 else [hook for hook in once for _ in range(2)]
            made.text(lines(*("deliver %d" % hook for hook in twice), "row %d" % job, "exec 1"))
        cases.append(made)
    return cases


STATUSES = ["Pending", "Scheduled", "Running", "Stopped", "Error", "Success"]


def of_hooks(case):
    cases = []
    forged = ["forge 1 %d %s" % pair for pair in itertools.product(range(4), STATUSES)]
    for state, faults, events in STATES:
        for order, listed in [("", forged), (", the last one first", forged[::-1])]:
            cases.append(case("all hooks of a job %s are forged%s" % (state, order),
                              SMALL + failing(*faults) + events + lines(*listed, "row 1", "exec 1", "finish", "row 1", "exec 1"),
                              ["hooks", "rows"]))
    failed = SMALL + failing(1) + BEGUN + lines("step 1", "settle 1")
    cases += texts("a hook is delivered, also again", [
        "deliver 0\ndeliver 1\ndeliver 4294967295\n",
        SMALL + lines("trigger 1", "deliver 1", "take", "deliver 1", "deliver 1", "deliver 2", "deliver 0", "row 1"),
        failed + lines("deliver 2", "deliver 1", "row 1", "exec 1", "deliver 3", "stop 1", "deliver 3", "row 1", "exec 1"),
        failed + lines("deliver 1", "row 1", "finish", "row 1", "deliver 2", "deliver 3", "deliver 4", "deliver 5"),
        failed + lines("wait 10", "take", "deliver 3", "deliver 2", "deliver 1", "row 1", "exec 1", "finish", "exec 1"),
        SMALL + RUN + lines("deliver 1", "deliver 2", "deliver 3", "row 1") + RUN + lines("deliver 3", "deliver 4", "row 2"),
        SMALL + BEGUN + lines("stop 1", "deliver 2", "deliver 1", "row 1", "exec 1", "step 1", "settle 1", "exec 1"),
        SMALL + lines("trigger 1", "stop 1", "row 1", "exec 1", "deliver 1", "row 1", "exec 1", "finish"),
    ], case, ["hooks", "rows"])
    cases += texts("a hook is forged", [
        lines("forge 0 0 Pending", "forge 1 0 Pending", "forge 4294967295 3 Success"),
        SMALL + BEGUN + lines("forge 1 0 Running", "row 1", "deliver 1", "forge 1 0 Running", "forge 1 0 Success", "row 1"),
        SMALL + BEGUN + lines("forge 1 0 Scheduled", "row 1", "exec 1", "forge 1 0 Pending", "deliver 1", "row 1"),
        SMALL + lines("trigger 1", "stop 1", "forge 1 0 Running", "row 1", "forge 1 0 Success", "forge 1 0 Stopped", "row 1",
                      "deliver 1", "row 1", "exec 1"),
        failed + lines("forge 1 1 Scheduled", "row 1", "exec 1", "forge 1 0 Stopped", "forge 1 1 Running", "forge 1 2 Pending",
                       "finish", "row 1", "exec 1"),
        SMALL + RUN + lines("sweep 0", "forge 1 0 Success", "forge 1 3 Pending", "forge 2 0 Success", "forge 0 0 Success"),
        SMALL + RUN + lines("forge 1 0 Success", "forge 1 0 Error", "forge 1 0 Stopped", "forge 1 0 Running", "row 1"),
    ], case, ["hooks", "rows"])
    return cases


def of_counters(case):
    """An execution of four jobs: one succeeds, one by its second revision, one fails and one is stopped.
    Its hooks come in many orders, and its counters are asked for behind each."""
    script = "".join("image 1 %s v\n" % name for name in "abcd") + failing(3, 4, 7, 8)
    script += "trigger 1\n" + "take\n" * 4 + "step 1\n" * 6 + lines("step 2", "step 3", "step 4", "stop 4", "step 4")
    script += lines("settle 1", "settle 2", "settle 3", "settle 4", "wait 10", "take", "take", "step 2", "step 3")
    script += lines("settle 3", "wait 20", "take", "step 3", "settle 3") + "step 2\n" * 5 + "settle 2\n"
    kept = model.replay(script.encode()).kept.core
    assert sorted(kept.queue.done.items()) == [(1, (0, "Success")), (2, (1, "Success")), (3, (2, "Error")), (4, (0, "Stopped"))]
    chance, count = random.Random(18), len(kept.hooks)
    orders = [list(range(1, count + 1)), list(range(count, 0, -1))]
    orders += [chance.sample(range(1, count + 1), count) for _ in range(10)]
    return texts("counters are told behind each hook", [
        script + lines(*(line for hook in order for line in ("deliver %d" % hook, "exec 1"))) + "finish\nexec 1\n"
        for order in orders
    ], case, ["rows"])


# ---- executions


def of_sweeps(case):
    two = lines("image 1 a v", "image 1 b v")
    asked = lines("exec 1", "exec 2", "exec 3", "row 1", "row 2", "row 3")
    cases = texts("so many executions are kept", [
        SMALL + RUN * 3 + "sweep %d\n" % keep + asked + "sweep %d\n" % keep + RUN + "exec 4\n" for keep in range(5)
    ] + [SMALL + RUN + "sweep 4294967295\n" + asked], case, ["rows"])
    cases += texts("an execution that hasn't ended is kept", [
        SMALL + lines("trigger 1", "sweep 0") + asked,
        SMALL + RUN + lines("trigger 1", "sweep 0", "take", "sweep 0") + asked,
        SMALL + lines("trigger 1", "trigger 1") + "take\n" + "step 1\n" * 6 + lines("sweep 0", "deliver 1", "sweep 0",
                                                                                 "deliver 2", "sweep 0") + asked,
        SMALL + failing(1) + BEGUN + lines("step 1", "deliver 1", "deliver 2", "exec 1", "sweep 0", "exec 1", "finish", "sweep 0")
        + asked,
        SMALL + failing(1, 2, 3) + RUN + "sweep 0\n" + asked,
        two + lines("trigger 1", "stop 1", "deliver 1", "sweep 0", "stop 2", "deliver 2", "sweep 0") + asked + "finish\n",
        SMALL + lines("trigger 1", "trigger 1", "stop 2", "deliver 1", "sweep 0") + asked + "finish\nsweep 1\n" + asked,
        "trigger 1\ntrigger 1\ntrigger 1\nsweep 2\n" + asked + "sweep 0\n" + asked + "trigger 1\nexec 4\n",
        # The newest that have ended are kept: the one behind them is not counted.
        SMALL + RUN * 2 + lines("trigger 1", "sweep 1") + asked + "finish\nsweep 1\n" + asked,
    ], case, ["words", "rows"])
    over = lines("row 1", "word 1 0", "stop 1", "cause 1", "exec 1")
    cases += texts("a job that was swept is taken, stepped and settled", [
        SMALL + lines("trigger 1", "stop 1", "deliver 1", "sweep 0") + over + lines("take", "settle 1", "take"),
        SMALL + lines("trigger 1", "stop 1", "deliver 1", "sweep 0", "finish", "deliver 1", "take"),
        SMALL + BEGUN + lines("stop 1", "deliver 2", "sweep 0", "settle 1", "step 1", "settle 1", "step 1", "take") + over,
        SMALL + BEGUN + lines("stop 1", "deliver 2", "sweep 0", "finish", "deliver 1", "deliver 2", "take") + over,
        SMALL + failing(1) + BEGUN + lines("step 1", "stop 1", "deliver 3", "sweep 0", "settle 1", "take") + over,
        SMALL + failing(1) + BEGUN + lines("step 1", "settle 1", "stop 1", "deliver 3", "sweep 0", "take", "wait 10", "take",
                                           "settle 1", "take") + over,
        SMALL + failing(1) + BEGUN + lines("step 1", "settle 1", "stop 1", "deliver 3", "sweep 0", "finish", "wait 0") + over,
        SMALL + failing(1) + BEGUN + lines("step 1", "settle 1", "wait 10", "take", "stop 1", "deliver 4", "sweep 0", "step 1",
                                           "settle 1", "deliver 1", "deliver 4", "forge 1 0 Error") + over,
        SMALL + failing(1, 2, 3) + RUN + "sweep 0\n" + over + RUN + "cause 1\ncause 2\nrow 2\n",
        SMALL + BEGUN + "step 1\n" * 6 + lines("deliver 1", "deliver 2", "sweep 0", "settle 1", "take") + over,
    ], case, SHOWN)
    made = case("a plan that fails makes an execution that has failed").each(0, 65536, "image 1 a *\n")
    made.text("image 1 a x\n" + lines("trigger 1", "trigger 1", "exec 1", "exec 2", "row 1", "take", "finish", "sweep 1",
                                      "exec 1", "exec 2"))
    return cases + [made]


def of_full(case):
    two = lines("image 1 a v", "image 1 b v")
    asked = lines("exec 1", "exec 2", "row 1", "row 2", "word 2 0", "word 3 0", "stop 3")
    cases = texts("there are so many jobs at most", [
        "jobs %d\n" % jobs + two + "trigger 1\ntrigger 1\n" + asked + "finish\ntrigger 1\n" + asked for jobs in range(1, 6)
    ] + [
        "jobs 1\ntrigger 1\ntrigger 1\nexec 2\n",
        "jobs 1\n" + SMALL + RUN + lines("sweep 0", "trigger 1", "exec 1", "exec 2", "finish"),
        "jobs 1\njobs 4\n" + two + "jobs 3\ntrigger 1\ntrigger 1\nfinish\nexec 1\n",
        "jobs 262144\n" + two + lines("trigger 1", "word 262144 0", "stop 262144", "row 262144", "finish", "exec 1"),
        two + "jobs 2\ntrigger 7\ntrigger 1\ntrigger 7\ntrigger 1\nfinish\n",
        "jobs 2\n" + two + failing(1, 2) + RUN + lines("word 1 3", "word 2 3", "row 2", "wait 0"),
    ], case, ["words", "rows"])
    return cases


# ---- refusals


def of_refused_lines(case):
    one_number = [word + rest for word in ["settle", "deliver", "sweep", "row", "exec"] for rest in
                  ["", " 1 2", " x", " 01", " -1", " +1", " ", " 4294967296", " 1 ", " 0", " 4294967295"]]
    waits = ["wait", "wait 1 2", "wait x", "wait 01", "wait -1", "wait 1000000001", "wait 4294967296", "wait 1000000000"]
    forges = ["forge", "forge 1 0", "forge 1 0 Running 1", "forge x 9 no", "forge 4294967296 0 Running", "forge 1 4 Running",
              "forge 1 x no", "forge 1 01 Running", "forge 1 0 no", "forge 1 0 running", "forge 1 0 ", "forge 1 0 Unopened",
              "forge 1 0 Succeed", "forge 1 0 3", "forge  0 Running", "forge 1 0 InProgress"]
    forges += ["forge 1 3 %s" % status for status in STATUSES]
    jobs = ["jobs", "jobs 1 2", "jobs 0", "jobs 262145", "jobs 262144", "jobs 1", "jobs x", "jobs 01", "jobs -1", "jobs ",
            "jobs 4294967296", "Jobs 1", "job 1"]
    cases = texts("a line of the core that is bad is refused", [
        SMALL + line + "\n" for line in one_number + waits + forges + jobs
        + ["settles 1", "Wait 1", "forged 1 0 Running", " row 1", "exec\t1", "sweep 1\r"]
    ], case)
    cases += texts("a setup line behind an event of the core is bad by its order", [
        event + "\n" + line + "\n" for event, line in itertools.product(
            ["settle 1", "deliver 1", "forge 1 0 Error", "wait 0", "sweep 0", "row 1", "exec 1"],
            ["jobs", "jobs 1", "image 1 a v"])
    ], case)
    cases += texts("the first bad line of the core counts", [
        "jobs 0\nwait\n",
        "jobs 1\njobs 0\nimages\n",
        "wait 1\njobs 0\nforge\n",
        "settle 1\nsettle x\nsettle\n",
        "row 1\nexec 1\nlanes 2\n",
        "row 1\ndue\nexec x\n",
    ], case, ["words", "rows"])
    return cases


GROUPS = [of_rows, of_retries, of_stops, of_turns, of_moments, of_orders, of_hooks, of_counters, of_sweeps, of_full,
          of_refused_lines]
