"""The second program: what a script does, written by the rules alone.

`replay` runs a script, and `top` a whole call over devices that may fail. What they answer has the
status, the text and all that is kept: the registries, and the core with its lane, words and rows.
"""
import re

import config_model
import core_check
from content_model import (
    CONFIG, DOCKER_IMAGE, DOCKER_INDEX, FOREIGN, IMAGE, INDEX, LAYER,
    Registry, digest_of, image, index, plain,
)
from core_model import CODES, Core
from lane_model import Connection, Lane, Task

SCRIPT_LIMIT = 1048576
PIECE = 65536
JOBS = 16384
JOBS_MOST = 262144
WAIT_MOST = 1000000000
LIST_LIMIT = 65536

USAGE = (
    b"usage: harborrep replay | check FILE | plan FILE P | once FILE P | gen START REPOS"
    b" | run FILE WORKERS | serve FILE WORKERS PORT\n"
)


# ---- lines

# The least and the greatest number of words behind the first one.
SETUP = {
    "image": (3, None), "index": (3, None), "orphan": (2, None), "manifest": (5, None),
    "break": (4, 4), "fault": (3, 3), "lands": (3, 3), "change": (6, 6), "jobs": (1, 1),
}
EVENTS = {
    "trigger": (1, 1), "take": (0, 0), "step": (1, 1), "settle": (1, 1), "stop": (1, 1), "deliver": (1, 1),
    "forge": (3, 3), "wait": (1, 1), "sweep": (1, 1), "finish": (0, 0), "tags": (1, 1), "row": (1, 1),
    "exec": (1, 1), "word": (2, 2), "cause": (1, 1),
}
LATER = "lanes policy schedule label due conflict".split()
COMPONENT = "[a-z0-9]+(?:(?:[.]|_|__|-+)[a-z0-9]+)*"
NUMBER_END = 2**32


class Bad(Exception):
    """A line is bad; the text says why."""


def number(word, least=0, most=NUMBER_END - 1):
    if re.fullmatch("0|[1-9][0-9]{0,9}", word) is None or not least <= int(word) <= most:
        raise Bad("number")
    return int(word)


def registry_in(word):
    return number(word, 1, 8)


def operation_in(word):
    return number(word, 1)


def revision_in(word):
    return number(word, 0, 3)


def jobs_in(word):
    return number(word, 1, JOBS_MOST)


def seconds_in(word):
    return number(word, 0, WAIT_MOST)


def status_in(word):
    if word not in CODES:
        raise Bad("policy")
    return word


def lane_in(word):
    if number(word) != 0:
        raise Bad("not yet")
    return 0


def repository(word):
    if len(word) > 255 or re.fullmatch("%s(?:/%s)*" % (COMPONENT, COMPONENT), word) is None:
        raise Bad("name")
    return word


def tag_in(word):
    if re.fullmatch("[A-Za-z0-9_][A-Za-z0-9_.-]{0,127}", word) is None:
        raise Bad("tag")
    return word


def layer(word):
    if re.fullmatch("(?:[0-9a-f]{2})+", word) is None:
        raise Bad("hex")
    return bytes.fromhex(word)


def media_in(word):
    if any(ord(sign) < 32 or sign in '"\\' for sign in word):
        raise Bad("policy")
    return word


# What each word behind the first one is. Further words are each what `REST` says, or a manifest's text.
WORDS = {
    "image": (registry_in, repository, tag_in), "index": (registry_in, repository, tag_in),
    "orphan": (registry_in, repository), "manifest": (registry_in, repository, tag_in, media_in),
    "break": (registry_in, repository, layer, layer),
    "fault": (lane_in, registry_in, operation_in), "lands": (lane_in, registry_in, operation_in),
    "change": (lane_in, registry_in, operation_in, repository, tag_in, tag_in),
    "jobs": (jobs_in,),
    "trigger": (number,), "take": (), "step": (number,), "settle": (number,), "stop": (number,),
    "deliver": (number,), "forge": (number, revision_in, status_in), "wait": (seconds_in,), "sweep": (number,),
    "finish": (), "tags": (registry_in,), "row": (number,), "exec": (number,), "word": (number, revision_in),
    "cause": (number,),
}
REST = {"image": layer, "index": tag_in, "orphan": layer}


# ---- scripts


class Replay:
    """A script that is run: first its lines are taken, and then its events are run."""

    def __init__(self):
        self.registries = [Registry() for _ in range(8)]
        self.failing, self.moves = [[] for _ in range(8)], [[] for _ in range(8)]
        self.jobs, self.events, self.said = JOBS, [], []

    def take(self, line):
        """Takes a line, and does what a setup line says."""
        kind, *words = line.split(" ")
        if kind in LATER:
            raise Bad("not yet")
        if kind not in SETUP and kind not in EVENTS:
            raise Bad("word")
        if kind in SETUP and self.events:
            raise Bad("order")
        least, most = (SETUP if kind in SETUP else EVENTS)[kind]
        if len(words) < least or (most is not None and len(words) > most):
            raise Bad("count")
        known = len(WORDS[kind])
        about = [read(word) for read, word in zip(WORDS[kind], words)]
        rest = [REST[kind](word) for word in words[known:]] if kind in REST else words[known:]
        if kind in EVENTS:
            self.events.append((kind, about))
        else:
            getattr(self, "set_" + kind)(*about, *([rest] if most is None else []))

    # ---- setup lines

    def store(self, registry, name, tag, media, data, blobs=()):
        held = self.registries[registry - 1].at(name)
        held.blobs.update((digest_of(blob), blob) for blob in blobs)
        held.manifests[digest_of(data)] = (media, data)
        if tag is not None:
            held.tags[tag] = digest_of(data)

    def set_image(self, registry, name, tag, layers):
        self.store(registry, name, tag, IMAGE, image(layers), [b"{}"] + layers)

    def set_orphan(self, registry, name, layers):
        self.store(registry, name, None, IMAGE, image(layers))

    def set_manifest(self, registry, name, tag, media, words):
        self.store(registry, name, tag, media, " ".join(words).encode("latin-1"))

    def set_index(self, registry, name, tag, children):
        digests = [self.named(registry, name, child) for child in children]
        manifests = [self.registries[registry - 1].manifest(name, digest) for digest in digests]
        self.store(registry, name, tag, INDEX, index(manifests))

    def set_break(self, registry, name, honest, stored):
        self.registries[registry - 1].at(name).blobs[digest_of(honest)] = stored

    def set_fault(self, lane, registry, operation):
        self.failing[registry - 1].append((operation, False))

    def set_lands(self, lane, registry, operation):
        self.failing[registry - 1].append((operation, True))

    def set_change(self, lane, registry, operation, name, tag, other):
        self.moves[registry - 1].append((operation, name, tag, self.named(registry, name, other)))

    def set_jobs(self, jobs):
        self.jobs = jobs

    def named(self, registry, name, tag):
        digest = self.registries[registry - 1].names(name, tag)
        if digest is None:
            raise Bad("reference")
        return digest

    # ---- events

    def run(self):
        """Runs the events, from what the setup lines made."""
        self.core = Core(self.lane, self.registries, self.planned(), self.jobs)
        core_check.check(self.core)
        for kind, about in self.events:
            self.said += self.core.event(kind, about)
            core_check.check(self.core)
            if kind == "finish":
                core_check.check_finished(self.core)

    def lane(self, board, emit):
        """The lane, from registry 1 to registry 2."""
        source, dest = (
            Connection(at, self.registries[at - 1], self.failing[at - 1], self.moves[at - 1]) for at in (1, 2)
        )
        return Lane(source, dest, board, emit)

    def planned(self):
        """The tasks of the policy, or none where more is there than may be listed."""
        source = self.registries[0].repositories
        if len(source) > LIST_LIMIT or any(len(held.tags) > LIST_LIMIT for held in source.values()):
            return None
        return [Task(name, name, sorted(source[name].tags)) for name in sorted(source) if source[name].tags]


class Ending:
    """What a call gives: the status, the text, and what is kept where a script was run."""

    def __init__(self, status, text, kept=None, faults=(0, 0, 0)):
        self.status, self.text, self.faults, self.kept = status, text, faults, kept


def replay(script):
    """What a script of any length answers."""
    if len(script) > SCRIPT_LIMIT:
        return Ending(2, b"line 0 long\n")
    state = Replay()
    for at, line in enumerate(script.decode("latin-1").split("\n"), 1):
        try:
            if line and not line.startswith("#"):
                state.take(line)
        except Bad as why:
            return Ending(2, b"line %d %s\n" % (at, str(why).encode()))
    state.run()
    text = "".join(line + "\n" for line in state.said).encode()
    return Ending(state.core.status(), text, state)


def faults_of_input(script, pieces, failing):
    """Whether reading to the end of a script meets a read that fails."""
    taken, given, reads = 0, 0, 0
    while taken <= SCRIPT_LIMIT:
        reads += 1
        if reads in failing:
            return True
        piece = max(pieces[given], 1) if given < len(pieces) else len(script)
        count = min(PIECE, SCRIPT_LIMIT + 1 - taken, len(script) - taken, piece)
        taken, given = taken + count, given + 1
        if count == 0:
            break
    return False


def top(words, script, files={}, pieces=(), failing_reads=(), failing_writes=(), failing_files=()):
    """What a call gives with these words behind the program's name and these devices."""
    if words == [b"replay"]:
        ending = read_and_replay(script, pieces, failing_reads)
    elif len(words) == 2 and words[0] == b"check" and is_path(words[1]):
        ending = read_and_check(files, words[1], failing_files)
    else:
        ending = Ending(1, USAGE)
    if ending.text and 1 in failing_writes:
        ending.status, ending.text, ending.faults = 4, b"", (ending.faults[0], 1, ending.faults[2])
    return ending


def is_path(word):
    return all(part not in (b"", b".", b"..") for part in word.split(b"/"))


def read_and_replay(script, pieces, failing_reads):
    if faults_of_input(script, pieces, failing_reads):
        return Ending(3, b"fault input\n", faults=(1, 0, 0))
    return replay(script)


def read_and_check(files, path, failing_files):
    if 1 in failing_files:
        return Ending(3, b"fault tree\n", faults=(0, 0, 1))
    text, status = config_model.check(files.get(path))
    return Ending(status, text)
