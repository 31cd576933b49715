"""The lane of the second program: connections that count their operations, and revisions of jobs that
are copied one step at a time.

An entry of a journal is a job's number, a revision and what happened: a tuple of its kind and what it
is about.
"""
from content_model import MANIFEST_LIMIT, Refused, children_of, digest_of, plain

PAIR_LIMIT = 65536
DEPTH_LIMIT = 8


# ---- connections


class Connection:
    """A connection to a registry, which it numbers. Operations are counted from 1: `failing` has the
    number of each that fails, with whether a put takes effect all the same, and `moves` the number,
    the repository, the tag and the digest of each move of a tag just before an operation."""

    def __init__(self, number, registry, failing=(), moves=()):
        self.number, self.registry = number, registry
        self.operations, self.faults = 0, 0
        self.failing, self.moves = {}, {}
        for operation, lands in failing:
            self.failing[operation] = self.failing.get(operation, False) or lands
        for operation, *move in moves:
            self.moves.setdefault(operation, []).append(move)

    def begin(self):
        """One operation more, behind the moves that are planned for it. Answers its number."""
        self.operations += 1
        for name, tag, digest in self.moves.get(self.operations, []):
            self.registry.at(name).tags[tag] = digest
        return self.operations

    def ask(self):
        """An operation that asks. Answers the registry as it is then."""
        if self.begin() in self.failing:
            raise self.fault()
        return self.registry

    def store(self, operation, put):
        """The end of a put, which is the operation of that number."""
        lands = self.failing.get(operation)
        if lands is not False:
            put()
        if lands is not None:
            raise self.fault()

    def fault(self):
        self.faults += 1
        return Refused("fault %d %d %d" % (self.number, self.faults - 1, self.faults))


# ---- copies

# Each of these is a generator that stops in front of every line of a step's table.


class Copy:
    """The copy of some tags of one repository, from one connection to another."""

    def __init__(self, task, source, dest, write):
        self.name, self.to, self.tags, self.replaces = task.name, task.to, task.tags, task.replaces
        self.source, self.dest, self.write = source, dest, write

    def lines(self):
        for tag in self.tags:
            yield from self.tag(tag)
        yield

    def tag(self, tag):
        yield
        digest = self.source.ask().names(self.name, tag)
        if digest is None:
            raise Refused("gone %s" % tag)
        manifest = self.manifest(digest)
        self.write("read-tag", tag, manifest[0], digest)
        children = children_of(*manifest)
        yield
        old = self.dest.ask().names(self.to, tag)
        self.write("looked", tag, old)
        if self.decides(tag, digest, old):
            return
        yield from Walk(self, digest).below(children, 0)
        yield
        old = self.dest.ask().names(self.to, tag)
        if not self.decides(tag, digest, old):
            self.put(lambda: self.show(tag, digest, manifest), self.dest.begin(),
                     ("show", tag, digest, old, "put"), ("show", tag, digest, old, "unsure"))

    def decides(self, tag, digest, old):
        """Whether a look finishes the tag, which is to name this digest and names the old one."""
        if old is None or (old != digest and self.replaces):
            return False
        self.write("show", tag, digest, old, "same" if old == digest else "kept")
        return True

    def manifest(self, digest):
        """A manifest of the source, behind the operation that asks for it."""
        held = self.source.registry.manifest(self.name, digest)
        if held is None:
            raise Refused("gone %s" % digest)
        if len(held[1]) > MANIFEST_LIMIT:
            raise Refused("long %d" % len(held[1]))
        return held

    def blob(self, digest, size):
        """Copies a blob of that size."""
        held = self.source.ask().blob(self.name, digest)
        if held is None:
            raise Refused("gone %s" % digest)
        operation = self.dest.begin()
        if digest_of(held) != digest:
            raise Refused("differs %s %s" % (digest, digest_of(held)))
        self.write("got-blob", digest, len(held))
        compare(digest, size, len(held))
        self.put(lambda: self.at().blobs.update({digest: held}), operation,
                 ("put-blob", digest, True), ("put-blob", digest, False))
        return len(held)

    def put(self, stores, operation, sure, unsure):
        """Puts, and writes what that is, where it is sure and where it isn't."""
        try:
            self.dest.store(operation, stores)
        except Refused:
            self.write(*unsure)
            raise
        self.write(*sure)

    def show(self, tag, digest, manifest):
        self.at().manifests[digest] = manifest
        self.at().tags[tag] = digest

    def at(self):
        return self.dest.registry.at(self.to)


class Walk:
    """Copies all below one manifest; what was met once is not met again."""

    def __init__(self, copy, root):
        self.copy, self.blobs, self.heights, self.sizes = copy, {}, {}, {}
        self.opened = [root]

    def below(self, children, level):
        """The height of a manifest at this level, after all below it was copied."""
        height = 0
        for kind, digest, size in children:
            if kind == "blob":
                yield from self.blob(digest, size)
            elif kind == "manifest":
                height = max(height, (yield from self.manifest(digest, size, level + 1)) + 1)
        return height

    def meet(self):
        if len(self.blobs) + len(self.heights) + len(self.opened) >= PAIR_LIMIT:
            raise Refused("many %d" % (PAIR_LIMIT + 1))

    def blob(self, digest, size):
        copy = self.copy
        if digest not in self.blobs:
            self.meet()
            yield
            held = copy.dest.ask().blob(copy.to, digest)
            copy.write("has-blob", digest, None if held is None else len(held))
            if held is None:
                yield
                self.blobs[digest] = copy.blob(digest, size)
            else:
                self.blobs[digest] = len(held)
        compare(digest, size, self.blobs[digest])

    def manifest(self, digest, size, level):
        if level + self.heights.get(digest, 0) > DEPTH_LIMIT or digest in self.opened:
            raise Refused("deep %s" % digest)
        if digest not in self.heights:
            self.meet()
            yield from self.child(digest, size, level)
        compare(digest, size, self.sizes[digest])
        return self.heights[digest]

    def child(self, digest, size, level):
        copy = self.copy
        yield
        copy.source.ask()
        manifest = copy.manifest(digest)
        got = digest_of(manifest[1])
        if got != digest:
            raise Refused("differs %s %s" % (digest, got))
        copy.write("read-child", digest, manifest[0], got)
        children = children_of(*manifest)
        compare(digest, size, len(manifest[1]))
        self.opened.append(digest)
        height = yield from self.below(children, level)
        self.opened.pop()
        yield
        copy.put(lambda: copy.at().manifests.update({digest: manifest}), copy.dest.begin(),
                 ("put-child", digest, True), ("put-child", digest, False))
        self.heights[digest], self.sizes[digest] = height, len(manifest[1])


def compare(digest, said, got):
    if said != got:
        raise Refused("size %s %d %d" % (digest, said, got))


# ---- revisions that are held


class Task:
    """What a job copies: a repository at the source and one at the destination, the tags, and whether a
    tag that names another manifest is replaced; and how many attempts the job has."""

    def __init__(self, name, to, tags, replaces=True, attempts=3):
        self.name, self.to, self.tags, self.replaces, self.attempts = name, to, tags, replaces, attempts


class Lane:
    """Holds revisions of jobs, one of a job at a time, and does one step of one of them at a time. Their
    words stand on a board, and `emit` is told each status that a revision comes to."""

    def __init__(self, source, dest, board, emit):
        self.source, self.dest, self.board, self.emit = source, dest, board, emit
        self.journal, self.held = [], {}

    def admit(self, job, revision, task):
        """Begins a revision, where its word waits for that. Answers the word that was found where not."""
        found = self.board.move(job, revision, "Scheduled" if revision else "Pending", "Running")
        if found:
            return found
        self.emit(job, revision, "Running")
        self.write(job, revision, "began")
        lines = Copy(task, self.source, self.dest, lambda *what: self.write(job, revision, *what)).lines()
        next(lines)
        self.held[job] = (revision, lines)
        return None

    def step(self, job):
        """Does one step of a job, and tells what came of it."""
        if job not in self.held:
            return "not here"
        revision, lines = self.held[job]
        mark = self.board.look(job, revision)
        if mark != "Running":
            self.write(job, revision, "dropped")
            del self.held[job]
            return "lost %s" % mark
        try:
            next(lines)
        except StopIteration:
            return self.end(job, revision, "Success")
        except Refused as cause:
            return self.end(job, revision, "Error", str(cause))
        # Of the two entries of a copied blob the first tells it.
        what = self.journal[-1][2]
        return told(*(self.journal[-2][2] if what[0] == "put-blob" else what))

    def end(self, job, revision, status, cause=None):
        self.board.move(job, revision, "Running", status)
        self.emit(job, revision, status)
        self.write(job, revision, "ended", status, cause)
        del self.held[job]
        return " ".join(["ended", status] + ([cause] if cause else []))

    def write(self, job, revision, *what):
        self.journal.append((job, revision, what))

    def cause(self, job):
        """The revision of a job that ended last with an error, and why, where there is one."""
        for number, revision, (kind, *about) in reversed(self.journal):
            if number == job and kind == "ended" and about[1]:
                return revision, about[1]
        return None


# ---- texts


def told(kind, *about):
    """The words of a step by the entry that tells it."""
    if kind == "read-tag":
        return "read-tag %s" % about[0]
    if kind == "looked":
        return "looked %s %s" % (about[0], about[1] or "none")
    if kind == "read-child":
        return "read-child %s" % about[0]
    if kind == "has-blob":
        return "has-blob %s %s" % (about[0], "none" if about[1] is None else about[1])
    if kind == "got-blob":
        return "copied %s %d" % about
    if kind == "put-child":
        return "put-child %s" % about[0]
    tag, _, _, how = about
    return "shown %s %s" % (tag, how)


def entry_text(entry):
    """An entry as `show journal` prints it."""
    job, revision, (kind, *about) = entry
    return "%d.%d %s" % (job, revision, written(kind, about))


def written(kind, about):
    if kind in ("read-tag", "read-child"):
        of, media, digest = about
        word = "read" if kind == "read-tag" else "child"
        return "%s %s %s %s" % (word, of, plain(media.encode("latin-1")), digest)
    if kind == "looked":
        return "looked %s %s" % (about[0], about[1] or "nothing")
    if kind == "has-blob":
        return "lacks %s" % about[0] if about[1] is None else "has %s %d" % tuple(about)
    if kind == "got-blob":
        return "got %s %d" % tuple(about)
    if kind in ("put-blob", "put-child"):
        word = "put" if kind == "put-blob" else "raised"
        return "%s %s %s" % (word, about[0], "true" if about[1] else "false")
    if kind == "show":
        tag, digest, old, how = about
        return "%s %s %s %s" % ("shown" if how == "put" else how, tag, digest, old or "nothing")
    if kind == "ended":
        return "error %s" % about[1] if about[1] else "success whole"
    return kind
