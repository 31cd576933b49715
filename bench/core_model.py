"""The core of the second program: the words of revisions, the queue of turns, the store of tasks, and
the events over these and a lane.

Each event answers by lines. `core_check.py` says what holds between any two of them.
"""
import heapq
from collections import deque

FINAL = ("Stopped", "Error", "Success")
CODES = {"Pending": 0, "Scheduled": 1, "Running": 2, "Stopped": 3, "Error": 3, "Success": 3}
MOMENT_END = 253000000000
BACKOFF = 10


# ---- words


# Where a word may move to.
MOVES = {
    "Unopened": ("Pending", "Scheduled", "Stopped"), "Pending": ("Running", "Stopped"),
    "Scheduled": ("Running", "Stopped"), "Running": FINAL,
}


class Board:
    """The word of each revision of a job."""

    def __init__(self):
        self.words = {}

    def look(self, job, revision):
        return self.words.get((job, revision), "Unopened")

    def move(self, job, revision, expected, to):
        """Moves a word that is at the expected mark. Answers the mark that was found where it isn't."""
        found = self.look(job, revision)
        if found != expected:
            return found
        assert to in MOVES[found], (found, to)
        assert found != "Unopened" or revision == 0 or self.look(job, revision - 1) == "Error"
        self.words[job, revision] = to
        return None

    def stop(self, job, attempts):
        """Stops a job. Answers the revision, and its status where the job was over already."""
        for revision in range(attempts):
            mark = self.look(job, revision)
            if mark not in FINAL:
                self.move(job, revision, mark, "Stopped")
                return revision, None
            if mark != "Error" or revision + 1 == attempts:
                return revision, mark

    def covers(self, job, revision, status):
        """Whether the word is that status or stands above it."""
        mark = self.look(job, revision)
        return mark != "Unopened" and (mark == status or CODES[mark] > CODES[status])


# ---- turns


class Queue:
    """The turns of jobs, which wait, are delayed to a moment, are out, or are done."""

    def __init__(self, board):
        self.board, self.attempts = board, {}
        self.waiting, self.delayed, self.out, self.done = deque(), [], {}, {}

    def add(self, job, attempts):
        self.board.move(job, 0, "Unopened", "Pending")
        self.attempts[job] = attempts
        self.waiting.append((job, 0))

    def take(self, now):
        """The next turn, a job and its revision, which is out then; or why there is none."""
        if self.delayed and self.delayed[0][0] <= now:
            _, job, revision = heapq.heappop(self.delayed)
        elif self.waiting:
            job, revision = self.waiting.popleft()
        elif self.delayed:
            return None, "later %d" % self.delayed[0][0]
        elif self.out:
            return None, "busy %d" % len(self.out)
        else:
            return None, "idle"
        self.out[job] = revision
        return (job, revision), None

    def settle(self, job, now):
        """Takes back a turn that is out, by the word of its revision."""
        revision = self.out.pop(job)
        mark = self.board.look(job, revision)
        if mark not in FINAL:
            self.waiting.append((job, revision))
            return "back"
        if mark == "Error" and revision + 1 < self.attempts[job]:
            due = min(now + BACKOFF * 2**revision, MOMENT_END)
            revision += 1
            mark = self.board.move(job, revision, "Unopened", "Scheduled")
            if mark is None:
                heapq.heappush(self.delayed, (due, job, revision))
                return "again %d" % due
        self.done[job] = (revision, mark)
        return "done %s" % mark


# ---- rows


class Row:
    """A task: what it copies, the hooks that were received of it, and where it stands by them."""

    def __init__(self, job, task):
        self.job, self.task, self.received = job, task, []
        self.revision, self.status = 0, "Pending"

    def hear(self, revision, status):
        """Takes a hook, and tells whether the row rose by it."""
        if (revision, status) not in self.received:
            self.received.append((revision, status))
        if (revision, CODES[status]) <= (self.revision, CODES[self.status]):
            return False
        self.revision, self.status = revision, status
        return True

    def is_over(self):
        return self.status in ("Success", "Stopped") or (
            self.status == "Error" and self.revision + 1 == self.task.attempts)


COUNTERS = {"Success": "succeed", "Error": "failed", "Stopped": "stopped"}


class Execution:
    """One run of a policy: a row for each of its tasks, and how many of them stand where."""

    def __init__(self, number, policy, rows, planned):
        self.number, self.policy, self.rows, self.planned = number, policy, rows, planned
        self.counts = {"succeed": 0, "failed": 0, "in_progress": len(rows), "stopped": 0}

    def hear(self, row, revision, status):
        before = row.status
        rose = row.hear(revision, status)
        self.counts[COUNTERS.get(before, "in_progress")] -= 1
        self.counts[COUNTERS.get(row.status, "in_progress")] += 1
        return rose

    def status(self):
        if not self.planned:
            return "Failed"
        if self.counts["in_progress"]:
            return "InProgress"
        if self.counts["failed"]:
            return "Failed"
        return "Stopped" if self.counts["stopped"] else "Succeed"

    def has_ended(self):
        return not self.planned or all(row.is_over() for row in self.rows)

    def text(self):
        counts = "".join(" %s %d" % pair for pair in self.counts.items())
        return "execution %d %s total %d%s" % (self.number, self.status(), len(self.rows), counts)


class Store:
    """The executions that are kept, by number, and their rows, by job."""

    def __init__(self, board, limit):
        self.board, self.limit = board, limit
        self.made, self.jobs, self.executions, self.rows = 0, 0, {}, {}

    def create(self, policy, tasks):
        """An execution with these tasks, or with a plan that failed; none where there would be too many
        jobs."""
        if tasks and self.jobs + len(tasks) > self.limit:
            return None
        rows = [Row(job, task) for job, task in enumerate(tasks or [], self.jobs + 1)]
        self.made, self.jobs = self.made + 1, self.jobs + len(rows)
        execution = Execution(self.made, policy, rows, tasks is not None)
        self.executions[self.made] = execution
        self.rows.update((row.job, (execution, row)) for row in rows)
        return execution

    def receive(self, job, revision, status):
        """What becomes of a hook."""
        if not 1 <= job <= self.jobs:
            return "unknown"
        if job not in self.rows:
            return "swept"
        if not self.board.covers(job, revision, status):
            return "unconfirmed %s" % self.board.look(job, revision)
        execution, row = self.rows[job]
        return "raised" if execution.hear(row, revision, status) else "known"

    def sweep(self, keep):
        """Drops all ended executions of each policy but the newest ones. Answers how many."""
        seen, dropped = {}, []
        for execution in reversed(self.executions.values()):
            if execution.has_ended():
                seen[execution.policy] = seen.get(execution.policy, 0) + 1
                if seen[execution.policy] > keep:
                    dropped.append(execution)
        for execution in dropped:
            del self.executions[execution.number]
            for row in execution.rows:
                del self.rows[row.job]
        return len(dropped)

    def row(self, job):
        return self.rows[job][1] if job in self.rows else None


# ---- events


class Core:
    """The state between two events. `lane_of` makes a lane over a board and a call that emits hooks, and
    `plan` is the tasks of policy 1, or none where more is there than may be listed."""

    def __init__(self, lane_of, registries, plan, jobs):
        self.board, self.registries, self.plan = Board(), registries, plan
        self.queue, self.store = Queue(self.board), Store(self.board, jobs)
        self.hooks, self.delivered, self.now = [], set(), 0
        self.lane = lane_of(self.board, self.emit)

    def emit(self, job, revision, status):
        self.hooks.append((job, revision, status))

    def event(self, kind, about):
        """Runs an event, and answers the lines that tell it."""
        return list(getattr(self, "on_" + kind)(*about))

    def on_trigger(self, policy):
        if policy != 1:
            yield "no policy %d" % policy
            return
        execution = self.store.create(policy, self.plan)
        if execution is None:
            yield "full %d" % self.store.limit
        elif self.plan is None:
            yield "execution %d failed" % execution.number
        else:
            for row in execution.rows:
                self.queue.add(row.job, row.task.attempts)
            yield "execution %d tasks %d" % (execution.number, len(execution.rows))

    # Turns and steps.

    def on_take(self):
        turn, why = self.queue.take(self.now)
        yield why if turn is None else "job %d %s" % (turn[0], self.begin(*turn))

    def begin(self, job, revision):
        """Hands a turn to the lane; where the job was swept its word tells enough."""
        row = self.store.row(job)
        found = self.lane.admit(job, revision, row.task) if row else self.board.look(job, revision)
        return "lost %s" % found if found else "rev %d begins" % revision

    def on_step(self, job):
        yield "job %d %s" % (job, self.lane.step(job))

    def on_settle(self, job):
        if job not in self.queue.out:
            yield "job %d not out" % job
        elif job in self.lane.held:
            yield "job %d busy" % job
        else:
            yield "job %d %s" % (job, self.queue.settle(job, self.now))

    def on_stop(self, job):
        row = self.store.row(job)
        if row is None:
            yield "no job %d" % job
            return
        revision, status = self.board.stop(job, row.task.attempts)
        if status is None:
            self.emit(job, revision, "Stopped")
            yield "job %d stopped %d" % (job, revision)
        else:
            yield "job %d final %d %s" % (job, revision, status)

    def on_wait(self, seconds):
        self.now = min(self.now + seconds, MOMENT_END)
        yield "now %d" % self.now

    def on_finish(self):
        while True:
            turn, _ = self.queue.take(self.now)
            if turn is not None:
                self.begin(*turn)
                self.run_out(turn[0])
            elif self.queue.delayed:
                self.now = self.queue.delayed[0][0]
            elif self.queue.out:
                self.run_out(min(self.queue.out))
            else:
                break
        for number in range(1, len(self.hooks) + 1):
            if number not in self.delivered:
                self.deliver(number)
        yield "idle"

    def run_out(self, job):
        """Steps a job until the lane gives it up, and settles it."""
        while job in self.lane.held:
            self.lane.step(job)
        self.queue.settle(job, self.now)

    # Hooks and rows.

    def on_deliver(self, number):
        if not 1 <= number <= len(self.hooks):
            yield "no hook %d" % number
        else:
            yield "hook %d %s" % (number, self.deliver(number))

    def deliver(self, number):
        self.delivered.add(number)
        return self.store.receive(*self.hooks[number - 1])

    def on_forge(self, job, revision, status):
        yield "hook 0 %s" % self.store.receive(job, revision, status)

    def on_sweep(self, keep):
        yield "swept %d" % self.store.sweep(keep)

    def on_row(self, job):
        row = self.store.row(job)
        yield "row %d %d %s" % (job, row.revision, row.status) if row else "no row %d" % job

    def on_exec(self, number):
        execution = self.store.executions.get(number)
        yield execution.text() if execution else "no execution %d" % number

    # What else is asked.

    def on_word(self, job, revision):
        if self.store.row(job) is None:
            yield "no job %d" % job
        else:
            yield "word %d %d %s" % (job, revision, self.board.look(job, revision))

    def on_cause(self, job):
        cause = self.lane.cause(job)
        yield "cause %d %d %s" % ((job,) + cause) if cause else "no cause %d" % job

    def on_tags(self, registry):
        for row in self.registries[registry - 1].shown():
            yield "%s %s %s" % row

    def status(self):
        """What a run ends with from here."""
        return 0 if all(kept.status() == "Succeed" for kept in self.store.executions.values()) else 7
