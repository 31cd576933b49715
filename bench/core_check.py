"""What holds of the core of the second program between any two events, counted anew from its lists.

None of this is how `core_model.py` comes to it: a row is the greatest of what was received, a counter
the length of a list, and a turn is looked for in all lists of the queue.
"""
from collections import Counter

from core_model import CODES, FINAL

LISTED = ("Success", "Error", "Stopped")


def check(core):
    """Refuses a state in which something of this doesn't hold."""
    rows_are_joins(core)
    counters_are_recounts(core)
    each_job_is_in_one_list(core)
    each_final_word_has_a_hook(core)


def check_finished(core):
    """What holds besides behind a `finish`: each job is over, and each row is where its word is."""
    queue, board = core.queue, core.board
    assert not (queue.waiting or queue.delayed or queue.out or core.lane.held)
    assert sorted(queue.done) == list(range(1, core.store.jobs + 1))
    for job, where in queue.done.items():
        assert where == current(board, job), job
        assert where[1] in ("Success", "Stopped") or where == (queue.attempts[job] - 1, "Error"), job
    for execution in core.store.executions.values():
        for row in execution.rows:
            assert (row.revision, row.status) == current(board, row.job), row.job
            hooks = {hook[1:] for hook in core.hooks if hook[0] == row.job}
            assert hooks <= set(row.received), row.job


def current(board, job):
    """The last revision that was opened, with its status."""
    opened = [revision for revision in range(4) if board.look(job, revision) != "Unopened"]
    return (opened[-1], board.look(job, opened[-1])) if opened else (0, "Pending")


def rows_are_joins(core):
    for execution in core.store.executions.values():
        for row in execution.rows:
            joined = max([(0, "Pending")] + row.received, key=lambda pair: (pair[0], CODES[pair[1]]))
            assert (row.revision, row.status) == joined, row.job
            assert len(set(row.received)) == len(row.received) <= 24, row.job
            for revision, status in row.received:
                mark = core.board.look(row.job, revision)
                assert mark == status or CODES.get(mark, -1) > CODES[status], row.job


def counters_are_recounts(core):
    for execution in core.store.executions.values():
        listed = [[row for row in execution.rows if row.status == status] for status in LISTED]
        rest = [row for row in execution.rows if row.status not in LISTED]
        succeed, failed, stopped = map(len, listed)
        assert execution.counts == {
            "succeed": succeed, "failed": failed, "in_progress": len(rest), "stopped": stopped,
        }, execution.number
        if not execution.planned:
            wanted = "Failed"
        elif not execution.rows:
            wanted = "Succeed"
        elif rest:
            wanted = "InProgress"
        else:
            wanted = "Failed" if failed else "Stopped" if stopped else "Succeed"
        assert execution.status() == wanted, execution.number


def each_job_is_in_one_list(core):
    queue = core.queue
    turns = [job for job, _ in queue.waiting] + [job for _, job, _ in queue.delayed]
    turns += list(queue.out) + list(queue.done)
    assert sorted(turns) == list(range(1, core.store.jobs + 1))
    for job, (revision, _) in core.lane.held.items():
        assert queue.out.get(job) == revision, job
    for _, job, revision in queue.delayed:
        assert core.board.look(job, revision) in ("Scheduled", "Stopped"), job


def each_final_word_has_a_hook(core):
    """One hook tells each final word, and a revision that was opened has an error before it."""
    told = Counter(hook for hook in core.hooks if hook[2] in FINAL)
    words = Counter((job, revision, mark) for (job, revision), mark in core.board.words.items() if mark in FINAL)
    assert told == words
    for job, revision in core.board.words:
        assert revision == 0 or core.board.look(job, revision - 1) == "Error", job
    ended = Counter((job, revision, about[0]) for job, revision, (kind, *about) in core.lane.journal if kind == "ended")
    stops = Counter({hook: count for hook, count in told.items() if hook[2] == "Stopped"})
    assert ended + stops == told
