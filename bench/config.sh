#!/bin/sh
# Times `harborrep check` on configurations of 256 KiB, 512 KiB and 1 MiB, the most that one may have:
# 256, 512 and 1,024 policies with 16 filters each, and the same with one long list of labels each.
# Prints the processor time for each byte, the least of five runs, with the peak memory, and beside it
# the time that Python's `json.loads` alone takes for the same bytes. Where time is linear, the columns
# of one kind are level, and memory doubles.
# It wants /usr/bin/time. Run it anywhere in the repository after `rt run` in crates/harborrep has
# built the program.
set -eu
cd "$(dirname "$0")/.."
program=crates/harborrep/out/harborrep
if [ ! -x "$program" ]; then
    (cd crates/harborrep && rt run -- replay < /dev/null > /dev/null)
fi
exec python3 - "$PWD/$program" <<'PYTHON'
import json, os, subprocess, sys, tempfile, time

program, runs = sys.argv[1], 5
REGISTRIES = [{"id": 1, "kind": "memory", "at": ""}, {"id": 2, "kind": "memory", "at": ""}]

def compact(value):
    return json.dumps(value, separators=(",", ":"))

def policy(number, filters):
    return {"id": number, "name": "policy %d" % number, "src": 1, "dst": 2, "filters": filters}

def of_patterns(number):
    filters = [{"kind": "name", "value": "library/{a,b}%d/**/{c,d}*" % at} for at in range(8)]
    return policy(number, filters + [{"kind": "tag", "value": "v{1,2}?*%d-{alpine,slim}" % at} for at in range(8)])

def of_labels(number):
    return policy(number, [{"kind": "label", "value": ["label%08d" % at for at in range(52)]}])

def configuration(made, size):
    """A configuration of exactly this size: a policy for each 1,024 bytes, and an unknown member."""
    value = {"version": 1, "registries": REGISTRIES, "policies": [made(at) for at in range(1, size // 1024 + 1)]}
    room = size - len(compact(dict(value, more="")))
    assert 0 <= room < size // 4, room
    return compact(dict(value, more="x" * room))

def once(folder):
    """Seconds of processor time, and kilobytes of peak memory, of one run."""
    # The peak memory that `wait4` tells is never below that of this process, so `time` tells it.
    with tempfile.TemporaryFile() as said, tempfile.TemporaryFile() as peak:
        child = subprocess.Popen(["/usr/bin/time", "-f", "%M", program, "check", "c.json"],
                                 stdin=subprocess.DEVNULL, stdout=said, stderr=peak, cwd=folder)
        _, status, used = os.wait4(child.pid, 0)
        child.returncode = status
        said.seek(0)
        assert status == 0, (status, said.read())
        peak.seek(0)
        return used.ru_utime + used.ru_stime, int(peak.read())

def parsing(text):
    """Seconds of processor time to parse a text."""
    start = time.process_time()
    json.loads(text)
    return time.process_time() - start

print("%-10s %9s %8s %9s %10s %14s" % ("filters", "bytes", "ms", "ns/byte", "peak KiB", "Python ns/byte"))
with tempfile.TemporaryDirectory() as folder:
    for kind, made in [("patterns", of_patterns), ("labels", of_labels)]:
        for size in [262144, 524288, 1048576]:
            text = configuration(made, size)
            assert len(text) == size
            with open(os.path.join(folder, "c.json"), "w") as out:
                out.write(text)
            seconds, memory = min(once(folder) for _ in range(runs))
            parsed = min(parsing(text) for _ in range(runs))
            print("%-10s %9d %8.1f %9.1f %10d %14.1f"
                  % (kind, size, seconds * 1e3, seconds * 1e9 / size, memory, parsed * 1e9 / size), flush=True)
PYTHON
