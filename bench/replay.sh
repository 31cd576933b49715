#!/bin/sh
# Times the proved program on scripts of 256 KiB, 512 KiB and 1 MiB, the most that a script may
# have: many repositories with one tag each, a repository of many tags, an index of many images, an
# image of many layers, and an image of four long ones. Prints the tags that were copied, the
# processor time for each of them and for each byte of the script, the least of five runs, with the
# peak memory, and what it takes to hash the script with Python's SHA-256. Where time is linear, the
# columns of one kind are level, and memory doubles.
# It wants /usr/bin/time. Run it anywhere in the repository after `rt run` in crates/harborrep has
# built the program.
set -eu
cd "$(dirname "$0")/.."
program=crates/harborrep/out/harborrep
if [ ! -x "$program" ]; then
    (cd crates/harborrep && rt run -- replay < /dev/null > /dev/null)
fi
exec python3 - "$program" <<'PYTHON'
import hashlib, os, subprocess, sys, tempfile, time

program, runs = sys.argv[1], 5
TAIL = "trigger 1\nfinish\ntags 2\n"

def layers(count, digits):
    """So many words of so many hexadecimal digits, all of them different."""
    return [("%04x" % i).ljust(digits, "7") for i in range(count)]

def repositories(size):
    # 64 bytes each, of which there may be 16,384.
    count = (size - len(TAIL)) // 64
    return "".join("image 1 %s v\n" % ("library/r%05d" % i).ljust(53, "x") for i in range(count))

def tags(size):
    # 22 bytes each.
    count = (size - len(TAIL)) // 22
    return "".join("image 1 a t%05d %s\n" % (i, w) for i, w in enumerate(layers(count, 4)))

def index(size):
    # 257 bytes for each image, whose tag stands twice. An index lists 4,096 at most.
    count = (size - len(TAIL) - 16) // 257
    images = ["image 1 a t%04d %s\n" % (i, w) for i, w in enumerate(layers(count, 234))]
    return "".join(images) + "index 1 a all" + "".join(" t%04d" % i for i in range(count)) + "\n"

def many_layers(size):
    # 255 bytes for each layer, of which an image has 4,095 at most.
    count = min((size - len(TAIL) - 16) // 255, 4095)
    return "image 1 a v " + " ".join(layers(count, 254)) + "\n"

def long_layers(size):
    each = (size - len(TAIL) - 16) // 4 // 2 * 2 - 2
    return "image 1 a v " + " ".join(layers(4, each)) + "\n"

KINDS = [("repositories of a tag", repositories), ("tags of a repository", tags),
         ("images of an index", index), ("layers of an image", many_layers),
         ("four long layers", long_layers)]

def once(path):
    """Seconds of processor time, kilobytes of peak memory, and the tags, of one run."""
    # The peak memory that `wait4` tells is never below that of this process, so `time` tells it.
    with open(path, "rb") as given, tempfile.TemporaryFile() as said, tempfile.TemporaryFile() as peak:
        child = subprocess.Popen(["/usr/bin/time", "-f", "%M", program, "replay"],
                                 stdin=given, stdout=said, stderr=peak)
        _, status, used = os.wait4(child.pid, 0)
        child.returncode = status
        assert status == 0, "the program answered %d" % status
        said.seek(0)
        peak.seek(0)
        copied = sum(1 for line in said if b" sha256:" in line)
        return used.ru_utime + used.ru_stime, int(peak.read()), copied

def hashing(text):
    """Seconds of processor time to hash a text."""
    start = time.process_time()
    hashlib.sha256(text).digest()
    return time.process_time() - start

print("%-22s %9s %7s %9s %9s %10s %13s"
      % ("script", "bytes", "tags", "us/tag", "ns/byte", "peak KiB", "hash ns/byte"))
with tempfile.TemporaryDirectory() as folder:
    for kind, made in KINDS:
        for size in [262144, 524288, 1048576]:
            path = os.path.join(folder, "script")
            text = (made(size) + TAIL).encode()
            assert len(text) <= size
            with open(path, "wb") as out:
                out.write(text)
            seconds, memory, copied = min(once(path) for _ in range(runs))
            hashed = min(hashing(text) for _ in range(runs))
            print("%-22s %9d %7d %9.1f %9.1f %10d %13.2f"
                  % (kind, len(text), copied, seconds * 1e6 / copied, seconds * 1e9 / len(text),
                     memory, hashed * 1e9 / len(text)), flush=True)
PYTHON
