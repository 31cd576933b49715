#!/usr/bin/env python3
"""Compares the built program with a second one, `model.py`, on random scripts.

A script stores images, indexes, orphans and odd manifests in registries 1 to 3, breaks blobs, plans
faults and moves of tags, says at times how many jobs there may be, and has some events.
Both programs must give the same text and the same status. Prints how often each status came, and
every script on which they differ, and ends with 1 where there is one.

Usage: python3 bench/compare.py [SCRIPTS [SEED]], after `rt run` in crates/harborrep has built the
program.
"""
import os
import random
import subprocess
import sys

from model import FOREIGN, IMAGE, INDEX, LAYER, image, replay


# ---- random scripts


class Maker:
    """Makes one script, whose lines all name what is there."""

    def __init__(self, chance):
        self.chance, self.lines, self.known = chance, [], {}
        self.names = ["a", "b/c", "lib"][: chance.randint(1, 3)]
        self.nests = chance.random() < 0.3

    def layers(self):
        count = self.chance.randint(0, 3)
        return ["%02x" % self.chance.randint(0, 3) * self.chance.randint(1, 2) for _ in range(count)]

    def odd_manifest(self):
        text = image([bytes.fromhex(word) for word in self.layers()]).decode()
        return self.chance.choice([
            text,
            text.replace('"size":1', '"size":%d' % self.chance.randint(0, 2), 1),
            text.replace(LAYER, FOREIGN, 1),
            text.replace("sha256:", "sha256:0", 1)[: len(text)],
            text[:-1],
            text.replace('"schemaVersion":2', '"schemaVersion":3'),
            text.replace('{"schemaVersion":2', '{ "schemaVersion" : 2'),
        ])

    def odd_line(self):
        """A blob that is broken, or something that is planned for an operation."""
        registry = self.chance.choice([1, 1, 1, 2, 2, 2, 3])
        kind = self.chance.choice(["break", "fault", "lands", "lands", "change"])
        operation = self.chance.randint(1, 16)
        if kind == "break":
            words = [self.chance.choice(["7b7d", "00", "01", "02", "03"]), self.chance.choice(["00", "01", "0101", "7b7d"])]
            return "break %d %s %s %s" % (registry, self.chance.choice(self.names), *words)
        if kind != "change":
            return "%s 0 %d %d" % (kind, registry, operation)
        places = [place for place, tags in self.known.items() if tags]
        if not places:
            return "fault 0 %d %d" % (registry, operation)
        place = self.chance.choice(sorted(places))
        tag = "t%d" % self.chance.randint(0, 9)
        return "change 0 %d %d %s %s %s" % (place[0], operation, place[1], tag, self.chance.choice(self.known[place]))

    def events(self):
        """Some events. Steps come more than one at a time, mostly of jobs that are held, and jobs are settled
        mostly when they have ended."""
        made, jobs, waiting, held, ended = [], 0, [], {}, []
        tasks = len([name for (registry, name), tags in self.known.items() if registry == 1 and tags])
        for _ in range(self.chance.randint(2, 30)):
            kind = "trigger" if not made else self.chance.choice(["trigger"] + ["take"] * 6 + ["step"] * 14 + [
                "settle"] * 4 + ["wait"] * 2 + ["deliver"] * 4 + ["stop", "finish", "tags", "word", "cause", "policy", "forge",
                "sweep", "row", "exec"])
            if kind == "step" and not held and self.chance.random() < 0.9:
                kind = "settle" if ended else "take" if waiting else "trigger"
            job, count = self.chance.choice(list(held) * 20 + list(range(1, jobs + 2))), self.chance.randint(1, 6)
            if kind == "settle" and ended and self.chance.random() < 0.8:
                job = self.chance.choice(ended)
            if kind == "trigger":
                waiting += range(jobs + 1, jobs + tasks + 1)
                jobs += tasks
            elif kind == "take":
                held.update((job, 0) for job in waiting[:1])
                del waiting[:1]
            elif kind == "finish":
                waiting, held, ended = [], {}, []
            elif kind == "step" and job in held:
                # Most jobs have ended by so many steps.
                held[job] += count
                if held[job] >= 9:
                    del held[job]
                    ended.append(job)
            elif kind == "settle" and job in ended:
                ended.remove(job)
                waiting.append(job)
            made += self.lines_of(kind, job, jobs, count)
        return made

    def lines_of(self, kind, job, jobs, count):
        """An event of this kind, or some of them."""
        status = self.chance.choice(["Pending", "Scheduled", "Running", "Stopped", "Error", "Success"])
        return {
            "trigger": ["trigger 1"], "take": ["take"], "stop": ["stop %d" % job], "finish": ["finish"],
            "step": ["step %d" % job] * count, "cause": ["cause %d" % job], "settle": ["settle %d" % job],
            "tags": ["tags %d" % self.chance.randint(1, 3)], "policy": ["trigger 3"], "row": ["row %d" % job],
            "word": ["word %d %d" % (job, self.chance.choice([0, 0, 0, 1]))],
            "wait": ["wait %d" % self.chance.choice([0, 1, 9, 10, 10, 20, 1000000000])],
            "deliver": ["deliver %d" % self.chance.randint(1, 3 * jobs + 1) for _ in range(count)],
            "forge": ["forge %d %d %s" % (job, self.chance.choice([0, 0, 0, 1, 2, 3]), status)],
            "sweep": ["sweep %d" % self.chance.randint(0, 2)], "exec": ["exec %d" % self.chance.randint(1, 3)],
        }[kind]

    def setup_line(self):
        registry = self.chance.choice([1, 1, 1, 1, 1, 2, 2, 3])
        name = self.chance.choice(self.names)
        tags = self.known.setdefault((registry, name), [])
        tag = "t%d" % (len(self.lines) if self.nests else self.chance.randint(0, 9))
        kind = self.chance.choice(["image"] * 3 + ["index"] * (3 if self.nests else 1) + ["orphan", "manifest"])
        if kind == "index" and not tags:
            kind = "image"
        if kind == "index" and self.nests:
            words = [tags[-1]] + self.chance.choices(tags, k=self.chance.randint(0, 1))
        elif kind == "index":
            words = self.chance.choices(tags, k=self.chance.randint(0, 3))
        elif kind == "manifest":
            words = [self.chance.choice([IMAGE] * 6 + [INDEX, "text/plain", ""]), self.odd_manifest()]
        else:
            words = self.layers()
        if kind != "orphan":
            words.insert(0, tag)
            tags.append(tag)
        self.lines.append(" ".join([kind, str(registry), name] + words))

    def script(self):
        if self.chance.random() < 0.1:
            self.lines.append("jobs %d" % self.chance.randint(1, 6))
        odd = self.chance.choice([0, 0.1, 0.3, 0.5])
        for _ in range(self.chance.randint(1, 16)):
            if self.chance.random() < odd:
                self.lines.append(self.odd_line())
            else:
                self.setup_line()
        self.lines += self.events()
        if self.chance.random() < 0.7:
            self.lines += ["trigger 1", "finish", "tags 2"]
        return "".join(line + "\n" for line in self.lines).encode()


def main():
    count = int(sys.argv[1]) if len(sys.argv) > 1 else 2000
    seed = int(sys.argv[2]) if len(sys.argv) > 2 else 1
    top = os.path.dirname(os.path.dirname(os.path.abspath(__file__)))
    program = os.path.join(top, "crates", "harborrep", "out", "harborrep")
    chance, statuses, differ = random.Random(seed), {}, 0
    for _ in range(count):
        script = Maker(chance).script()
        ending = replay(script)
        text, status = ending.text, ending.status
        got = subprocess.run([program, "replay"], input=script, capture_output=True)
        statuses[status] = statuses.get(status, 0) + 1
        if (got.stdout, got.returncode) != (text, status):
            differ += 1
            print("differs, status %d and not %d:\n%s" % (got.returncode, status, script.decode()))
    print("scripts %d, by status %s, different %d" % (count, dict(sorted(statuses.items())), differ))
    sys.exit(1 if differ else 0)


if __name__ == "__main__":
    main()
