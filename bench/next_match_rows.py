#!/usr/bin/env python3
"""Makes the rows of `hr_next_match`: moments, schedules, and the next matches that it must print, and
texts that are no schedules, with the number of the first field that is refused.

The dates and weekdays are those of Python's datetime. Each day of the 3,000 that follow is looked
at, and on a day that matches each second, in order. A text is refused by the grammar as a regular
expression has it; the numbers beside the texts were found by hand. Run it at the top of the repository:

    python3 bench/next_match_rows.py
"""
import datetime
import os
import random
import re

LIMITS = [(0, 59), (0, 59), (0, 23), (1, 31), (1, 12), (0, 6)]
EPOCH = datetime.date(1970, 1, 1)
LAST = 253_000_000_000
HORIZON = 259_200_000


def numbers(text, low, high):
    """The numbers that a field stands for."""
    found = set()
    for item in text.split(","):
        head, _, step = item.partition("/")
        if head in ("*", "?"):
            first, last = low, high
        elif "-" in head:
            first, last = (int(part) for part in head.split("-"))
        else:
            first = int(head)
            last = high if step else first
        found.update(range(first, last + 1, int(step) if step else 1))
    return found


def day_matches(date, texts, sets):
    """Whether a date has the month and the day of a schedule."""
    if date.month not in sets[4]:
        return False
    day, weekday = date.day in sets[3], date.isoweekday() % 7 in sets[5]
    if texts[3] not in "*?" and texts[5] not in "*?":
        return day or weekday
    return day and weekday


def next_match(schedule, after):
    """The least match after a moment, at most 3,000 days later, or None."""
    texts = schedule.split(" ")
    sets = [numbers(text, low, high) for text, (low, high) in zip(texts, LIMITS)]
    after = min(after, LAST)
    for day in range((after + 1) // 86_400, (after + HORIZON) // 86_400 + 1):
        if not day_matches(EPOCH + datetime.timedelta(days=day), texts, sets):
            continue
        for second in range(86_400):
            moment = day * 86_400 + second
            if after < moment <= after + HORIZON and second // 3600 in sets[2]:
                if second // 60 % 60 in sets[1] and second % 60 in sets[0]:
                    return moment
    return None


def at(*parts):
    """A moment by its date and time."""
    when = datetime.datetime(*parts, tzinfo=datetime.timezone.utc)
    return int(when.timestamp())


def some_field(chance, low, high):
    """A field drawn at random."""
    a = chance.randint(low, high)
    b = chance.randint(a, high)
    n = chance.choice([1, 2, 3, 5, 7, 20, 99])
    kinds = ["*", "*", "?", str(a), f"{a:02}", f"{a}-{b}", f"*/{n}", f"{a}-{b}/{n}", f"{a}/{n}"]
    field = chance.choice(kinds)
    while field not in "*?" and chance.random() < 0.3:
        field += "," + chance.choice(kinds[3:])
    return field


def rows():
    """The rows that were chosen, and those that were drawn."""
    yield "0 0 0 29 2 *", at(2096, 2, 29)
    yield "0 0 0 30 2 *", at(2096, 2, 29)
    yield "0 0 0 29 2 *", at(2000, 2, 28, 23, 59, 59)
    yield "0 0 0 31 4,6,9,11 ?", at(2023, 1, 1)
    yield "0 0 0 31 * *", at(2023, 1, 31)
    yield "59 59 23 31 12 *", at(2023, 12, 31, 23, 59, 58)
    yield "59 59 23 31 12 *", at(2023, 12, 31, 23, 59, 59)
    yield "0 0 0 1 1 *", at(1999, 12, 31, 23, 59, 59)
    yield "* * * * * *", 0
    yield "* * * * * *", at(1999, 12, 31, 23, 59, 59)
    yield "0 0 * * * *", 0
    yield "0 0 * * * *", 3599
    yield "0 0 * * * *", 3600
    yield "*/7 * * * * *", 55
    yield "*/7 * * * * *", 56
    yield "5/20 * * * * *", 5
    yield "5/20 * * * * *", 45
    yield "1-5/2 * * * * *", 5
    yield "0 0 0 * * 0", at(2024, 2, 24)
    yield "0 0 0 * * 6", at(2024, 2, 24)
    yield "0 0 0 13 * 5", at(2024, 2, 24)
    yield "0 0 0 13 * */1", at(2024, 2, 24)
    yield "0 0 0 13 * *", at(2024, 2, 24)
    yield "0 0 0 ? * 5", at(2024, 2, 24)
    yield "0 0 0 29 2 0", at(2025, 3, 1)
    for moment in [LAST - 1, LAST, LAST + 1, 2**64 - 1]:
        yield "* * * * * *", moment
        yield "0 0 0 29 2 *", moment
        yield "0 0 0 31 2 *", moment
    chance = random.Random(9)
    for _ in range(240):
        fields = [some_field(chance, low, high) for low, high in LIMITS]
        edge = at(chance.randint(1971, 9980), chance.choice([1, 2, 3, 12]), 1) - 1
        yield " ".join(fields), chance.choice([edge, chance.randint(0, LAST)])
    for _ in range(40):
        day, month = chance.randint(28, 31), chance.randint(1, 12)
        minute, hour = chance.randint(0, 59), chance.randint(0, 23)
        yield f"0 {minute} {hour} {day} {month} *", chance.randint(0, LAST)


ITEM = re.compile(r"(?:\*(?=/)|([0-9]{1,2})(?:-([0-9]{1,2}))?)(?:/([0-9]{1,2}))?")


def is_field(text, low, high):
    """Whether a text is a field with these limits."""
    if text in ("*", "?"):
        return True
    for item in text.split(","):
        found = ITEM.fullmatch(item)
        if not found:
            return False
        first, last, step = (None if part is None else int(part) for part in found.groups())
        if step == 0 or any(n is not None and not low <= n <= high for n in (first, last)):
            return False
        if last is not None and last < first:
            return False
    return True


def first_refused(text):
    """The number, from 1, of the first field that is refused, or None."""
    fields = text.split(" ")
    for number, limits in enumerate(LIMITS):
        if number >= len(fields) or not is_field(fields[number], *limits):
            return number + 1
    return 7 if len(fields) > 6 else None


REFUSED = [
    ("0 60 * * * *", 2),
    ("60 * * * * *", 1),
    ("* * 24 * * *", 3),
    ("* * * 0 * *", 4),
    ("* * * 32 * *", 4),
    ("* * * * 0 *", 5),
    ("* * * * 13 *", 5),
    ("* * * * * 7", 6),
    ("* * * * * SUN", 6),
    ("* * * * JAN *", 5),
    ("5-4 * * * * *", 1),
    ("*/0 * * * * *", 1),
    ("* 3/00 * * * *", 2),
    ("000 * * * * *", 1),
    ("* */100 * * * *", 2),
    ("*,5 * * * * *", 1),
    ("?/5 * * * * *", 1),
    ("** * * * * *", 1),
    ("1,,2 * * * * *", 1),
    ("1, * * * * *", 1),
    ("1- * * * * *", 1),
    ("-1 * * * * *", 1),
    ("1/2/3 * * * * *", 1),
    ("1-2-3 * * * * *", 1),
    ("*-5 * * * * *", 1),
    ("* 5/ * * * *", 2),
    ("1-70 * * * * *", 1),
    ("+1 * * * * *", 1),
    ("* * * * * * *", 7),
    ("* * * * * * ", 7),
    ("* * * * * ", 6),
    ("* * * * *", 6),
    ("*", 2),
    ("", 1),
    (" * * * * * *", 1),
    ("*  * * * * *", 2),
    ("*\t* * * * *", 1),
    ("60 60 * * * * *", 1),
    ("* * * * x", 5),
]


def main():
    """Writes the input and the output of the program."""
    top = os.path.join(os.path.dirname(os.path.abspath(__file__)), "..")
    folder = os.path.join(top, "crates", "hr_next_match")
    with open(f"{folder}/stdin", "w") as asked, open(f"{folder}/stdout", "w") as told:
        for schedule, after in rows():
            found = next_match(schedule, after)
            print(after, schedule, file=asked)
            print("none" if found is None else found, file=told)
        for text, field in REFUSED:
            assert first_refused(text) == field, text
            print(0, text, file=asked)
            print("field", field, file=told)


main()
