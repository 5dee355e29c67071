#!/usr/bin/python3 -SE
"""A stand-in for the program, for the server's own tests: it speaks the program's forms, with a toy rule. Each flight has a
slot of its own: its TSAT is its TOBT, and nothing holds it. It is no part of the product.

    standin.py --version
    standin.py kinds --format json
    standin.py plan AIRPORT FEED [--scenarios FILE] [--format text|csv|json]
    standin.py why AIRPORT FEED FLIGHT [--scenarios FILE --scenario NAME] [--format json]
    standin.py compare AIRPORT FEED SCENARIOS [NAME] [--format text|json]
    standin.py load AIRPORT FEED [--format text|json]
    standin.py next AIRPORT FEED [MINUTES] [--scenarios FILE --scenario NAME] [--format json]
    standin.py warnings AIRPORT FEED [--scenarios FILE --scenario NAME] [--format json]
    standin.py causes AIRPORT FEED [--by runway|operator] [--scenarios FILE --scenario NAME] [--format json]
    standin.py check AIRPORT FEED --format json
    standin.py trace AIRPORT FEED --format json
    standin.py carry AIRPORT FEED NEXT_AIRPORT [--tell]
    standin.py serve AIRPORT JOURNAL --format json"""
import datetime
import fcntl
import json
import os
import re
import sys

TIME = r"20\d\d-[01]\d-[0-3]\dT[0-2]\d:[0-5]\dZ"
FORMS = {"flight": r"[A-Z0-9]{1,7}", "runway": r"[A-Z0-9]{1,3}", "stand": r"[A-Z0-9]{1,5}", "priority": r"\d", "time": TIME,
         "ctot": rf"{TIME}|-", "group": "[LMH]", "cap": r"\d{1,2}", "ice": "NONE|STAND|REMOTE", "minutes": r"\d{1,2}"}
KINDS = {
    "FLT": ("flight", ("AP",), ("flight", "priority")), "TOBT": ("flight", ("AO", "GH"), ("flight", "time")),
    "STAND": ("flight", ("AP",), ("flight", "stand")), "RWY": ("flight", ("ATC",), ("flight", "runway")),
    "CTOT": ("flight", ("NM",), ("flight", "ctot")), "ICE": ("flight", ("GH",), ("flight", "ice", "minutes")),
    "PRIO": ("flight", ("ATC",), ("flight", "priority")), "GROUP": ("flight", ("AP",), ("flight", "group")),
    "CNL": ("flight", ("AO",), ("flight",)), "RATE": ("runway", ("ATC",), ("runway", "time", "time", "cap")),
    "CLOSE": ("runway", ("ATC",), ("runway", "time", "time")), "OPEN": ("runway", ("ATC",), ("runway", "time", "time")),
    "CLOCK": ("day", ("ATC",), ("time",)), "TOL": ("day", ("NM",), ("minutes", "minutes"))}
COLUMNS = "flight status runway stand priority group tobt exot ctot tsat ttot delay rule".split()


class Fault(Exception):
    """A line on standard error, and a status."""


def out(value):
    sys.stdout.write(json.dumps(value, separators=(",", ":")) + "\n")
    sys.stdout.flush()


class Day:
    def __init__(self, airport):
        records = [line.split(",") for line in open(airport, errors="replace").read().splitlines() if line]
        if not records or records[0][0] != "DAY" or not re.fullmatch(r"\d{4}-\d\d-\d\d", records[0][-1]):
            raise Fault("cdmseq: AIRPORT record 1: ORDER", 3)
        self.day, self.runways = records[0][1], {record[1] for record in records if record[0] == "RUNWAY"}
        self.now, self.rows, self.accepted = f"{self.day}T00:00Z", {}, 0

    def word(self, fields, scenario=False):
        role, kind, said = ("", fields[0], fields[1:]) if scenario else (fields[0], (fields + [""])[1], fields[2:])
        if len(fields) < 2 or kind in KINDS and len(said) != len(KINDS[kind][2]):
            return "FIELDS"
        if not scenario and role not in ("AO", "GH", "AP", "ATC", "NM"):
            return "ROLE"
        if kind not in KINDS:
            return "KIND"
        if not all(re.fullmatch(FORMS[form], field) for form, field in zip(KINDS[kind][2], said)):
            return "TEXT"
        if not scenario and role not in KINDS[kind][1]:
            return "AUTHORITY"
        row = self.rows.get(said[0])
        if KINDS[kind][0] == "flight":
            if kind == "FLT":
                return "EXISTS" if row else "FULL" if len(self.rows) >= 2000 or self.accepted >= 20000 else None
            if not row:
                return "UNKNOWN"
            if row["status"] == "CANCELLED":
                return "ENDED"
            if kind == "RWY" and said[1] not in self.runways:
                return "UNKNOWN"
        if KINDS[kind][0] == "runway" and said[0] not in self.runways:
            return "UNKNOWN"
        if kind == "CLOCK" and said[0] < self.now:
            return "ORDER"
        return "FULL" if self.accepted >= 20000 else None

    def take(self, fields, scenario=False):
        """The word, or None and the rows that changed."""
        word = self.word(fields, scenario)
        if word:
            return word, []
        kind, said = fields[0 if scenario else 1], fields[1 if scenario else 2:]
        self.accepted += 1
        if kind == "CLOCK":
            self.now = said[0]
        if KINDS[kind][0] != "flight":
            # What is of a runway or the day moves nobody, but CLOSE, which changes every flight's Row, for large replies.
            if kind not in ("CLOSE", "OPEN"):
                return None, []
            for row in self.rows.values():
                row["rule"] = "CLOSURE" if kind == "CLOSE" else None
            return None, [dict(row) for _, row in sorted(self.rows.items())]
        before = dict(self.rows.get(said[0], {}))
        row = self.rows.setdefault(said[0], dict.fromkeys(COLUMNS) | {"flight": said[0], "status": "BLOCKED", "rule": "TOBT", "group": "M"})
        column = {"FLT": "priority", "PRIO": "priority", "STAND": "stand", "RWY": "runway", "CTOT": "ctot", "GROUP": "group",
                  "TOBT": "tobt"}.get(kind)
        if column:
            row[column] = int(said[1]) if column == "priority" else None if said[1] == "-" else said[1]
        if row["tobt"]:
            row |= {"status": "PLANNED", "tsat": row["tobt"], "ttot": row["tobt"], "delay": 0, "rule": None}
        if kind == "CNL":
            row |= {"status": "CANCELLED", "tsat": None, "ttot": None, "delay": None, "rule": None}
        return None, [dict(row)] if row != before else []

    def plan(self, scenario, refused):
        rows = [row for _, row in sorted(self.rows.items())]
        return {"scenario": scenario, "day": self.day, "now": self.now, "placed": sum(row["status"] == "PLANNED" for row in rows),
                "delay": 0, "max": 0, "late": 0, "blocked": sum(row["status"] == "BLOCKED" for row in rows), "rules": {},
                "flights": rows, "refused": refused}


def records(path):
    return [line.split(",") for line in open(path).read().splitlines() if line]


def feed(day, path):
    refused = []
    for number, fields in enumerate(records(path), 1):
        word, _ = day.take(fields)
        if word:
            refused.append({"record": number, "word": word})
    return refused


def scenarios(path):
    found = {}
    for number, fields in enumerate(records(path), 1):
        if fields[0] == "SCENARIO" and len(fields) == 2:
            name = fields[1]
            found[name] = []
        elif not found or fields[0] not in KINDS:
            raise Fault(f"cdmseq: SCENARIOS record {number}: {'ORDER' if not found else 'KIND'}", 3)
        else:
            found[name].append(fields)
    return found


def serve(airport, journal):
    day = Day(airport)
    lock = open(journal + ".lock", "a")
    fcntl.lockf(lock, fcntl.LOCK_EX | fcntl.LOCK_NB)
    for refused in feed(day, journal) if os.path.exists(journal) else ():
        raise Fault(f"cdmseq: JOURNAL record {refused['record']}: {refused['word']}", 3)
    with open(journal, "a") as kept:
        out({"ready": day.accepted})
        for number, line in enumerate(sys.stdin, 1):
            fields = line.rstrip("\n").split(",")
            word, changes = day.take(fields)
            if word:
                out({"record": number, "reply": "REFUSED", "word": word, "sentence": "toy sentence"})
                continue
            kept.write(line)
            kept.flush()
            out({"record": number, "reply": "ACCEPTED", "accepted": day.accepted, "changes": changes})


def shift(day, command, words, options):
    """Toys of the three: all that start up at all, all that are blocked, how many there are."""
    if words and not (command == "next" and len(words) == 1 and words[0].isdecimal() and 1 <= int(words[0]) <= 2880):
        raise Fault(f"error: invalid value '{words[0]}'", 2)
    if "--by" in options and (command != "causes" or options["--by"] not in ("runway", "operator")):
        raise Fault(f"error: invalid value '{options['--by']}' for '--by'", 2)
    rows = [row for _, row in sorted(day.rows.items())]
    placed, blocked = ([row for row in rows if row["status"] == status] for status in ("PLANNED", "BLOCKED"))
    found = {"next": [{name: row.get(name) for name in "tsat flight runway stand tobt ctot ttot delay cause".split()} for row in placed],
             "warnings": [{"kind": "BLOCKED"} | {name: row.get(name) for name in "flight runway time ctot ttot rule placed cap".split()} for row in blocked],
             "causes": [{"group": "TOTAL", "placed": len(placed), "by": options.get("--by"), "blocked": len(blocked)}]}[command]
    if options.get("--format") == "json":
        for one in found:
            out(one)
    else:
        print(f"DAY {day.day} NOW {day.now}")
        for one in found:
            print(command.upper(), *one.values())
    return 0


def following(day):
    return str(datetime.date.fromisoformat(day) + datetime.timedelta(days=1))


def told_time(time):
    return time[8:10] + time[11:13] + time[14:16]


def carried(today, feed, tomorrow):
    """The records that go on, and what is told; nobody is ever off-block."""
    day, begin, numbered = Day(today), tomorrow.day + "T00:00Z", []
    for number, fields in enumerate(records(feed), 1):
        if day.take(fields)[0] is None:
            numbered.append((number, fields))
    gone = {name for name, row in day.rows.items() if row["status"] == "CANCELLED"}
    made, refused, earlier = [], [], []
    for number, (role, kind, *said) in numbered:
        of, forms = KINDS[kind][0], KINDS[kind][2]
        if of == "flight" and said[0] in gone or kind == "CLOCK" and said[0] < begin:
            continue
        if kind in ("RATE", "CLOSE", "OPEN") and said[2] <= begin:
            continue
        said = [max(begin, field) if form in ("time", "ctot") and field != "-" else field for form, field in zip(forms, said)]
        word, _ = tomorrow.take([role, kind, *said])
        if word is None:
            made.append(",".join([role, kind, *said]))
        else:
            refused.append(f"REFUSED {number} {word} {','.join([role, kind, *said])}")
    for name, row in sorted(day.rows.items()):
        for kind in ("tobt", "ctot"):
            if name not in gone and row[kind] and row[kind] < begin:
                earlier.append(f"EARLIER {name} {kind.upper()} {told_time(row[kind])}")
    # A toy for what the real rule says of flights that are off-block: such flights have this stand.
    left = [f"LEFT    {name} {row['runway']} AOBT 102350 TTOT 110005" for name, row in sorted(day.rows.items()) if row["stand"] == "LEFT"]
    return made, [*left, *earlier, *refused, f"GONE    {len(gone)}", f"STAY    {len(day.rows) - len(gone)}"], bool(left or earlier or refused)


def carry(today, feed, next_airport, is_told):
    tomorrow = Day(next_airport)
    wanted, here = following(Day(today).day), tomorrow.day
    if here != wanted:
        raise Fault(f"cdmseq: NEXT_AIRPORT: its day is {here}, and the day after AIRPORT is {wanted}", 3)
    lines, told, is_much = carried(today, feed, tomorrow)
    for line in told if is_told else lines:
        print(line)
    return 4 if is_told and is_much else 0


def main(words):
    options = {name: words[words.index(name) + 1] for name in ("--format", "--scenarios", "--scenario", "--by") if name in words}
    command, *rest = [word for word in words if word not in options and word not in options.values()]
    if command == "--version":
        print("cdmseq 0.1.0 (rules 1)")
        return 0
    if command == "kinds":
        for kind, (of, roles, fields) in KINDS.items():
            out({"kind": kind, "of": of, "roles": roles, "fields": [{"name": name, "form": FORMS[name], "range": ""} for name in fields]})
        return 0
    if command == "serve":
        serve(*(word for word in rest if word != "--sentences"))
        return 0
    if command == "carry":
        return carry(rest[0], rest[1], [word for word in rest if word != "--tell"][2], "--tell" in rest)
    day = Day(rest[0])
    if command == "trace":
        for number, fields in enumerate(records(rest[1]), 1):
            word, changes = day.take(fields)
            if word:
                out({"record": number, "reply": "REFUSED", "word": word})
            elif changes:
                out({"record": number, "reply": "ACCEPTED", "accepted": day.accepted, "changes": changes})
        return 0
    refused = feed(day, rest[1])
    asked = scenarios(options["--scenarios"]) if "--scenarios" in options else {}
    if "--scenario" in options:
        if options["--scenario"] not in asked:
            raise Fault(f"cdmseq: no scenario {options['--scenario']}", 3)
        for fields in asked[options["--scenario"]]:
            day.take(fields, True)
    if command == "check":
        for found in refused:
            out({"path": rest[1], "line": found["record"], "record": found["record"], "word": found["word"], "sentence": "toy sentence"})
        out({"records": len(records(rest[1])), "refused": len(refused)})
        return 4 if refused else 0
    if command == "plan":
        if options.get("--format") == "json":
            out(day.plan(None, refused))
            for name, updates in asked.items():
                other = Day(rest[0])
                feed(other, rest[1])
                words = [other.take(fields, True)[0] for fields in updates]
                number = next((number for number, word in enumerate(words, 1) if word), 0)
                out({"scenario": name, "update": number, "word": words[number - 1]} if number else other.plan(name, []))
        else:
            print(f"DAY {day.day} NOW {day.now}")
            for name, row in sorted(day.rows.items()):
                print(name, row["status"], row["tsat"])
        return 0
    if command == "why":
        if rest[2] not in day.rows:
            raise Fault(f"cdmseq: no flight {rest[2]}", 3)
        if options.get("--format") == "json":
            out({"row": day.rows[rest[2]], "ice": {"kind": "NONE", "minutes": 0}, "now": day.now, "waits": []})
        else:
            print(f"FLIGHT {rest[2]} {day.rows[rest[2]]['status']}")
        return 0
    if command == "load":
        for runway in sorted(day.runways):
            told = {"runway": runway, "cells": [row["flight"] for _, row in sorted(day.rows.items()) if row["runway"] == runway]}
            out(told) if options.get("--format") == "json" else print(*told.values())
        return 0
    if command == "compare" and options.get("--format") == "json":
        plan = day.plan(None, [])
        out({name: plan[name] for name in ("scenario", "placed", "delay", "max", "late", "blocked")} | {"moved": 0})
        for name in scenarios(rest[2]):
            out({"scenario": name})
        return 0
    if command == "compare":
        for name in ("SCENARIO", "-", *scenarios(rest[2])):
            print(name)
        return 0
    if command in ("next", "warnings", "causes"):
        return shift(day, command, rest[2:], options)
    raise Fault(f"error: unrecognized subcommand '{command}'", 2)


if __name__ == "__main__":
    try:
        sys.exit(main(sys.argv[1:]))
    except Fault as fault:
        print(fault.args[0], file=sys.stderr)
        sys.exit(fault.args[1])
    except BrokenPipeError:
        sys.exit(1)
    except OSError as fault:
        print(f"cdmseq: {fault.filename}: {fault.strerror}", file=sys.stderr)
        sys.exit(1)
