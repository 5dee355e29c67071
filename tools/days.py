"""The days that the scripts of cases/ measure: their records, the same each time."""
import random

RUNWAYS = ["07L", "07R", "09", "18", "25L", "25R", "27", "36"]


def moment(minute):
    """A minute of the horizon as a feed writes it."""
    return f"2025-03-{10 + minute // 1440}T{minute % 1440 // 60:02}:{minute % 60:02}Z"


def minute(text):
    """The minute of the horizon that a feed writes so."""
    date, time = text.rstrip("Z").split("T")
    hours, minutes = time.split(":")
    return (int(date[-2:]) - 10) * 1440 + int(hours) * 60 + int(minutes)


def airport():
    """The records of the airport file."""
    yield "DAY,2025-03-10"
    for number, runway in enumerate(RUNWAYS):
        yield f"RUNWAY,{runway},10,4"
        yield f"TAXI,*,{runway},{12 + number}"
        for stand in range(400):
            yield f"TAXI,S{stand},{runway},{8 + (stand * 7 + number * 3) % 20}"


def first_records(chance, name, runway, tobt):
    """The first records of a flight."""
    yield f"AP,FLT,{name},{chance.randrange(3, 7)}"
    yield f"ATC,RWY,{name},{runway}"
    yield f"AP,STAND,{name},S{chance.randrange(400)}"
    yield f"AO,TOBT,{name},{moment(tobt)}"
    yield f"AP,GROUP,{name},{chance.choice('LMMMH')}"


def later_records(chance, number, name, tobt):
    """The later records of a flight, each with the minute at which it comes."""
    late = chance.randrange(30)
    off = tobt + late + chance.randrange(20)
    if number % 4 == 0:
        yield tobt - 120, f"NM,CTOT,{name},{moment(tobt + 40)}"
    if number % 5 == 0:
        yield tobt - 90, f"GH,ICE,{name},{chance.choice(['STAND', 'REMOTE'])},{chance.randrange(5, 15)}"
    if number % 20 == 0:
        yield tobt - 60, f"ATC,PRIO,{name},2"
    yield tobt - 45, f"AO,TOBT,{name},{moment(tobt + late // 2)}"
    yield tobt - 15, f"GH,TOBT,{name},{moment(tobt + late)}"
    yield off, f"ATC,OFF,{name},{moment(off)}"
    yield off + 14, f"ATC,AIR,{name},{moment(off + 14)}"


def of_the_day(chance):
    """A CLOCK every two minutes, and rates, each with the minute at which it comes."""
    for minute in range(120, 1560, 2):
        yield minute, f"ATC,CLOCK,{moment(minute)}"
    for _ in range(270):
        minute = chance.randrange(200, 1300) // 10 * 10
        window = f"{moment(minute + 60)},{moment(minute + 120)}"
        yield minute, f"ATC,RATE,{chance.choice(RUNWAYS)},{window},{chance.randrange(3, 6)}"


def feeds():
    """The records of the day in both orders."""
    chance = random.Random(7)
    first, later = [], list(of_the_day(chance))
    for number in range(2_000):
        name, tobt = f"{chance.choice('ABCDEFGH')}{number:04}", chance.randrange(240, 1380)
        first.append(list(first_records(chance, name, RUNWAYS[number % 8], tobt)))
        later += later_records(chance, number, name, tobt)
    rest = [record for _, record in sorted(later, key=lambda it: it[0])]
    together = [record for records in first for record in records]
    in_turn = [record for records in zip(*first) for record in records]
    return {"together": together + rest, "in turn": in_turn + rest}


def until_noon(records):
    """The records up to the CLOCK of noon: about half of the flights have left then."""
    return records[: records.index(f"ATC,CLOCK,{moment(720)}") + 1]


def scenarios(records):
    """The records of 64 scenarios of 64 updates each, over these: other TOBT of flights that haven't left, and rates."""
    chance = random.Random(9)
    left = {record.split(",")[2] for record in records if record.startswith("ATC,OFF,")}
    names = [record.split(",")[2] for record in records if record.startswith("AP,FLT,")]
    waiting = [name for name in names if name not in left]
    for number in range(64):
        yield f"SCENARIO,S{number}"
        for name in chance.sample(waiting, 60):
            yield f"TOBT,{name},{moment(chance.randrange(720, 1380))}"
        for runway in chance.sample(RUNWAYS, 4):
            yield f"RATE,{runway},{moment(840)},{moment(1080)},{chance.randrange(1, 6)}"


def few_runways(records):
    """The records of 64 scenarios of 64 updates each, as `scenarios`; each of them is about one runway or two."""
    chance = random.Random(9)
    left = {record.split(",")[2] for record in records if record.startswith("ATC,OFF,")}
    runway_of = dict(record.split(",")[2:4] for record in records if record.startswith("ATC,RWY,"))
    for number in range(64):
        yield f"SCENARIO,S{number}"
        runways = chance.sample(RUNWAYS, 1 + number % 2)
        for name in chance.sample([name for name in runway_of if runway_of[name] in runways and name not in left], 60):
            yield f"TOBT,{name},{moment(chance.randrange(720, 1380))}"
        for hour in range(4):
            window = f"{moment(840 + 60 * hour)},{moment(900 + 60 * hour)}"
            yield f"RATE,{runways[hour % len(runways)]},{window},{chance.randrange(1, 6)}"


def crowded_airport():
    """The records of an airport with one runway."""
    yield "DAY,2025-03-10"
    yield "RUNWAY,09,10,10"
    for group, minutes in (("L", 1), ("M", 1), ("H", 2)):
        yield f"SPACE,09,{group},{minutes}"
    yield "TAXI,*,09,12"
    for stand in range(400):
        yield f"TAXI,S{stand},09,{8 + stand % 20}"


def crowded_hour(chance):
    """A TOBT of the hour at which all flights of a crowded day aim."""
    return moment(300 + chance.randrange(60))


def crowded_names():
    """The flights of a crowded day."""
    return [f"C{number:04}" for number in range(2_000)]


def crowded_feed():
    """The records of 2,000 flights that aim at one hour of one runway, five each."""
    chance = random.Random(3)
    for name in crowded_names():
        yield f"AP,FLT,{name},4"
        yield f"ATC,RWY,{name},09"
        yield f"AP,STAND,{name},S{chance.randrange(400)}"
        yield f"AO,TOBT,{name},{crowded_hour(chance)}"
        yield f"AP,GROUP,{name},{chance.choice('LMMMH')}"


def crowded_changes():
    """Another TOBT of 300 of these flights."""
    chance = random.Random(5)
    for name in chance.sample(crowded_names(), 300):
        yield f"AO,TOBT,{name},{crowded_hour(chance)}"


def crowded_scenarios():
    """The records of 64 scenarios over the crowded day, each with another TOBT of 60 flights."""
    chance = random.Random(9)
    for number in range(64):
        yield f"SCENARIO,S{number}"
        for name in chance.sample(crowded_names(), 60):
            yield f"TOBT,{name},{crowded_hour(chance)}"


def junk():
    """Records of 8 MiB that all are refused: one to five fields of letters, digits, colons and hyphens."""
    chance, left = random.Random(5), (8 << 20) - 100
    while left > 0:
        fields = ("".join(chance.choices("ABCDEFXYZ0123456789:-", k=chance.randrange(1, 9))) for _ in range(chance.randrange(1, 6)))
        record = ",".join(fields)
        left -= len(record) + 1
        yield record
