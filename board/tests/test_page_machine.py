"""The page's own machine, driven by its simulator (board/tests/simulator) through schedules drawn by a seed. Each fault that it once had is
put back as an edit: then the law that it breaks is broken again, in the schedule of its seed."""
import re
import shutil
import subprocess
import tempfile
from pathlib import Path

import pytest
from conftest import ROOT

SIMULATOR = ROOT / "board/tests/simulator/page.mjs"
SCHEDULES = 50_000
# The fault, the law that it breaks, a seed whose schedule shows it, with the simulator's word for its kind if it isn't of the usual one, and the
# edits: a file of the page, its words, and what stands there instead.
FAULTS = [
    ("a reset asks for the old position, of whichever log", "Arrives", 211, [
        ("answers.js", "this.need ? this.need.position :", "this.need ? Math.max(this.need.position, this.rows?.position ?? 0) :")]),
    ("a reset during a read is dropped", "Arrives", 553, [
        ("reading.js", "  readAnew(isOther = false) {", "  readAnew(isOther = false) {\n    if (this.need) return;")]),
    ("a sign-in during a read ends the page", "Alive", 37, [
        ("session.js", "  begin() {\n", "  begin() {\n    if (this.questions.isAsked('plan')) {\n      for (const ask of [...this.asks.values()]) this.abandon(ask);\n"
         "      this.questions.clear();\n      this.closeStream();\n      this.who = null;\n      return;\n    }\n")]),
    ("a record without a reply gets a second key", "Said", 165, [
        ("sending.js", "    if (!isAgain && isNothingTaken(answer)) return", "    if (isNothingTaken(answer)) this.unknown.delete(line);\n"
         "    if (isNothingTaken(answer)) return")]),
    ("a CLOCK that came as a reset isn't counted", "Arrives", 21, [
        ("reading.js", "    if (this.history.since >= this.history.until) this.endHistory();", "    if (!this.history.isFirst || this.history.since >= this.history.until) this.endHistory();")]),
    ("one answer that isn't understood ends all questions", "Alive", 40, [
        ("answers.js", "      isTaken = false;\n      fault =", "      if (ask.name !== 'who') throw new Error('not JSON');\n      isTaken = false;\n      fault =")]),
    ("what a box failed to show is never shown", "Arrives", 622, [
        ("machine.js", "    this.isBroken = true;\n", "    if (part) return;\n")]),
    ("a log that is away isn't shown", "Arrives", 29, [
        ("answers.js", "      if (event.status === 200) this.takeStale(told.stale_since ?? null);", "      void told;")]),
    ("a silent break is told late", "Shown", 233, [
        ("limits.js", "export const QUIET = 17000;", "export const QUIET = 25000;")]),
    ("a server that is behind leaves a gap after a reset", "Arrives", 518, [
        ("reading.js", "    if (moment.position < need.position) return false;\n", ""),
        ("answers.js", "this.need ? this.need.position :", "this.need ? 0 :")]),
    ("a panel shows records of a day that is gone", "Shown", 117, [
        ("reading.js", "    this.order({ do: 'show', what: 'empty' });\n", "")]),
    ("Retry-After isn't heeded", "Heeded", 5, [
        ("questions.js", "retry * 1000 * (1 + chance / 4)", "0")]),
    ("a server with another past under the same name isn't seen", "Shown", 4095, [
        ("following.js", "else if (isSameMoment(rows, stream.moment) && !this.isBroken)", "else if (!this.isBroken)"),
        ("following.js", "if (this.isOfOtherPast(reply)) {", "if (false) {"),
        ("reading.js", " || moment.position === need.position && !isSameMoment(moment, need)", "")]),
    ("events of another past than the plan's", "Shown", 1018863, [
        ("following.js", "return this.isUntold && position > rows.position && at < rows.lastAt;", "return false;")]),
    ("a plan of another past than the events'", "Shown", 4095, [
        ("reading.js", " || moment.position === need.position && !isSameMoment(moment, need)", "")]),
    ("what a log has lost since it was shown stays", "Arrives", 27473, [
        ("views.js", "      if (stream.lacks < MOST_AHEAD) return false;\n", "      if (stream.lacks) return false;\n")]),
    ("a record in the place of one that was lost isn't looked at", "Arrives", 21727, [
        ("reading.js", "was ? was.position - RECENT :", "was ? was.position :")]),
    ("a CLOCK that a box failed to show isn't counted", "Arrives", 1232822, [
        ("reading.js", "was ? was.position - RECENT :", "was ? was.position - 1 :")]),
    ("totals that are newer than the rows are shown", "Shown", 21, [
        ("answers.js", "    if (ask.name === 'totals') this.holdTotals(", "    if (ask.name === 'totals') this.takeTotals(")]),
    ("totals of a refused record that is lost are those of another one in its place", "Arrives", "5 --replaced", [
        ("views.js", "      if (isSameMoment(held.of, rows)) this.takeTotals(", "      if (held) this.takeTotals(")]),
    ("totals behind a refused record in the place of a lost one aren't asked for again", "Arrives", "5 --replaced", [
        ("views.js", "      else this.questions.want('totals', this.at + this.chance() * SOON);\n", "")]),
    ("old totals aren't said to be old", "Shown", 4, [
        ("views.js", "const isOld = isOlder(of, this.rows);", "const isOld = false;")]),
    ("a change of day keeps the old date", "Shown", 2, [
        ("day.js", "date: plan.day, now: plan.now", "date: this.date || plan.day, now: plan.now")]),
    ("a change of day keeps the rows that are gone", "Shown", 2, [
        ("day.js", "const rows = new Map(plan.flights.map((row) => [row.flight, row]));",
         "const rows = new Map([...this.rows.values(), ...plan.flights].map((row) => [row.flight, row]));")]),
    ("what was sent in the day before is sent as another record", "Said", 52, [
        ("reading.js", "    this.forgetOperators();\n    this.order(", "    this.forgetOperators();\n    this.sending.unknown.clear();\n    this.order(")]),
    ("a panel lists records of the day before", "Shown", 29, [
        ("reading.js", "    this.order({ do: 'show', what: 'past' });\n", "")]),
    ("a panel lists records of the day before again, as they were asked for", "Shown", 506, [
        ("answers.js", "ask.name === 'log' ? ask.path.endsWith(this.day.date) :", "ask.name === 'log' ||")]),
    ("the list of the log lacks the new day", "Shown", 29, [
        ("machine.js", " * LOG}&day=${this.day.date}` },", " * LOG}` },"),
        ("answers.js", "ask.name === 'log' ? ask.path.endsWith(this.day.date) :", "ask.name === 'log' ||")]),
    ("the operators are those of the day before", "Arrives", 2, [
        ("reading.js", "    this.forgetOperators();\n    this.order(", "    this.order(")]),
    ("the operators of a past that is lost are taken, of the same position", "Arrives", 273516, [
        ("answers.js", "    if (position === rows.position && !isSameMoment({ log, position, lastAt }, rows)) return !stale && this.isStranger();\n", "")]),
    ("what was of a past that is lost stays behind a later plan", "Arrives", 21727, [
        ("reading.js", "    if (list.some(isOther)) {\n", "    if (false) {\n")]),
    ("the operators of records that are lost stay", "Arrives", 700848, [
        ("views.js", "position > this.rows.position ? position : Infinity", "Infinity")]),
    ("the operators that came while the plan was read are dropped", "Arrives", 81, [
        ("reading.js", "    if (!this.operators || this.operatorsAt < Infinity) this.forgetOperators();", "    if (this.operators && this.operatorsAt < Infinity) this.forgetOperators();")]),
    ("the operators that a box failed to show are never shown", "Arrives", 2977, [
        ("machine.js", "      if (part === 'operators') this.operators = false;\n", "")]),
    ("how many records are left is of the day before", "Arrives", 12, [
        ("reading.js", "    if (this.who?.kinds.length) this.questions.want('who', this.at + this.chance() * SOON);\n", "")]),
    ("how many records are left is of a day that is lost", "Arrives", 1266969, [
        ("session.js", "    return this.isWhoOfDay;\n", "    return true;\n"),
        ("reading.js", "    else if (!this.isWhoOfDay) this.questions.want('who', this.at + this.chance() * SOON);\n", "")]),
    ("how many records are left is of a day that ended before the first plan", "Arrives", 62, [
        ("reading.js", "    else if (!this.isWhoOfDay) this.questions.want('who', this.at + this.chance() * SOON);\n", "")]),
    ("a question of who spoke before signs out who speaks now", "Alive", 6982, [
        ("machine.js", "    if (status === 401 && this.who) this.questions.wantNow('who', this.at);\n",
         "    if (status === 401) this.signedOut('a token of a desk is needed');\n")]),
    ("what could help a flight is shown in the panel of another one", "Shown", "220 --helped", [
        ("machine.js", "    this.panel = { open, flight };\n    this.dropHelp();\n", "    this.panel = { open, flight };\n")]),
    ("what could help isn't asked after the connection was opened again", "Arrives", "3 --helped", [
        ("following.js", "    if (this.isHelpAsked) this.questions.want('options', this.at);\n", "")]),
    ("what could help is asked again by itself where it has no answer", "Heeded", "32 --helped", [
        ("answers.js", "    if (name === 'options') this.dropHelp();\n", "")]),
    ("what could help is asked again by itself once it is shown", "Heeded", "28 --helped", [
        ("answers.js", "    this.isHelpAsked = false;\n    this.showAnswer(", "    this.showAnswer(")]),
    ("what could help in the day before is asked in the next one", "Heeded", "5 --helped", [
        ("reading.js", "    this.dropHelp();\n", "")]),
    ("who waits for what could help isn't told that it couldn't be shown", "Arrives", "14457 --helped", [
        ("machine.js", "      if (part === 'options') this.unanswered({ name: part }, 'it couldn’t be shown');\n", "")]),
    ("what could help is said to be of the moment of the rows", "Shown", "5 --helped", [
        ("answers.js", "{ log, position, lastAt });\n    return true;", "{ log, position: this.rows.position, lastAt });\n    return true;")]),
]


def simulated(*words, page=None):
    """A run of the simulator: its status, and what it says."""
    folder = ("--page", str(page)) if page else ()
    ended = subprocess.run(["/usr/bin/node", SIMULATOR, *words, *folder], capture_output=True, text=True, timeout=600)
    assert ended.stderr == ""
    return ended.returncode, ended.stdout


def page_with(edits, folder):
    """A copy of the page in which a fault is put back."""
    page = shutil.copytree(ROOT / "board/page", folder / "page")
    for file, words, instead in edits:
        text = (page / file).read_text()
        assert text.count(words) == 1, words
        (page / file).write_text(text.replace(words, instead))
    return page


@pytest.fixture(autouse=True)
def node(request):
    if not shutil.which("/usr/bin/node"):
        pytest.skip(f"{request.node.name}: nodejs is missing")


def test_no_schedule_breaks_a_law():
    status, said = simulated("--schedules", str(SCHEDULES), "--seed", "1")
    found = re.search(r"(\d+) schedules, (\d+) steps, ([\d.]+) s of a processor: (\d+) broke a law$", said.rstrip())
    assert status == 0 and found, said
    assert int(found[1]) == SCHEDULES and int(found[2]) > 50 * SCHEDULES and int(found[4]) == 0


def test_no_schedule_in_which_somebody_asks_what_could_help_breaks_a_law():
    status, said = simulated("--helped", "--schedules", str(SCHEDULES // 10), "--seed", "1")
    assert status == 0 and re.search(rf"^{SCHEDULES // 10} schedules, .*: 0 broke a law$", said.rstrip()), said


@pytest.mark.parametrize(("law", "seed", "edits"), [words[1:] for words in FAULTS], ids=[words[0] for words in FAULTS])
def test_a_fault_is_found_by_its_seed(tmp_path, law, seed, edits):
    words = ["--schedules", "1", "--seed", *str(seed).split()]
    status, said = simulated(*words, page=page_with(edits, tmp_path))
    assert status == 1 and f"seed {words[3]} breaks {law}: " in said, said
    # The page as it is holds the law in the same schedule.
    assert simulated(*words)[0] == 0


DRIVEN = """
import { Machine } from './board/page/machine.js';
const machine = new Machine(() => 0.5);
const asked = [];
let at = 0;
const [shown, enabled] = [[], []];
const give = (event) => {
  for (const order of machine.take({ at, now: at, ...event })) {
    if (order.do === 'ask') asked.push({ ...order, at });
    else if (order.do === 'show') shown.push(order);
    else if (order.do === 'enable') enabled.push(order.why || 'can');
  }
};
const answerTo = (id, list, position, lastAt) => give({ type: 'answer', id, status: 200, log: 'L', position, lastAt, stale: null,
  retry: 0, detail: '', isOwn: true, text: list.map((one) => JSON.stringify(one)).join('\\n') });
const answer = (name, ...words) => answerTo(asked.findLast((one) => one.name === name).id, ...words);
const reply = (position) => `id: L-${position}\\nevent: reply\\ndata: ${JSON.stringify({ position, desk: 'AO', line: 'TOBT,A', at: String(position), reply: 'ACCEPTED', changes: [] })}\\n\\n`;
give({ type: 'start' });
answer('who', [{ desk: 'AO', role: 'AO', roles: [], kinds: ['TOBT'] }], NaN);
answer('kinds', [{}], NaN);
const { number } = machine.stream;
give({ type: 'opened', stream: number });
give({ type: 'chunk', stream: number, text: 'id: L-1\\nevent: from\\ndata: {"position":1,"at":"1"}\\n\\n' });
const plan = [{ day: '2025-03-10', now: '', flights: [] }];
answer('plan', plan, 1, '1');
// For so many milliseconds all questions are answered, each by [list, position, when its record was taken].
const pass = (milliseconds, answers = {}, usual = [[{}], 1, '1']) => {
  for (const end = at + milliseconds; at < end; at += 100) {
    give({ type: 'wake' });
    for (const one of asked.filter((ask) => !ask.isDone)) {
      one.isDone = true;
      answerTo(one.id, ...answers[one.name] ?? usual);
    }
  }
};
"""


def driven(script):
    """What a script prints that drives the machine from its first plan on, at record 1."""
    ended = subprocess.run(["/usr/bin/node", "--input-type=module", "-e", DRIVEN + script], cwd=ROOT, capture_output=True, text=True, timeout=60)
    assert ended.returncode == 0, ended.stderr
    return ended.stdout.split()


def test_what_is_asked_again_is_asked_at_most_once_a_second():
    """Records for ten seconds, ten a second, and answers at once: no question is asked twice within a second."""
    told = driven("""
        asked.length = 0;
        give({ type: 'openPanel', open: 'flight', flight: 'AB1' });
        for (let position = 2; position < 102; position += 1) {
          at += 100;
          give({ type: 'chunk', stream: number, text: reply(position) });
          for (const one of asked.filter((ask) => !ask.isDone)) {
            one.isDone = true;
            give({ type: 'answer', id: one.id, status: 200, log: 'L', position, stale: null, retry: 0, detail: '', isOwn: true, text: '{}' });
          }
        }
        for (const name of ['totals', 'next', 'warnings', 'load', 'records']) {
          const times = asked.filter((one) => one.name === name).map((one) => one.at);
          console.log(times.length, Math.min(...times.slice(1).map((time, index) => time - times[index])));
        }""")
    counts, pauses = [int(count) for count in told[::2]], [float(pause) for pause in told[1::2]]
    assert len(counts) == 5 and all(1 < count <= 11 for count in counts) and all(pause >= 1000 for pause in pauses)


def test_an_older_answer_is_dropped():
    """A balancer's other server may be behind: what it answers of an older record isn't shown over a newer one."""
    assert driven("""
        const round = (position) => {
          for (let step = 0; step < 60; step += 1) {
            at += 100;
            give({ type: 'wake' });
            const one = asked.find((ask) => !ask.isDone && ask.name === 'next');
            if (one) { one.isDone = true; give({ type: 'answer', id: one.id, status: 200, log: 'L', position, stale: null, retry: 0, detail: '', isOwn: true, text: '{}' }); return; }
            const other = asked.findLast((ask) => !ask.isDone);
            if (other) { other.isDone = true; give({ type: 'answer', id: other.id, status: 200, log: 'L', position: 7, stale: null, retry: 0, detail: '', isOwn: true, text: '{}' }); }
          }
        };
        round(7);
        give({ type: 'chunk', stream: number, text: reply(8) });
        round(6);
        round(8);
        console.log(...shown.filter((one) => one.name === 'next').map((one) => one.position));""") == ["7", "8"]


TOTALS = "console.log(...shown.filter((one) => one.what === 'totals' && one.totals.delay).map((one) => `${one.totals.delay}${one.isOld ? ' old' : ''}`));"


def test_totals_that_wait_are_of_the_past_of_the_rows():
    """Totals of record 3 wait for it. A log that has lost it takes another one: they aren't that one's."""
    assert driven("""
        give({ type: 'chunk', stream: number, text: reply(2) });
        pass(4000, { totals: [[{ delay: 7 }], 3, 'old'] }, [[{}], 2, '2']);
        give({ type: 'chunk', stream: number, text: reply(3) });
        pass(5000, { totals: [[{ delay: 8 }], 3, '3'] }, [[{}], 3, '3']);
        """ + TOTALS) == ["8"]


@pytest.mark.parametrize(("taken", "said"), [("old", ["7"]), ("other", ["8"])], ids=["the same", "another"])
def test_totals_that_wait_for_a_refused_record(taken, said):
    """Totals of record 3 wait. It is told that it was refused, so the rows are of it too; and so are the totals, but not where that is another
    record in its place: then they are asked for again."""
    assert driven(f"""
        give({{ type: 'chunk', stream: number, text: reply(2) }});
        const between = [{{ position: 2, at: '2', reply: 'ACCEPTED' }}, {{ position: 3, at: '{taken}', reply: 'REFUSED' }}];
        pass(4000, {{ totals: [[{{ delay: 7 }}], 3, 'old'] }}, [[{{}}], 2, '2']);
        pass(4000, {{ totals: [[{{ delay: 8 }}], 3, '{taken}'], between: [between, 3, '{taken}'] }}, [[{{}}], 2, '2']);
        """ + TOTALS) == said


@pytest.mark.parametrize(("taken", "plans"), [("old", "1"), ("other", "2")], ids=["the same", "another"])
def test_what_is_ahead_of_the_events_is_of_their_past(taken, plans):
    """What is next was answered of record 2, of which the events tell nothing. Where another record stands in its place, the plan is read anew."""
    assert driven(f"""
        pass(1500, {{ next: [[{{}}], 2, 'old'] }});
        pass(12000, {{ plan: [plan, 1, '1'], ahead: [[{{ position: 2, at: '{taken}', reply: 'REFUSED' }}], 2, '{taken}'] }});
        console.log(asked.filter((one) => one.name === 'plan').length);""") == [plans]


def test_an_answer_of_another_past_is_not_shown():
    """A server without its log still has another record 1 than the one of the rows."""
    assert driven("""
        shown.length = 0;
        pass(5000, { next: [[{}], 1, 'old'] });
        console.log(shown.filter((one) => one.name === 'next').length, shown.filter((one) => one.name === 'load').length > 0);""") == ["0", "true"]


RESET = r"""
const reset = (position, lastAt) => give({ type: 'chunk', stream: machine.stream.number,
  text: `id: L-${position}\nevent: reset\ndata: ${JSON.stringify({ position, at: lastAt })}\n\n` });
const read = (position, lastAt, history = []) => {
  pass(4000, { plan: [plan, position, lastAt], history: [history, position, lastAt] }, [[{}], position, lastAt]);
  console.log(asked.filter((one) => one.name === 'plan').length, shown.filter((one) => one.what === 'empty').length);
};
"""


def test_a_reset_of_another_past_begins_anew():
    """Another record stands in the place of the rows' last one: nothing stays that was of them."""
    assert driven(RESET + "reset(1, 'other'); read(1, 'other');") == ["2", "1"]
    assert driven(RESET + "reset(1, '1'); read(1, '1');") == ["2", "0"]


def test_another_past_is_known_over_a_lost_connection():
    """The plan is asked for again behind where the next events begin, and once."""
    assert driven(RESET + """
        reset(1, 'other');
        give({ type: 'ended', stream: machine.stream.number, status: 0, detail: 'broke', retry: 0 });
        for (; !machine.stream; at += 100) give({ type: 'wake' });
        give({ type: 'opened', stream: machine.stream.number });
        reset(3, '3');
        read(3, '3');""") == ["3", "1"]


def test_another_past_is_known_by_its_records():
    """The plan is of a later record, and behind it one finds that another record stands where the rows' last one stood."""
    found = "[{ position: 1, at: '%s', reply: 'ACCEPTED', line: '' }, { position: 3, at: '3', reply: 'ACCEPTED', line: '' }]"
    assert driven(RESET + f"reset(3, '3'); read(3, '3', {found % 'other'});") == ["3", "1"]
    assert driven(RESET + f"reset(3, '3'); read(3, '3', {found % '1'});") == ["2", "0"]


@pytest.mark.parametrize(("of", "least"), [("{ log: 'L', day: '2025-03-10' }", 1), ("{ log: 'L', day: '2025-03-11' }", 3), ("{ log: 'M', day: '2025-03-10' }", 3)])
def test_who_is_asked_until_it_is_of_the_day_that_is_shown(of, least):
    told = driven(f"""
        asked.length = 0;
        give({{ type: 'tab' }});
        pass(10000, {{ who: [[{{ desk: 'AO', role: 'AO', roles: [], kinds: ['TOBT'], ...{of} }}], NaN] }});
        console.log(asked.filter((one) => one.name === 'who').length);""")
    assert int(told[0]) == 1 if least == 1 else int(told[0]) >= least


def test_why_nothing_can_be_sent():
    """As the log goes away and comes back, and as the connection does."""
    assert driven("""
        enabled.length = 0;
        for (const since of ['2025-03-10T05:00:00Z', undefined]) {
          pass(10000);
          give({ type: 'chunk', stream: number, text: ':\\n\\n' });
          pass(10000, { health: [[{ stale_since: since }], NaN] });
        }
        give({ type: 'ended', stream: number, status: 0, detail: 'broke', retry: 0 });
        console.log(...enabled);""") == ["away", "can", "lost"]


def test_a_first_load_reads_the_plan_once():
    """The events are opened first, and the plan is read behind where they begin."""
    assert driven("""
        console.log(...asked.map((one) => `${one.name}${one.after ? `>${one.after}` : ''}`), shown.filter((one) => one.what === 'plan').length, machine.state);
        """) == ["who", "kinds", "plan>1", "history>1", "1", "live"]


def test_the_day_is_shown_where_events_dont_come():
    """A proxy that lets no events through: the page shows the day all the same, and says that the connection is lost."""
    assert driven("""
        const other = new Machine(() => 0.5);
        const told = [];
        const give_ = (event) => { for (const order of other.take({ at, now: at, ...event })) told.push(order); };
        const answer_ = (name, list) => give_({ type: 'answer', id: told.findLast((one) => one.name === name).id, status: 200, log: 'L', position: 1, stale: null,
          retry: 0, detail: '', isOwn: true, text: list.map((one) => JSON.stringify(one)).join('\\n') });
        give_({ type: 'start' });
        answer_('who', [{ desk: null, role: 'READ', roles: [], kinds: [] }]);
        give_({ type: 'ended', stream: other.stream.number, status: 502, detail: 'bad gateway', retry: 0 });
        answer_('plan', [{ day: '2025-03-10', now: '', flights: [] }]);
        console.log(told.filter((one) => one.what === 'plan').length, other.state);""") == ["1", "lost"]


if __name__ == "__main__":
    # After a change of the page or of the simulator a fault may show in another schedule: prints the first one of each.
    for fault, law, seed, edits in FAULTS:
        with tempfile.TemporaryDirectory() as folder:
            told = simulated("--schedules", "50000", "--until", law, *str(seed).split()[1:], page=page_with(edits, Path(folder)))[1]
        print(fault, re.findall(r"seed (\d+) breaks", told), told.splitlines()[-1], sep=": ", flush=True)
