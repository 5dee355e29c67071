"""A figure stands in one page; what pages repeat of the code and of the tests, and the limits of the server, are as they are there."""
import dataclasses
import os
import pathlib
import re
import shutil
import subprocess
import tomllib

import pytest
from board import answers, callers, day, desks, events, guard, log, questions, records, sessions, signing, unsent, views, web, words, writer
from board.connections import Limits
from conftest import ROOT

MIB = 1 << 20
OF = Limits()
NUMBERS = {8: "eight", 10: "ten", 12: "twelve", 24: "twenty-four"}
# What docs/HTTP.md says, by the server's own numbers.
LIMITS = [
    f"{words.MOST_LINES} records a body, {words.MOST_BYTES} bytes a line, {web.MOST_BODY >> 10} KiB a body",
    f"{desks.Desk.records:,} lines of a desk in a day",
    f"up to {desks.MOST_QUOTA:,})",
    f"{records.TOWERS:,} accepted updates, also those carried over, or {log.MOST_RECORDS - records.RESERVED:,} lines of a day, for desks other than ATC's; {log.MOST_RECORDS:,} lines of a day",
    f"{desks.MOST_RECORDS_WAITING} waiting records of a desk; {desks.MOST_A_SECOND} records a second",
    f"{answers.MOST_QUESTIONS} waiting questions of a desk. Without a desk one waits only while fewer than {answers.MOST_NAMELESS_QUESTIONS} wait",
    f"{answers.PLACE_SECONDS:.0f} seconds until a question begins",
    f"{answers.RUN_SECONDS:.0f} seconds and 2 GiB of memory for a question",
    f"{writer.WAIT_SECONDS:.0f} seconds until the commit of a record begins, {writer.COMMIT_SECONDS:.0f} for the commit; {writer.MOST_WAITING:,} bodies",
    f"{answers.MOST_OUTPUT // MIB} MiB for an answer",
    f"{unsent.MOST_OF_ONE // MIB} MiB of a desk, or of an address without one",
    f"{unsent.MOST_NAMELESS // MIB} MiB of all without a desk; {unsent.MOST_OF_ALL // MIB} MiB of all, the last {unsent.OF_THE_TOWER // MIB} MiB",
    f"{events.MOST_STREAMS} streams of events a desk; {events.MOST_DISPLAYS:,} of all READ desks",
    f"{events.MOST_UNSENT // MIB} MiB of a stream, {events.MOST_UNSENT_OF_ALL // MIB} MiB of all streams",
    f"{OF.opened_without_desk} streams that an address opens in a minute without a token, {OF.opened_by_desk:,} that one desk opens",
    f"{OF.opened_together:,} streams that all addresses open together in {NUMBERS[callers.TOGETHER_SECONDS]} seconds without a token",
    f"{views.MOST_VIEW >> 10} KiB for the view",
    f"{OF.of_address} connections of an address at which no token was shown, {OF.of_known_address:,} of another, {OF.connections:,} in all",
    f"{guard.HEADERS:.0f} s for headers, {questions.BODY_LIMIT:.0f} s for a body",
    f"{callers.MOST_WRONG} wrong tokens of an address",
    f"{callers.MOST_SIGN_INS} sign-ins of a desk",
    f"{signing.SIGN_OUT_LIMIT:.0f} s in which the log takes a sign-out",
    f"at most {day.MOST_FOUND:,} records or {questions.MOST_FOUND_BYTES // MIB} MiB at once",
    f"the changes of the last {day.KEPT:,} records, of {day.KEPT_BYTES // MIB} MiB at most",
    f"as the server answers 504 itself after {records.REPLY_LIMIT:.0f}",
    f"One comes every {events.COMMENT:.0f} seconds",
    f"that changed more than {events.MOST_ROWS} rows",
    f"within {1000 * views.BURST:.0f} ms have one view, and a new view is begun {views.APART} s after",
]


def told(*words):
    """What a script prints, and its exit status."""
    ended = subprocess.run(words, capture_output=True, text=True)
    assert ended.stderr == "", ended
    return ended.stdout, ended.returncode


@pytest.mark.parametrize("words", [("mypy", "--strict", "--scripts-are-modules", "--cache-dir", os.devnull), ("pyflakes3",)], ids=lambda words: words[0])
def test_the_scripts_are_clean(words):
    if not pathlib.Path("/usr/bin", words[0]).exists():
        pytest.skip(f"test_the_scripts_are_clean: {words[0]} is missing")
    ended = subprocess.run([*words, *(ROOT / "tools" / name for name in ("figures", "repeats", "contracts", "cases"))], capture_output=True, text=True)
    assert ended.returncode == 0, ended.stdout


@pytest.mark.parametrize("script", ["prove", "test", "changed", "package", *(f"tools/{name}" for name in ("figures", "repeats", "contracts", "cases"))])
def test_a_script_says_what_it_does(script):
    """And does nothing else: a proof takes an hour."""
    words, status = told(ROOT / script, "--help")
    assert status == 2 and re.match(r"[A-Z]\w+s .*\.\n|Runs the tests", words)


def test_a_figure_stands_in_one_page():
    assert told(ROOT / "tools/figures") == ("", 0)


def test_figures_of_two_pages_are_listed(tmp_path):
    """What stands in both pages, in digits or in words: not what is code or output, nor what is a part of another number, a mode or a time."""
    texts = ("In 20 ms, of 18,000 updates, 0600. Ten\nminutes, ten seconds.\n",
             "Within 20 ms.\n\n    18,000\n\n`18,000` and 118,000; 2025-03-10; at 06:20, 5 ms, 0600; 10 minutes\n")
    for number, text in enumerate(texts):
        (tmp_path / f"{number}.md").write_text(text)
    listed, status = told(ROOT / "tools/figures", tmp_path / "0.md", tmp_path / "1.md")
    assert status == 1 and re.sub(r"\S+/(?=\d\.md)", "", listed) == "10 minute: 0.md:1  1.md:5\n20 ms: 0.md:1  1.md:1\n"


@pytest.mark.parametrize("said", LIMITS)
def test_a_limit_of_the_page_is_the_servers(said):
    assert said in " ".join((ROOT / "docs/HTTP.md").read_text().split())


def test_what_stands_in_the_page_of_desks_is_the_servers():
    """A session, and the numbers that the file of desks may have."""
    text = (ROOT / "docs/RUN.md").read_text()
    assert f"A browser that signs in has a session of {NUMBERS[sessions.SESSION // 3600]} hours" in text
    shown = tomllib.loads(re.search(r"```toml\n(.*?)```", text, re.S)[1])
    assert shown["limits"] == dataclasses.asdict(OF) and shown["desk"]["lh-ops"]["records"] == desks.Desk.records


def test_pages_repeat_what_is_there():
    assert told(ROOT / "tools/repeats") == ("", 0)


@pytest.mark.parametrize("page, old, new, difference", [
    ("docs/MAP.md", "| the table of taxi times | `cdm_flight` |", "| the table of taxi times | `cdm_time` |",
     "docs/MAP.md: cdm_taxi depends on cdm_flight, not on cdm_time"),
    ("docs/PROVED.md", "IfOk result (λ counts. Passed", "IfOk result (λ counts. Written",
     "docs/PROVED.md: what is quoted isn't in crates/cdm_feed/src/runs.rt"),
    ("docs/PROVED.md", "| `may_make` |", "| `may_send` |", "docs/PROVED.md: may_send isn't defined in `cdm_flight/specs/Authority.antt`"),
    ("docs/DEFINITIONS.md", "`cdm_row/specs/Json.antt`", "`cdm_row/specs/Text.antt`",
     "docs/DEFINITIONS.md: no file of a crate is cdm_row/specs/Text.antt"),
    ("README.md", "`cdm_feed::run_asked`, the call", "`cdm_feed::run`, the call",
     "README.md: the call behind `plan` isn't one that crates/cdm_ask/src/asking.rt makes"),
    ("docs/PROVED.md", "the clause `passed` says", "the clause `passed_on` says", "docs/PROVED.md: `passed_on`: no passed_on in the code"),
    ("docs/DECISIONS.md", "**`judge` returns", "**`judge_of` returns", "docs/DECISIONS.md: `judge_of`: no judge_of in the code"),
    ("docs/DECISIONS.md", "(`TAKING_LIMIT` of", "(`TAKING_BOUND` of", "docs/DECISIONS.md: `TAKING_BOUND`: no TAKING_BOUND in the code"),
])
def test_what_is_otherwise_is_found(tmp_path, page, old, new, difference):
    """In a copy of the pages with one of these edits; the code is the repository's own."""
    for name in ("crates", "crates.txt", "board", "packaging"):
        (tmp_path / name).symlink_to(ROOT / name)
    for name in ("README.md", "CONTRIBUTING.md", "docs"):
        (shutil.copytree if (ROOT / name).is_dir() else shutil.copy)(ROOT / name, tmp_path / name)
    text = (tmp_path / page).read_text()
    assert text.count(old) == 1
    (tmp_path / page).write_text(text.replace(old, new))
    listed, status = told(ROOT / "tools/repeats", tmp_path)
    assert status == 1 and difference in listed.splitlines()


def test_the_page_of_contracts_is_made_of_the_code():
    assert told(ROOT / "tools/contracts") == ((ROOT / "docs/CONTRACTS.md").read_text(), 0)


SMALL = """//! A thing.
/// A thing.
pub struct Thing(u8);

/// A way.
pub trait Way {
    /// Goes. And more.
    fn go(&mut self) -> bool
        requires { true }
        ensures ok { yes }
        ensures err { no };
}

impl Way for Thing {
    fn go(&mut self) -> bool
        ensures ok { yes }

        // It is kept.
        ensures kept { same }
    {
        true
    }
}

impl Thing {
    /// How large it is.
    pub fn size(&self) -> u8
        ensures value { result }
    {
        self.0
    }

    /// Nobody sees it.
    fn own(&self)
        ensures one { yes }
        ensures two { yes }
    {
    }
}

/// There is one. It is the same everywhere.
///
/// For whoever asks.
#[tactic(auto)]
pub fn law()
    ensures one { yes }
{}

/// Nobody sees it.
pub fn hidden()
    ensures one { yes }
{}
"""


def test_what_is_made_of_the_code(tmp_path):
    """Of a small crate: a theorem, a call with two clauses, one that keeps a trait and more, and what isn't public."""
    (tmp_path / "tools").mkdir()
    shutil.copy(ROOT / "tools/contracts", tmp_path / "tools")
    (tmp_path / "crates.txt").write_text("# From the bottom up.\ncdm_one:\n")
    (source := tmp_path / "crates/cdm_one/src").mkdir(parents=True)
    (source / "lib.rt").write_text("//! One thing.\n//!\n//! More.\nmod a;\n\npub use a::{Thing, Way, law};\n")
    (source / "a.rt").write_text(SMALL)
    assert told(tmp_path / "tools/contracts")[0].partition("\n## ")[2] == """`cdm_one`

- `Way::go` (`ok`, `err`): Goes.
- `Thing::go` (`kept`): It is kept.
- Theorem `law` (`one`): There is one. It is the same everywhere.
"""
    whole = told(tmp_path / "tools/contracts", "cdm_one")[0]
    assert "\n\nOne thing.\n\n- `Way::go`" in whole and "- `Thing::size` (`value`): How large it is.\n" in whole


def test_each_folder_of_cases_has_a_line():
    listed, status = told(ROOT / "tools/cases")
    assert status == 0 and "\none_flight  0  plan airport.csv feed.csv\n    one flight takes off at TOBT plus EXOT\n" in listed
    assert told(ROOT / "tools/cases", "carry", "the day after the last one of a year")[0].splitlines()[0] == "carry: 1"
    shown = re.search(r"`tools/cases ([\w ]+)` lists those", (ROOT / "cases/README.md").read_text())
    assert shown is not None and re.match(r"carry: [1-9]", told(ROOT / "tools/cases", *shown[1].split())[0])


def test_a_folder_without_a_line_is_found(tmp_path):
    """And one with two, and a line without a folder."""
    for name in ("one", "two", "three"):
        (tmp_path / "cases" / name).mkdir(parents=True)
        (tmp_path / "cases" / name / "args").write_text("plan\nairport.csv\n")
        (tmp_path / "cases" / name / "status").write_text("0\n")
    (tmp_path / "cases/shows").write_text("# A remark.\none, two: the first two\ntwo: twice\nfour: gone\n")
    (tmp_path / "tools").mkdir()
    shutil.copy(ROOT / "tools/cases", tmp_path / "tools")
    listed, status = told(tmp_path / "tools/cases", "first two")
    assert (listed.splitlines(), status) == ([
        "plan: 2", "one  0  plan airport.csv", "    the first two", "two  0  plan airport.csv", "    the first two", "",
        "cases/shows: four is named 1 times, and is not there", "cases/shows: three is named 0 times, and is there",
        "cases/shows: two is named 2 times, and is there"], 1)


def test_the_readme_is_short_and_the_index_has_its_order():
    """What it is, the board, three doors, the commands, a first day, the guarantee last; then each door's pages, in the order of reading."""
    text = (ROOT / "README.md").read_text()
    assert len(text.splitlines()) <= 170
    parts = ["board.png", "## Three doors", "    ./cdmseq plan ", "    ./cdmseq prove", "## A first day", "## Commands", "## The guarantee"]
    assert [text.index(part) for part in parts] == sorted(text.index(part) for part in parts)
    assert re.findall(r"^## (.*)", text, re.M)[-1] == "The guarantee"
    table = (ROOT / "docs/README.md").read_text().partition("\n[examples]")[0]
    assert [name for name in re.findall(r"\]\((?:\.\./)?([A-Z]+)\.md\)", table.partition("|---|")[2])] == [
        "BOARD", "QUESTIONS", "TUTORIAL", "DEFINITIONS", "HTTP", "FORMATS", "RUN", "POSTGRES", "FIGURES", "PROVED", "CONTRACTS", "MAP",
        "CONTRIBUTING", "DECISIONS"]


def test_each_warning_has_its_line_on_the_board_s_page():
    """The kinds of FORMATS, in its order; none is about late flights."""
    specified = re.findall(r"^\| `([A-Z]+) [a-z]", (ROOT / "docs/FORMATS.md").read_text().partition("\n## `warnings`\n")[2].partition("\n## ")[0], re.M)
    explained = re.findall(r"^\| ([A-Z]+) \|", (ROOT / "docs/BOARD.md").read_text().partition("\n## Warnings\n")[2].partition("\n## ")[0], re.M)
    assert len(specified) > 5 and explained == specified


def test_the_service_s_options_are_those_of_the_package():
    """With the name by which the proxy is reached; a service without it answers each request with 421."""
    page, note = ((ROOT / name).read_text() for name in ("docs/RUN.md", "packaging/README.Debian"))
    found = re.search(r"echo '(OPTIONS=.*? --name (\S+) .*?)' \| sudo tee", page)
    assert found is not None and f"echo '{found[1]}' |" in note and f"server_name {found[2]};" in page


def test_what_pages_add_to_the_unit_keeps_its_options():
    """A board with TLS or a log in PostgreSQL has a change of day, too; who pastes the lines has no root certificate in a home."""
    starts = re.findall(r"^ExecStart=/((?:.*\\\n)*.*)$", "\n".join((ROOT / f"docs/{name}.md").read_text() for name in ("RUN", "POSTGRES")), re.M)
    assert len(starts) == 2 and all(start.split()[-2:] == ["$DAY", "$OPTIONS"] for start in starts)
    assert "sslmode=verify-full&sslrootcert=/" in starts[1] and " HOME=${RUNTIME_DIRECTORY} " in starts[1]


def test_each_option_of_the_server_is_explained_to_who_runs_it():
    """And each command."""
    words = (ROOT / "board/__main__.py").read_text()
    pages = "".join((ROOT / f"docs/{name}.md").read_text() for name in ("RUN", "POSTGRES"))
    options = re.findall(r'add_argument\("(--[a-z-]+)"', words)
    commands = set(re.findall(r'command\("(\w+)",', words)) - {"serve"}
    assert len(options) > 10 and len(commands) == 7
    assert [option for option in options if not re.search(rf"{option}\b(?!-)", pages)] == []
    assert [name for name in sorted(commands) if not re.search(rf"\bcdmboard\"? {name}\b", pages)] == []


def test_what_is_installed_is_named_as_it_is():
    """The server's messages and what the package alone has: there is no ./cdmboard where it is installed."""
    files = [*(ROOT / "board").glob("*.py"), *(file for file in (ROOT / "packaging").iterdir() if file.is_file())]
    assert [file.name for file in files if re.search(r"(?<![.\w])\./cdm(?:board|seq)\b", file.read_text())] == []


def test_no_page_teaches_columns_by_their_numbers():
    """They are found by their names: a release may add one."""
    for name in ("README.md", "docs/QUESTIONS.md", "docs/TUTORIAL.md", "docs/HTTP.md", "docs/FORMATS.md"):
        assert not re.search(r"\bawk\b|\bcut -d,", (ROOT / name).read_text()), name


def test_the_version_has_a_section():
    """CHANGELOG has what isn't released yet first, then each release, the newest first, and the program's version among them."""
    first, *releases = re.findall(r"^## \[([^]]+)\]", (ROOT / "CHANGELOG.md").read_text(), re.M)
    version = re.search(r'^pub const VERSION: &str = "(\S+) \(rules \d+\)";$', (ROOT / "crates/cdm_command/src/manual.rt").read_text(), re.M)
    assert first == "Unreleased" and version is not None and version[1] in releases
    assert releases == sorted(releases, key=lambda release: [int(part) for part in release.split(".")], reverse=True)
