"""What is measured, for Prometheus: each series is there from the start, at 0."""
from itertools import product

import prometheus_client as prometheus

from board.words import ROLES

# The refusal codes of a record, by which records are counted; one that the program had beside these would be counted too.
CODES = ("FIELDS", "ROLE", "KIND", "TEXT", "RANGE", "AUTHORITY", "UNKNOWN", "EXISTS", "ENDED", "OFFBLOCK", "ORDER", "NOTREADY", "FULL")
# How a question ends: answered by a run or by one that was made before; refused since too many wait; without a place in time; too long
# a run; too long an answer; refused by the program; or a run that failed.
OUTCOMES = ("made", "kept", "too_many", "no_place", "too_slow", "too_large", "refused", "failed")

RECORDS = prometheus.Counter("cdm_records", "Records with a reply", ["role", "reply"])
QUESTIONS = prometheus.Counter("cdm_questions", "Questions, by how they ended", ["outcome"])
REPLY_TIMES = prometheus.Histogram("cdm_reply_seconds", "Seconds of a reply")
DISPLAYS = prometheus.Gauge("cdm_displays", "Displays")
ACCEPTED = prometheus.Gauge("cdm_accepted_updates", "Accepted updates")
LAST_POSITION = prometheus.Gauge("cdm_position", "The last record with a reply")
OF_DAY = prometheus.Gauge("cdm_day_records", "Records of the present day with a reply")
RESTARTS = prometheus.Gauge("cdm_restarts", "Restarts of the sequencer")
NOW = prometheus.Gauge("cdm_now_seconds", "The last CLOCK that was accepted, in seconds since 1970; 0 before the first")
TAKING = prometheus.Gauge("cdm_taking", "1 while records get replies, else 0")
WAITING = prometheus.Gauge("cdm_waiting_records", "Records that wait for their replies")
LOG_READ = prometheus.Gauge("cdm_log_read_age_seconds", "Seconds since the log was last read")
LOG_AWAY = prometheus.Gauge("cdm_log_away_seconds", "For how many seconds the log has been away; 0 while it is there")
UNSENT = prometheus.Gauge("cdm_unsent_bytes", "Bytes of answers that aren't read yet")


def _all_from_the_start() -> None:
    for role, reply in product(ROLES, ("ACCEPTED", *CODES)):
        RECORDS.labels(role, reply)
    for outcome in OUTCOMES:
        QUESTIONS.labels(outcome)


_all_from_the_start()
