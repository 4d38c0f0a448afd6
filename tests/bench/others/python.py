"""ROUNDS QUESTIONS ZONE...: asks zoneinfo for the offsets of the zones in turn. Prints their sum in seconds, and the least time of a question
in ns."""

import sys
from datetime import datetime
from time import perf_counter_ns
from zoneinfo import ZoneInfo

rounds, questions, zones = int(sys.argv[1]), int(sys.argv[2]), sys.argv[3:]
least = float("inf")
for _ in range(rounds):
    start = perf_counter_ns()
    total = 0
    for i in range(questions):
        offset = datetime.fromtimestamp(1_700_000 * i, ZoneInfo(zones[i % len(zones)])).utcoffset()
        total += offset.days * 86_400 + offset.seconds
    least = min(least, (perf_counter_ns() - start) / questions)
print(total, least)
