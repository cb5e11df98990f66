"""Times numpy's busday_count for portfolios and prints its version, then for each the nanoseconds of the best run and
its counts. Standard input has the weekday holidays in a line, then two lines for each portfolio: its first days and its
second days. All days are counted from 1 January 1970 on. The status is 3 if there is no numpy."""

import sys
import time

try:
    import numpy
except ImportError:
    sys.exit(3)

RUNS = 1000


def days(line, later=0):
    return (numpy.array(line.split(), dtype="int64") + later).astype("datetime64[D]")


def timed(begin, end, calendar, counts):
    start = time.perf_counter_ns()
    numpy.busday_count(begin, end, busdaycal=calendar, out=counts)
    return time.perf_counter_ns() - start


holidays, *lists = sys.stdin.read().splitlines()
calendar = numpy.busdaycalendar(holidays=days(holidays))
print(numpy.__version__)
for first, second in zip(lists[::2], lists[1::2]):
    # Its count is from the first day on up to the day before the second, ours from the day after up to the second.
    begin, end = days(first, 1), days(second, 1)
    counts = numpy.empty(len(begin), dtype="int64")
    print(min(timed(begin, end, calendar, counts) for _ in range(RUNS)))
    print(*counts)
