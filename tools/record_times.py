#!/usr/bin/env python3
"""Records the calendar of python's datetime: the days from 1970-01-01 to the first of each month, 1970 to 2554.

    python3 tools/record_times.py > rust/typebook/tests/months.txt

A line for each year: the year, then twelve numbers. rust/typebook/tests/times.rs holds the two calls against it, day by day.
"""

from datetime import date

EPOCH = date(1970, 1, 1)


def main():
    for year in range(1970, 2555):
        print(year, *((date(year, month, 1) - EPOCH).days for month in range(1, 13)))


if __name__ == "__main__":
    main()
