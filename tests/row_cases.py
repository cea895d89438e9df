#!/usr/bin/env python3
"""The files of the program row_cases are those that its generator writes now, and they have each answer at least twice."""

import re

import paths

import generated
import make_row_cases
import report

ANSWERS = [r"\d+ ok .*", *(rf"(\d+ )?no {number}( \d+)?" for number in (1, 2, 9, 10, 12, 16, 26, 20, 21, 22, 23, 25)),
           r"flat ok 0 \d+", *(rf"flat no {number} \d+" for number in (1, 2, 26, 24))]


def main():
    files = make_row_cases.files()
    faults = generated.stale(make_row_cases.folder, files)
    lines = files["stdout"].decode("latin1").split("\n")
    faults += [f"{answer} is not there twice" for answer in ANSWERS
               if sum(re.fullmatch(answer, line) is not None for line in lines) < 2]
    report.close(len(files) + len(ANSWERS) - len(faults), faults)


main()
