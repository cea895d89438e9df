#!/usr/bin/env python3
"""The files of the program card_cases are those that its generator writes now, and they have each answer of readers and writers at least
twice."""

import paths

import generated
import make_card_cases
import net
import report


def refusals(*numbers):
    return ["ok", *(f"no {number}" for number in numbers)]


# A card that is written ends with its last field and zeros, so that it is never 1 or 9.
WRITTEN = net.PASS_ONE[1:-1]
ANSWERS = {
    "read": refusals(*net.PASS_ONE),
    "check": refusals(*net.PASS_ONE, *net.PASS_TWO),
    "spell": ["short", *refusals(*WRITTEN, 17)],
    "write": refusals(*WRITTEN, *net.PASS_TWO, 17, 24),
}


def rare(lines):
    """The answers that are not there twice."""
    answers = [f"{who} {answer}" for who, list_ in ANSWERS.items() for answer in list_]
    return [answer for answer in answers
            if sum(line.startswith(f"{answer} ") for line in lines) < 2]


def main():
    files = make_card_cases.files()
    faults = generated.stale(make_card_cases.folder, files)
    faults += [f"{answer} is not there twice" for answer in rare(files["stdout"].decode().split("\n"))]
    report.close(len(files) + sum(map(len, ANSWERS.values())) - len(faults), faults)


main()
