#!/usr/bin/env python3
"""The files of the program agree are those that its generator writes now; and among its calls, as the second implementation answers them, are
rows that are taken, empty rows, rows that are refused with 20, 21 and 22, and ones in which a loop of the whole capacity starts, a transition
starts whose signal was up before, and one starts and ends, or the generator fails."""

import paths

import generated
import make_agree_calls
import report

files = make_agree_calls.files()
faults = generated.stale(make_agree_calls.folder, files)
report.close(len(files) - len(faults), faults)
