"""usage: tomoyo trace [LOG]

Makes the trace of the audit log of a machine with TOMOYO Linux, by
the program tomoyo_trace, and tells by reasons how many records were
left out, or had something supposed of them. LOG is the log's name;
without one standard input is read. `tomoyo_trace LOG` tells of each
record instead.

Reads    the log
Stores   nothing
Prints   the trace, for `tomoyo trace LOG > trace`; on standard error
         a line for each reason, and the counts of the whole log

Exit statuses: 0 done, whatever the log holds; 1 bad words; 2 the log
can't be read; 10 standard output or standard error can't be written;
11 out of memory; 12 a fault of the program; 70 the program can't be
asked.
"""
import re
import sys
from collections import Counter

from texts import lines_of

RECORD = re.compile(r"record \d+ line \d+: (.*)")
NUMBER = re.compile(r"\b(tree|process|thread|pid|to|as) \d+")
DOMAIN = re.compile(r" (in|to) <.*?(?=: no execute| and goes on as| by a manual|$)")

REASONS = {
    "cut": "the record has fewer than three lines",
    "long": "the record has more than three lines",
    "header": "its first line is no header of a record",
    "domain": "its second line is no domain",
    "request": "its third line is no request",
    "flag": "the kernel set a flag of a domain, or gave a new one its profile and groups",
    "arguments": "the header lacks the arguments of an execute, or the target of a symlink",
}


def reason(told):
    """What is told of a record, without the numbers of its processes, and without the domain
    unless domain_policy must have it."""
    left_out = told.removeprefix("left out: ")
    if left_out != told:
        return "%s: %s" % (told, REASONS[left_out]) if left_out in REASONS else told
    told = NUMBER.sub(r"\1 N", told)
    return told if "domain_policy must have it" in told else DOMAIN.sub(r" \1 a domain", told)


def main(_):
    """Sums the report that standard input has."""
    reasons, others = Counter(), []
    for line in lines_of(sys.stdin.buffer.read().decode("latin-1")):
        found = RECORD.fullmatch(line)
        if found:
            reasons[reason(found.group(1))] += 1
        else:
            others.append(line)
    for told, count in reasons.most_common():
        print("%7d %s" % (count, told))
    for line in others:
        print(line)
    return 0
