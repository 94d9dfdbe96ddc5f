"""Tests of explain: sentences, refusals, verdicts, ways, changes, and the program beside it."""

import tempfile
from pathlib import Path
from typing import List

from model.limits import KINDS, RECORD_REFUSALS
from model.logtext import REFUSAL_WORDS, assemble
from tests.logtests.wrong import FAULTS, make_program
from tests.tools.session import LOGS, STORIES, Result, Session, logtool, story_log
from tools.explain import Explanation, explain
from tools.phrases import CALLS
from tools.provenance import steps_of
from tools.reasons import WORDINGS

# Short logs that others go on from.
LIVE = "start 0\n"
FILE = LIVE + "create 0 name=5 descriptor=0 container=24\n"
HELD = FILE + "label container=24 item=1\n"
PANEL = HELD + "device 0 descriptor=1 device=panel\nread 0 descriptor=0\n"
READ_MAPPED = FILE + "map-read 0 descriptor=0\n"
BOTH_MAPPED = FILE + "map-both 0 descriptor=0\n"
NESTED = READ_MAPPED + "map-read 0 descriptor=0\n"
MIXED = READ_MAPPED + "map-both 0 descriptor=0\n"
FULL = FILE + "map-read 0 descriptor=0\n" * 255
ALL_OPEN = FILE + "".join(f"open 0 name=5 descriptor={d}\n" for d in range(1, 32))

# The last record of each log, and what must be said of it.
SENTENCES = [
    ("start 3", ["process 3 starts", "allow 0: the call is done", "process 3 is live"]),
    (FILE + "open 0 name=5 descriptor=3", ["process 0 opens name 5 as descriptor 3"]),
    (
        FILE,
        [
            "process 0 creates name 5 as a new file, container 24, open as descriptor 0",
            "- file 24 is in use",
            "- name 5 leads to file 24",
            "- descriptor 0 of process 0 leads to file 24",
        ],
    ),
    (
        LIVE + "pipe 0 descriptors=3,4 container=25",
        [
            "process 0 makes a new pipe, container 25",
            "- descriptors 3, 4 of process 0 lead to pipe 25",
        ],
    ),
    (LIVE + "device 0 descriptor=1 device=panel", ["opens device 1 (panel) as descriptor 1"]),
    (FILE + "dup 0 from=0 to=7", ["copies descriptor 0, file 24, to descriptor 7"]),
    (
        FILE + "close 0 descriptor=0",
        ["closes descriptor 0, file 24", "0 is closed; before: file 24"],
    ),
    (HELD + "read 0 descriptor=0", ["reads from descriptor 0, file 24", "process 0 gained item 1"]),
    (
        PANEL + "write 0 descriptor=1",
        ["writes to descriptor 1, device 1 (panel)", "1 (panel) gained"],
    ),
    (HELD + "truncate 0 descriptor=0", ["truncates", "- file 24 was emptied: item 1 gone"]),
    (
        HELD + "map-read 0 descriptor=0",
        [
            "process 0 maps descriptor 0, file 24, for reading",
            "- process 0 maps file 24 for reading once: this record",
            "- link began: 24 -> process 0",
        ],
    ),
    (
        BOTH_MAPPED,
        [
            "process 0 maps descriptor 0, file 24, both ways",
            "- process 0 maps file 24 both ways once: this record",
            "- link began: process 0 -> 24",
            "- link began: 24 -> process 0",
        ],
    ),
    (
        BOTH_MAPPED + "unmap 0 container=24 both",
        [
            "process 0 unmaps file 24, one mapping both ways",
            "- a mapping both ways ended: that of record 3",
            "- process 0 no longer maps file 24",
            "- link ended: process 0 -> 24",
            "- link ended: 24 -> process 0",
        ],
    ),
    (NESTED, ["changed: process 0 maps file 24 for reading twice: record 3 and this record"]),
    (
        NESTED + "unmap 0 container=24 read",
        [
            "process 0 unmaps file 24, one mapping for reading",
            "- a mapping for reading ended: that of record 4",
            "- process 0 still maps file 24 for reading once: record 3",
            "- link stays: 24 -> process 0, for a mapping is left",
        ],
    ),
    (
        NESTED + "map-read 0 descriptor=0\nmap-read 0 descriptor=0",
        ["changed: process 0 maps file 24 for reading 4 times: records 3 to 5 and this record"],
    ),
    (
        MIXED,
        [
            "- process 0 maps file 24 for reading once: record 3, and both ways once: this record",
            "- link began: process 0 -> 24",
        ],
    ),
    (
        MIXED + "unmap 0 container=24 both",
        [
            "- a mapping both ways ended: that of record 4",
            "- process 0 still maps file 24 for reading once: record 3",
            "- link ended: process 0 -> 24",
            "- link stays: 24 -> process 0, for a mapping is left",
        ],
    ),
    (
        MIXED + "map-both 0 descriptor=0\nunmap 0 container=24 read",
        [
            "- a mapping for reading ended: that of record 3",
            "- process 0 still maps file 24 both ways twice: records 4, 5",
            "- link stays: 24 -> process 0, for a mapping is left",
            "- link stays: process 0 -> 24, for a mapping both ways is left",
        ],
    ),
    # The latest mapping of a sort ends first, also after others of another sort.
    (
        NESTED + "map-both 0 descriptor=0\nunmap 0 container=24 read\nunmap 0 container=24 read",
        [
            "- a mapping for reading ended: that of record 3",
            "- process 0 still maps file 24 both ways once: record 5",
        ],
    ),
    (
        FULL,
        ["maps file 24 for reading 255 times: records 3 to 256 and this record"],
    ),
    (
        NESTED + "fork 0 child=2",
        ["- process 2 maps file 24 for reading twice: this record", "link began: 24 -> process 2"],
    ),
    (
        NESTED + "fork 0 child=2\nmap-read 2 descriptor=0\nmap-read 2 descriptor=0",
        ["for reading 4 times: record 5 (2 of them), record 6 and this record"],
    ),
    (
        NESTED + "fork 0 child=2\nunmap 2 container=24 read",
        [
            "- a mapping for reading ended: that of record 5",
            "- process 2 still maps file 24 for reading once: record 5",
        ],
    ),
    (
        MIXED + "exit 0",
        ["- process 0 no longer maps file 24", "- link ended: 24 -> process 0", "0 is dead"],
    ),
    (FILE + "unlink 0 name=5", ["process 0 unlinks name 5", "name 5 is unbound; before: file 24"]),
    (
        FILE + "rename 0 from=5 to=6",
        [
            "renames name 5 to name 6",
            "- name 5 is unbound; before: file 24",
            "- name 6 leads to file 24",
        ],
    ),
    (
        FILE + "link 0 from=5 to=6",
        ["makes name 6 lead where name 5 leads", "name 6 leads to file 24"],
    ),
    (
        PANEL + "fork 0 child=2",
        [
            "process 0 forks process 2",
            "process 2 is live",
            "process 2 gained item 1",
            "descriptor 0 of process 2",
        ],
    ),
    (
        PANEL + "exit 0",
        ["process 0 exits", "process 0 is dead", "process 0 was emptied: item 1 gone"],
    ),
    (HELD, ["item 1 comes in from outside and is given to file 24", "file 24 gained item 1"]),
    (
        HELD + "close 0 descriptor=0\nunlink 0 name=5",
        ["file 24 was emptied: item 1 gone", "file 24 is no longer in use"],
    ),
    (
        "forbid item=1 in=panel divert=port",
        ["item 1 may not be in device 1 (panel)", "diverted to device 3"],
    ),
    (
        "separate items=1,2 inhibit",
        ["may hold both item 1 and item 2", "inhibited", "1 of 32 rules is held"],
    ),
    ("confine item=1 to=24,process0 inhibit", ["item 1 may be in process 0 and container 24 only"]),
    ("forbid item=1 in=24,process0 inhibit", ["item 1 may not be in process 0 or container 24"]),
    ("forbid item=1 in=none inhibit", ["item 1 may be anywhere, for the set is empty"]),
    ("confine item=1 to=none inhibit", ["item 1 may be nowhere, for the set is empty"]),
]

# Calls that are done and change nothing.
IDLE = [
    (HELD + "label container=24 item=1", ["nothing: file 24 holds item 1 already"]),
    (PANEL + "read 0 descriptor=0", ["nothing: process 0 holds item 1 already"]),
    (FILE + "read 0 descriptor=0", ["nothing: there was nothing to give"]),
    (FILE + "truncate 0 descriptor=0", ["nothing: file 24 is empty already"]),
    (
        HELD + "map-both 0 descriptor=0\ntruncate 0 descriptor=0",
        ["file 24 is not emptied, for a link leads into it: process 0 -> 24 (record 4)"],
    ),
    (FILE + "rename 0 from=5 to=5", ["changed: nothing"]),
]

# Every row of the refusals.
REFUSED = [
    (LIVE + "raw 10", ["refused 1 (cut short)", "1 of 3 bytes is there"]),
    (LIVE + "raw 10 00", ["refused 1 (cut short)", "2 of 3 bytes are there", "copy the log again"]),
    (LIVE + "raw 10 0005 0100", ["refused 1 (cut short)", "5 of 8 bytes are there"]),
    (
        "raw 14 0000",
        [
            "refused 2 (unknown tag)",
            "tag 14 hex is unknown",
            "known tags are 10, 11, 12 and 13 hex",
        ],
    ),
    (
        "raw 10 0004 01000000",
        ["refused 3 (wrong length)", "a length of 4, and tag 10 hex has length 5"],
    ),
    (
        "raw 10 0005 1400000000",
        ["refused 4 (unknown kind)", "kind 20 is unknown; known ones are 1 to 19"],
    ),
    (
        "raw 12 0004 01020200",
        ["refused 4 (unknown kind)", "action 2 is unknown; known ones are 0, 1"],
    ),
    ("start 16", ["refused 5", "process 16 is out of range; numbers for start there are 0 to 15"]),
    (
        LIVE + "create 0 name=128 descriptor=0 container=23",
        [
            "name 128 is out of range; numbers for create there are 0 to 127",
            "container 23 is out of range; numbers for create there are 24 to 63",
            "in its place this gets allow 0: create 0 name=0 descriptor=0 container=24",
        ],
    ),
    (
        "raw 10 0005 0100000001",
        ["field c is 1, and start does not use it; it must be 0"],
    ),
    (
        "raw 10 0005 1307020300",
        [
            "field process is 7, and label does not use it; it must be 0",
            "in its place this gets allow 1: label container=radio item=3",
        ],
    ),
    ("forbid item=64 in=1 inhibit", ["item 64 is out of range; items are 0 to 63"]),
    (
        "forbid item=1 in=1 divert=process0",
        ["substitute 8 is out of range; ones for action 1 are 0 to 7, 24 to 63"],
    ),
    ("raw 12 0004 01020003", ["substitute 3 is out of range; the only one for action 0 is 0"]),
    (FILE + "dup 0 from=0 to=32", ["descriptor 32 is out of range; numbers for dup there are"]),
    (FILE + "link 0 from=128 to=6", ["name 128 is out of range; numbers for link there are"]),
    (LIVE + "device 0 descriptor=1 device=9", ["process 0 would open device 9 as descriptor 1"]),
    (
        "exit 4",
        ["refused 6 (dead process)", "process 4 is not live; no process is live: start one first"],
    ),
    (LIVE + "exit 4", ["process 4 is not live; the only live one is 0"]),
    (LIVE + LIVE, ["refused 7 (taken)", "process 0 is live already; ones not live are 1 to 15"]),
    (LIVE + "fork 0 child=0", ["process 0 is live already", "gets allow 0: fork 0 child=1"]),
    (
        FILE + "device 0 descriptor=0 device=panel",
        ["descriptor 0 of process 0 is open and leads to file 24; closed ones are 1 to 31"],
    ),
    (ALL_OPEN + "dup 0 from=1 to=2", ["process 0 has every descriptor open: close one first"]),
    (
        FILE + "create 0 name=5 descriptor=0 container=24",
        [
            "descriptor 0 of process 0 is open and leads to file 24; closed ones are 1 to 31",
            "name 5 is bound and leads to file 24; unbound ones are 0 to 4, 6 to 127",
            "container 24 is in use by name 5 and descriptor 0 of process 0; "
            "free ones are 25 to 63",
            "in its place this gets allow 0: create 0 name=0 descriptor=1 container=25",
        ],
    ),
    (
        BOTH_MAPPED + "pipe 0 descriptors=1,2 container=24",
        [
            "in use by name 5, descriptor 0 of process 0, link process 0 -> 24 and "
            "link 24 -> process 0"
        ],
    ),
    (
        FILE + "label container=25 item=1",
        [
            "refused 8 (missing)",
            "container 25 is not in use; containers in use are 0 to 8, 24",
            "no earlier record brought it into use",
        ],
    ),
    (
        FILE + "label container=process5 item=1",
        ["refused 8 (missing)", "process 5 is not live; containers in use are"],
    ),
    (
        FILE + "unlink 0 name=5\nclose 0 descriptor=0\nlabel container=24 item=1",
        ["file 24 is not in use; containers in use are 0 to 8", "record 4 ended its use"],
    ),
    (
        LIVE + "start 1\nexit 1\nlabel container=process1 item=1",
        ["process 1 is not live", "record 3 ended its use"],
    ),
    (
        PANEL + "write 0 descriptor=2",
        [
            "refused 14 (descriptor closed)",
            "descriptor 2 of process 0 is closed; open ones are 0, 1",
            "no earlier record opened it",
        ],
    ),
    (
        LIVE + "read 0 descriptor=2",
        ["refused 14 (descriptor closed)", "process 0 has none open: open one first"],
    ),
    (
        LIVE + "device 0 descriptor=1 device=panel\ntruncate 0 descriptor=9",
        ["descriptor 9 of process 0 is closed; process 0 has no file or pipe open: open one first"],
    ),
    (
        PANEL + "truncate 0 descriptor=2",
        [
            "refused 14 (descriptor closed)",
            "closed; the only open one with a file or pipe is 0",
        ],
    ),
    (
        PANEL + "close 0 descriptor=1\nwrite 0 descriptor=1",
        ["descriptor 1 of process 0 is closed; the only open one is 0", "record 6 closed it"],
    ),
    (
        PANEL + "exit 0\nstart 0\nwrite 0 descriptor=1",
        ["process 0 has none open: open one first", "record 6 closed it"],
    ),
    (
        FILE + "fork 0 child=1\nclose 0 descriptor=0\ndup 0 from=0 to=1",
        ["refused 14 (descriptor closed)", "record 4 closed it"],
    ),
    (
        FILE + "fork 0 child=1\nclose 0 descriptor=0\nclose 1 descriptor=1",
        ["descriptor 1 of process 1 is closed; the only open one is 0", "no earlier record opened"],
    ),
    (
        FILE + "open 0 name=6 descriptor=1",
        [
            "refused 15 (name unbound)",
            "name 6 is unbound; the only bound one is 5",
            "no earlier record bound it",
        ],
    ),
    (
        LIVE + "unlink 0 name=6",
        [
            "refused 15 (name unbound)",
            "name 6 is unbound; no name is bound: create a file first",
        ],
    ),
    (
        FILE + "rename 0 from=5 to=6\nlink 0 from=5 to=7",
        ["name 5 is unbound; the only bound one is 6", "record 3 unbound it"],
    ),
    (
        LIVE + "unmap 0 container=24 read",
        [
            "refused 16 (no link to unmap)",
            "process 0 has no mapping of container 24 for reading; it maps nothing for reading: "
            "map a descriptor first",
            "no earlier record made one",
        ],
    ),
    (
        READ_MAPPED + "unmap 0 container=25 read",
        [
            "refused 16 (no link to unmap)",
            "process 0 has no mapping of container 25 for reading; the only container that it "
            "maps for reading is 24",
            "no earlier record made one",
        ],
    ),
    (
        READ_MAPPED + "unmap 0 container=24 read\nunmap 0 container=24 read",
        ["process 0 has no mapping of file 24 for reading", "record 4 ended the last one"],
    ),
    (
        READ_MAPPED + "unmap 0 container=24 both",
        [
            "refused 16 (no link to unmap)",
            "process 0 has no mapping of file 24 both ways; it has some for reading, which is "
            "sort 0 (read)",
            "process 0 maps file 24 for reading once: record 3",
            "no earlier record made one",
        ],
    ),
    (
        MIXED + "map-both 0 descriptor=0\nunmap 0 container=24 read\nunmap 0 container=24 read",
        [
            "it has some both ways, which is sort 1 (both)",
            "process 0 maps file 24 both ways twice: records 4, 5",
            "record 6 ended the last one",
        ],
    ),
    (
        BOTH_MAPPED + "exit 0\nstart 0\nunmap 0 container=24 both",
        ["process 0 has no mapping of file 24 both ways", "record 4 ended the last one"],
    ),
    (
        READ_MAPPED + "unmap 0 container=24 sort=7",
        [
            "process 0 would unmap file 24, one mapping of sort 7",
            "refused 5 (out of range)",
            "sort 7 is out of range; sorts are 0 (read) and 1 (both)",
        ],
    ),
    (
        FULL + "map-read 0 descriptor=0",
        [
            "refused 17 (count at 255)",
            "process 0 maps file 24 for reading 255 times, the most there can be: unmap it once "
            "first",
            "process 0 maps file 24 for reading 255 times: records 3 to 257",
        ],
    ),
    (
        FULL + "create 0 name=6 descriptor=1 container=25\nmap-both 0 descriptor=0\n"
        "map-read 0 descriptor=0",
        [
            "unmap it once first; the only descriptor with fewer mappings is 1",
            "255 times: records 3 to 257, and both ways once: record 259",
        ],
    ),
    (
        FILE + "open 0 name=6 descriptor=0",
        [
            "refused 7 (taken)",
            "with that mended, refused with 15 (name unbound): name 6 is unbound",
        ],
    ),
    (
        FILE + "dup 0 from=3 to=0",
        [
            "refused 7 (taken)",
            "with that mended, refused with 14 (descriptor closed): descriptor 3 of process 0 is "
            "closed",
        ],
    ),
    (
        LIVE + "pipe 0 descriptors=3,3 container=24",
        ["refused 9 (same twice)", "both descriptors are 3; other closed ones are 0 to 2, 4 to 31"],
    ),
    ("separate items=1,1 inhibit", ["both items are 1; other items are 0, 2 to 63"]),
    (
        PANEL + "truncate 0 descriptor=1",
        [
            "refused 10 (no file)",
            "descriptor 1 leads to device 1 (panel); the only one with a file or pipe is 0",
        ],
    ),
    (
        LIVE + "device 0 descriptor=1 device=radio\ntruncate 0 descriptor=1",
        ["only a file or a pipe can be truncated, and none is open"],
    ),
    (
        "separate items=1,2 inhibit\n" * 33,
        ["refused 11 (rules full)", "32 rules are held", "cannot be removed"],
    ),
    (
        PANEL + "forbid item=1 in=24,30,process0 inhibit",
        [
            "refused 12 (broken already)",
            "process 0 and file 24 hold item 1 now",
            "it would be loaded without process 0 and file 24 in its set, which it would not "
            "protect, or before the item gets there",
            "the way of item 1 to process 0:",
            "record 3: it comes in from outside, by a label of file 24",
            "record 5: process 0 reads it from file 24",
            "in its place this gets rule 0: forbid item=1 in=30 inhibit",
        ],
    ),
    (
        HELD + "confine item=1 to=25 inhibit",
        ["it would be loaded with file 24 in its set too", "to=24,25"],
    ),
    (
        HELD + "label container=24 item=2\nseparate items=1,2 inhibit",
        [
            "file 24 holds item 1 and item 2 now",
            "the way of item 2 to file 24:",
            "before the two items meet",
        ],
    ),
]

# What is offered in place of a refused record: one that does what was meant, or nothing.
CONFINED = "confine item=1 to=process0,24 inhibit\n" + PANEL
OFFERS = [
    # Something new may have any free number.
    ("start 16", ["allow 0: start 0"]),
    (LIVE + "start 16", ["allow 0: start 1"]),
    (LIVE + LIVE, ["allow 0: start 1"]),
    (LIVE + "fork 0 child=16", ["allow 0: fork 0 child=1"]),
    (FILE + "open 0 name=5 descriptor=32", ["allow 0: open 0 name=5 descriptor=1"]),
    (FILE + "dup 0 from=0 to=0", ["allow 0: dup 0 from=0 to=1"]),
    (FILE + "link 0 from=5 to=5", ["allow 0: link 0 from=5 to=0"]),
    (
        LIVE + "pipe 0 descriptors=3,3 container=24",
        ["allow 0: pipe 0 descriptors=3,0 container=24"],
    ),
    (
        LIVE + "pipe 0 descriptors=32,0 container=24",
        ["allow 0: pipe 0 descriptors=1,0 container=24"],
    ),
    (
        FILE + "pipe 0 descriptors=0,0 container=24",
        ["allow 0: pipe 0 descriptors=1,2 container=25"],
    ),
    (
        FILE + "pipe 0 descriptors=32,0 container=24",
        ["allow 0: pipe 0 descriptors=1,2 container=25"],
    ),
    (
        LIVE + "pipe 0 descriptors=32,9 container=9",
        ["allow 0: pipe 0 descriptors=0,9 container=24"],
    ),
    (
        LIVE + "pipe 0 descriptors=32,32 container=9",
        ["allow 0: pipe 0 descriptors=0,1 container=24"],
    ),
    (
        FILE + "create 0 name=128 descriptor=32 container=23",
        ["allow 0: create 0 name=0 descriptor=1 container=25"],
    ),
    # A field that is not used has one meaning.
    ("raw 10 0005 0103000001", ["allow 0: start 3"]),
    (PANEL + "raw 10 0005 0900010002", ["allow 1: write 0 descriptor=1"]),
    # Nobody knows which process, descriptor, name, container or item was meant.
    ("label container=64 item=1", []),
    (FILE + "label container=25 item=1", []),
    (FILE + "label container=24 item=64", []),
    (LIVE + "device 0 descriptor=0 device=8", []),
    (LIVE + "exit 4", []),
    (LIVE + "exit 16", []),
    (PANEL + "write 3 descriptor=1", []),
    (PANEL + "write 0 descriptor=2", []),
    (PANEL + "read 0 descriptor=32", []),
    (PANEL + "close 0 descriptor=2", []),
    (PANEL + "truncate 0 descriptor=1", []),
    (PANEL + "truncate 0 descriptor=2", []),
    (PANEL + "dup 0 from=2 to=3", []),
    (FILE + "open 0 name=6 descriptor=0", []),
    (FILE + "unlink 0 name=6", []),
    (FILE + "rename 0 from=6 to=7", []),
    (READ_MAPPED + "unmap 0 container=25 read", []),
    (READ_MAPPED + "unmap 0 container=24 both", []),
    (READ_MAPPED + "unmap 0 container=24 sort=2", []),
    (READ_MAPPED + "raw 10 0005 0d 00 18 00 01", ["allow 0: unmap 0 container=24 read"]),
    (READ_MAPPED + "raw 10 0005 0d 00 18 01 01", []),
    (FULL + "map-read 0 descriptor=0", []),
    (FULL + "create 0 name=6 descriptor=1 container=25\nmap-read 0 descriptor=0", []),
    (LIVE + "fork 3 child=0", []),
    # Nor which kind, action, item or substitute.
    ("raw 10 0005 1400000000", []),
    ("raw 10 0005 0000000000", []),
    ("raw 12 0004 01020200", []),
    ("raw 12 0004 01020003", []),
    ("forbid item=64 in=1 inhibit", []),
    ("forbid item=1 in=1 divert=process0", []),
    ("forbid item=1 in=1 divert=64", []),
    ("separate items=1,1 inhibit", []),
    # A rule that protects something, and none that protects nothing.
    (PANEL + "forbid item=1 in=24,30 inhibit", ["rule 0: forbid item=1 in=30 inhibit"]),
    (PANEL + "forbid item=1 in=24 inhibit", []),
    (PANEL + "forbid item=1 in=process0,24 divert=port", []),
    (HELD + "confine item=1 to=25 inhibit", ["rule 0: confine item=1 to=24,25 inhibit"]),
    (HELD + "confine item=1 to=0-23,25-63 inhibit", []),
    # No call that is itself stopped or diverted.
    (CONFINED + "fork 0 child=0", []),
    (CONFINED + "fork 0 child=16", []),
    ("forbid item=1 in=panel inhibit\n" + PANEL + "raw 10 0005 0900010002", []),
    ("forbid item=1 in=panel divert=port\n" + PANEL + "raw 10 0005 0900010002", []),
    ("raw 10 00", []),
    ("raw 14 0000", []),
    ("raw 10 0004 01000000", []),
    ("separate items=1,2 inhibit\n" * 33, []),
]

# A call that is not done as it stands would do what it says; one that is done does it.
MOODS = [
    ("start 3", "process 3 starts"),
    ("start 16", "process 16 would start"),
    (FILE + "open 0 name=6 descriptor=3", "process 0 would open name 6 as descriptor 3"),
    (FILE, "process 0 creates name 5 as a new file, container 24, open as descriptor 0"),
    (
        FILE + FILE,
        "process 0 would create name 5 as a new file, container 24, open as descriptor 0",
    ),
    (LIVE + "dup 0 from=1 to=2", "process 0 would copy descriptor 1 to descriptor 2"),
    (
        FILE + "label container=25 item=1",
        "item 1 would come in from outside and be given to container 25",
    ),
    (HELD, "item 1 comes in from outside and is given to file 24"),
    (CONFINED + "fork 0 child=1", "process 0 would fork process 1"),
    (NESTED + "unmap 0 container=24 read", "process 0 unmaps file 24, one mapping for reading"),
    (FILE + "unmap 0 container=24 both", "process 0 would unmap file 24, one mapping both ways"),
    (FILE + "unmap 0 container=24 sort=2", "process 0 would unmap file 24, one mapping of sort 2"),
    (CONFINED + "write 0 descriptor=1", "process 0 would write to descriptor 1, device 1 (panel)"),
    (CONFINED + "write 0 descriptor=0", "process 0 writes to descriptor 0, file 24"),
    (
        "forbid item=1 in=panel divert=port\n" + PANEL + "write 0 descriptor=1",
        "process 0 would write to descriptor 1, device 1 (panel)",
    ),
]

# Calls that break a rule.
FORBID = "forbid item=1 in=panel inhibit\n"
DIVERT = "forbid item=1 in=panel divert=port\n"
NOT_IN_USE = "forbid item=1 in=panel divert=40\n"
BOTH = "forbid item=1 in=panel divert=port\nforbid item=1 in=port inhibit\n"
FAR = FORBID + HELD + "device 0 descriptor=1 device=panel\nmap-both 0 descriptor=1\n"
STOPPED = [
    (
        FORBID + PANEL + "write 0 descriptor=1",
        [
            "inhibit 0: it would break rule 0, and nothing is done",
            "rule 0 (record 1): item 1 may not be in device 1 (panel)",
            "device 1 (panel) would hold item 1",
            "record 4: it comes in from outside, by a label of file 24",
            "record 6: process 0 reads it from file 24",
            "this record: process 0 would write it to device 1 (panel)",
            "changed: nothing",
        ],
    ),
    (
        DIVERT + PANEL + "write 0 descriptor=1",
        [
            "modify 0 3 1: it would break rule 0, and the write goes to device 3 (port) instead; "
            "1 container gained an item",
            "device 1 (panel) would hold item 1",
            "changed: device 3 (port) gained item 1",
        ],
    ),
    (
        DIVERT + PANEL + "write 0 descriptor=1\nstart 1\ndevice 1 descriptor=0 device=port\n"
        "device 1 descriptor=1 device=panel\nread 1 descriptor=0\nmap-both 1 descriptor=1",
        [
            "rule 0 diverts writes only, and this is no write",
            "record 7: process 0 writes it, and rule 0 diverts the write to device 3 (port)",
            "record 11: process 1 reads it from device 3 (port)",
            "this record: process 1 would map device 1 (panel) both ways",
        ],
    ),
    (NOT_IN_USE + PANEL + "write 0 descriptor=1", ["cannot divert it: container 40 is not in use"]),
    (BOTH + PANEL + "write 0 descriptor=1", ["a write to device 3 (port) would break rule 1"]),
    (
        FAR + "read 0 descriptor=0",
        [
            "device 1 (panel) would hold item 1",
            "this record: process 0 would read it from file 24; links would carry it on to "
            "device 1 (panel): process 0 -> panel (record 6)",
        ],
    ),
    (
        "confine item=1 to=24,process0 inhibit\n" + PANEL + "fork 0 child=1",
        ["process 1 would hold item 1", "this record: process 1 would be forked from process 0"],
    ),
    (
        "separate items=1,2 inhibit\n" + PANEL + "label container=process0 item=2",
        [
            "process 0 would hold item 1 and item 2",
            "this record: it would come in from outside, by a label of process 0",
        ],
    ),
]

# How far a call spread: its answer with the meaning, and a line for each container that gained.
DONE = "the call is done"
SHARED = (
    BOTH_MAPPED + "start 1\nopen 1 name=5 descriptor=0\nmap-read 1 descriptor=0\n"
    "create 0 name=6 descriptor=1 container=25\nmap-both 0 descriptor=1\n"
)
DIVERTED = "it would break rule 0, and the write goes to device 3 (port) instead"
GAINED = [
    (HELD, f"allow 1: {DONE}; 1 container gained an item", ["file 24 gained item 1"]),
    (HELD + "label container=24 item=1", f"allow 0: {DONE}", []),
    (
        SHARED + "label container=24 item=1",
        f"allow 4: {DONE}; 4 containers gained an item",
        [
            "file 24 gained item 1",
            "process 0 gained item 1, over 24 -> process 0",
            "process 1 gained item 1, over 24 -> process 1",
            "file 25 gained item 1, over 24 -> process 0 -> 25",
        ],
    ),
    (
        SHARED + "label container=process1 item=1\nlabel container=24 item=1",
        f"allow 3: {DONE}; 3 containers gained an item",
        [
            "file 24 gained item 1",
            "process 0 gained item 1, over 24 -> process 0",
            "file 25 gained item 1, over 24 -> process 0 -> 25",
        ],
    ),
    (
        HELD + "label container=24 item=2\nread 0 descriptor=0",
        f"allow 1: {DONE}; 1 container gained an item",
        ["process 0 gained items 1, 2"],
    ),
    (
        HELD + "label container=process0 item=2\nmap-both 0 descriptor=0",
        f"allow 2: {DONE}; 2 containers gained an item",
        ["process 0 gained item 1", "file 24 gained item 2"],
    ),
    (
        PANEL + "fork 0 child=2",
        f"allow 1: {DONE}; 1 container gained an item",
        ["process 2 gained item 1"],
    ),
    (FILE + "fork 0 child=2", f"allow 0: {DONE}", []),
    (HELD + "truncate 0 descriptor=0", f"allow 0: {DONE}", []),
    (PANEL + "exit 0", f"allow 0: {DONE}", []),
    (
        DIVERT + PANEL + "write 0 descriptor=1",
        f"modify 0 3 1: {DIVERTED}; 1 container gained an item",
        ["device 3 (port) gained item 1"],
    ),
    (
        DIVERT + PANEL + "write 0 descriptor=1\nwrite 0 descriptor=1",
        f"modify 0 3 0: {DIVERTED}",
        [],
    ),
    (
        FORBID + PANEL + "write 0 descriptor=1",
        "inhibit 0: it would break rule 0, and nothing is done",
        [],
    ),
    (FORBID, "rule 0: the rule is loaded, as rule 0", []),
    (HELD + FORBID.replace("panel", "24"), "refused 12 (broken already): nothing is done", []),
]


def text_of(said: Explanation) -> str:
    """All that is said of a record."""
    why = [text for _, text in said.why]
    changes = [f"- {change}" for change in said.changes]
    if len(changes) == 1:
        changes.append(f"changed: {said.changes[0]}")
    return "\n".join([said.record, said.sentence, f"{said.answer}: {said.meaning}", *why, *changes])


def check_parts(session: Session, name: str, log: str, parts: List[str]) -> None:
    """Check what is said of the last record of a log."""
    text = text_of(said_of(log))
    for part in parts:
        session.checks.true(f"{name}: {log.splitlines()[-1]}: says '{part}'", part in text, text)


def test_fixed_logs(session: Session) -> None:
    """Each kind, each row of the refusals, and each way to break a rule."""
    for name, table in (
        ("sentence", SENTENCES),
        ("idle", IDLE),
        ("refused", REFUSED),
        ("stopped", STOPPED),
    ):
        for log, parts in table:
            check_parts(session, name, log, parts)
    kinds = {assemble(log.splitlines()[-1].encode())[3] for log, _ in SENTENCES}
    session.checks.true("a sentence for every kind", kinds >= set(KINDS), str(kinds))
    session.checks.equal("words for every kind", set(CALLS), set(KINDS))
    session.checks.equal("wordings for every refusal", list(WORDINGS), list(RECORD_REFUSALS))
    session.checks.equal("a word for every refusal", list(REFUSAL_WORDS), list(RECORD_REFUSALS))
    answers = {said_of(log).answer for log, _ in REFUSED}
    wanted = {f"refused {number} ({word})" for number, word in REFUSAL_WORDS.items()}
    session.checks.equal("a log for every refusal", answers, wanted)


def said_of(log: str) -> Explanation:
    """What is said of the last record of a log."""
    *_, last = steps_of(assemble(log.encode()))
    return explain(last)


def test_offers(session: Session) -> None:
    """What is offered in place of each refused record, and that nothing else is."""
    front = "in its place this gets "
    for log, wanted in OFFERS:
        said = said_of(log)
        name = f"offered for {said.record}"
        session.checks.true(f"{name}: it is refused", said.answer.startswith("refused"), str(said))
        offered = [text[len(front) :] for _, text in said.why if text.startswith(front)]
        session.checks.equal(name, offered, wanted)
        others = [text for _, text in said.why if "would be loaded" in text]
        texts = [text for _, text in said.why]
        session.checks.equal(f"{name}: lines said twice", len(texts) - len({*texts}), 0)
        clash = [text for text in texts if "refused with 9" in text]
        session.checks.equal(f"{name}: no clash of its own making", clash, [])
        protects = any("rule 0: " in offer for offer in wanted)
        session.checks.equal(f"{name}: a rule is spoken of", bool(others), protects)


def test_moods(session: Session) -> None:
    """What is done is said to be done, and what is not is not."""
    for log, wanted in MOODS:
        session.checks.equal(f"in words: {log.splitlines()[-1]}", said_of(log).sentence, wanted)


def test_gained(session: Session) -> None:
    """Who gained by a record, and nothing of it where none did."""
    for log, answer, lines in GAINED:
        said = said_of(log)
        name = f"gained: {log.splitlines()[-1]}"
        session.checks.equal(f"{name}: the answer", f"{said.answer}: {said.meaning}", answer)
        session.checks.equal(f"{name}: who", said.gains, lines)
        among = [line for line in said.changes if " gained " in line]
        session.checks.equal(f"{name}: among the changes", among, lines)


# The command.


def modelled(*words: str, name: str = "rowers") -> Result:
    """Explain a log of logs/ without the program."""
    return logtool("explain", str(LOGS / f"{name}.log.txt"), "--model-only", *words)


def test_options(session: Session) -> None:
    """Which records are shown, and how."""
    lines = modelled("--only", "3,7-9,inhibit").output.splitlines()
    numbers = [line.split()[0] for line in lines[:-1] if line[:1].strip()]
    session.checks.equal("--only", numbers, ["3", "7", "8", "9", "13", "28"])
    lines = modelled("--only", "modify", name="evaluation").output.splitlines()
    none = "no record of this log is one of: modify"
    session.checks.equal("--only without a record", lines[0], none)
    brief = modelled("--brief").output.splitlines()
    session.checks.equal("--brief: lines", len(brief), 31)
    last = "30 records: 27 allow, 1 rule, 2 inhibit; the program was not run."
    session.checks.equal("--brief: the last line", brief[-1], last)


def test_callbacks(session: Session) -> None:
    """A write is stopped because of a link that an unmap left."""
    said = modelled("--only", "9-11", name="callbacks").output
    lines = [
        "- a mapping for reading ended: that of record 8",
        "- process 0 (radio program) still maps file 24 (beat buffer) for reading once: record 7",
        "- link stays: 24 -> process 0, for a mapping is left",
        "- process 0 (radio program) gained item 2 (second rower's intervals), over "
        "24 -> process 0",
        "inhibit 0: it would break rule 0, and nothing is done",
        "to process 0 (radio program): 24 -> process 0 (record 7)",
    ]
    for line in lines:
        session.checks.true(f"callbacks: says '{line}'", line in said, said)


def test_way(session: Session) -> None:
    """The way of one item."""
    way = modelled("--way", "26,1").output
    for part in ("holds item 1", "25 -> process 1 (record 9)", "record 12: process 1"):
        session.checks.true(f"--way: {part}", part in way, way)
    way = modelled("--way", "26,1", "--only", "11").output
    for part in ("after record 11, file 26", "does not hold item 1"):
        session.checks.true(f"--way, earlier: {part}", part in way, way)
    way = modelled("--way", "26,1", "--only", "modify").output
    wanted = "no record of this log is one of: modify\n"
    session.checks.equal("--way after no record", way, wanted)
    way = logtool("explain", "-", "--model-only", "--way", "panel,0").output
    wanted = "after record 0, device 1 (panel) does not hold item 0; it holds nothing\n"
    session.checks.equal("--way in an empty log", way, wanted)


def test_bad_options(session: Session) -> None:
    """Options that cannot be used."""
    for words, part in [
        (["--only", "0"], "'--only 0'"),
        (["--only", "31"], "this log has records 1 to 30"),
        (["--only", "9-7"], "'--only 9-7'"),
        (["--only", "denied"], "allow, rule, inhibit, modify, refused"),
        (["--way", "26"], "as in 26,1"),
        (["--way", "64,1"], "from 0 to 63"),
        (["--way", "26,64"], "from 0 to 63"),
    ]:
        result = modelled(*words)
        good = result.status == 2 and not result.output and part in result.message
        session.checks.true(f"explain {words}", good, str(result))
    result = logtool("explain", "-", "--model-only", "--only", "1")
    good = result.status == 2 and "this log has no records" in result.message
    session.checks.true("explain --only 1 of an empty log", good, str(result))


def test_widths(session: Session) -> None:
    """Lines are at most 100 characters wide where the output is no terminal."""
    for name in STORIES:
        text = modelled(name=name).output
        widest = max(map(len, text.splitlines()))
        session.checks.true(f"{name}: lines of at most 100", widest <= 100, str(widest))


def test_empty_and_cut(session: Session) -> None:
    """An empty log, and one cut short, are explained to their ends."""
    result = logtool("explain", "-", "--model-only")
    session.checks.equal(
        "an empty log", result, (0, "0 records: no answers; the program was not run.\n", "")
    )
    result = logtool("explain", "-", "--program", session.standin)
    session.checks.equal("an empty log, with the program", result.status, 0)
    result = logtool("explain", "-", "--model-only", data=story_log("rowers") + b"\x10\x00")
    good = "31  raw 10 00" in result.output and "refused 1 (cut short)" in result.output
    session.checks.true("cut short: explained", good, result.output[-500:])
    good = (
        result.status == 1 and "record 31" in result.message and "copy it again" in result.message
    )
    session.checks.true("cut short: said", good, str((result.status, result.message)))


# The program beside the model.


def test_program(session: Session) -> None:
    """The program's answers are compared."""
    for name in STORIES:
        result = logtool("explain", str(LOGS / f"{name}.log.txt"), "--program", session.runnable)
        last = result.output.splitlines()[-1]
        session.checks.true(
            f"{name}: program", last.endswith("the program answers the same."), last
        )
        wanted = 1 if name == "run-b" else 0
        session.checks.equal(f"{name}: status", result.status, wanted)


def test_wrong_program(session: Session) -> None:
    """A program that differs from the model is an error."""
    log = str(LOGS / "rowers.log.txt")
    with tempfile.TemporaryDirectory() as folder:
        wrong = make_program(Path(folder) / "wrong", FAULTS["follows one link"])
        for words in ([], ["--brief"], ["--only", "2"], ["--way", "26,1"]):
            result = logtool("explain", log, "--program", wrong, *words)
            session.checks.equal(f"a wrong program, {words}: status", result.status, 4)
            parts = ["record 10 (label container=24 item=1)", "'allow 2'", "'allow 4'"]
            parts += ["4 more records differ", "keep this log"]
            good = all(part in result.message for part in parts)
            session.checks.true(f"a wrong program, {words}: message", good, result.message)
        result = logtool("explain", log, "--program", wrong, "--only", "28")
        good = "the program answers otherwise: allow 0\n" in result.output
        session.checks.true("a wrong program: the record is marked", good, result.output)
        script = f"#!/bin/sh\n{session.standin} | sed 's/^inhibit/allow/'\n"
        counts = {"rowers": "1 more record differs", "evaluation": "2 more records differ"}
        for name, more in counts.items():
            other = Path(folder) / name
            other.write_text(script)
            other.chmod(0o755)
            result = logtool("explain", str(LOGS / f"{name}.log.txt"), "--program", str(other))
            good = f", and {more};" in result.message
            session.checks.true(f"{name}: {more}", good, result.message)
        fails = Path(folder) / "fails"
        fails.write_text("#!/bin/sh\nexit 7\n")
        fails.chmod(0o755)
        killed = Path(folder) / "killed"
        killed.write_text("#!/bin/sh\nkill -9 $$\n")
        unended = Path(folder) / "unended"
        unended.write_text(f"#!/bin/sh\n{session.standin} | head -c -1\n")
        for path in (killed, unended):
            path.chmod(0o755)
        for program, part in (
            (str(fails), "status 7"),
            (str(fails) + "x", "cannot run"),
            (str(killed), "was ended by signal 9"),
            (str(unended), "did not write its last line to the end"),
        ):
            result = logtool("explain", log, "--program", program)
            good = (
                result.status == 3 and part in result.message and "--model-only" in result.message
            )
            session.checks.true(f"a program that {part}", good and not result.output, str(result))
