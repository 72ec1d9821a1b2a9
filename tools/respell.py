#!/usr/bin/env python3
"""Brings this repository's own names to today's spelling: types, and facts named by a type, in upper camel case, all else in snake case.

Run once, at the top of the repository, after the toolchain's port.py. It goes by the list below, in specs/, proofs/, clauses and
must-fail edits, and in the pages' quoted names. Names that Rattle makes of the code keep their dashes.
"""

import pathlib
import re

NAMES = """
All-come Clock-laws Event-told Front-laws Gives-earliest In-order Lawful-order Policy-laws Reads-back Reads-plain
Release-told Run-laws Settings-told Some-way Touch-told absent-check absent-refusal accepted-sound adds-front
adds-over adds-push after-all after-byte after-calls after-effect after-settled after-sound ahead-marked ahead-reached
all-counts all-ends all-frames all-marked all-within answer-line apart-back back-join back-leave back-past back-set
back-within before-join before-ok behind-queue below-only by-checks by-fewer by-first-word by-none by-numbers
by-settings chained-back clear-alike clear-sound clock-alone clock-laws clock-of count-fault count-faults count-hit
count-touches digit-grows drop-absent drop-accepted drop-after drop-between drop-effect drop-ends drop-few drop-leaves
drop-no-page drop-none drop-passes empty-pages end-answers err-known event-after event-answer event-counts
event-frames event-told event-within fault-accepted fault-accepts fault-after fault-answer fault-counts fault-effect
fault-ends fault-facts fault-held fault-leaves fault-many fault-no-page fault-none fault-refusal fault-refused
fault-same fault-sound fault-stays fault-told fault-with fault-within faults-told faults-touch fifo-alone fifo-answers
fifo-earliest fifo-of figures-are first-has first-none forth-join forth-leave forth-past forth-set forth-within
free-adds free-out free-ready from-unmarked front-answer front-drop front-held front-hit front-lawful front-laws
front-refused full-few give-leaves give-passes give-turns gives-below gives-earliest gives-first gives-oldest
gives-within grown-digit grown-on has-append has-large has-middle has-small has-without held-accepts held-check
held-facts held-front held-has held-is-member held-refusal hit-absent hit-accepted hit-after hit-answer hit-counts
hit-effect hit-ends hit-joins hit-keeps hit-marks hit-no-page hit-none hit-not hit-passes hit-refused hit-runs
hit-sinks hit-stays hit-there hit-told hit-within how-many in-Grown in-Parted in-ok-part in-ranges in-ranges-true
is-fault is-out is-space is-touch join-full join-number joined-newest joins-by-hit joins-full joins-room keeps-again
keeps-back keeps-gives keeps-settings keeps-swap keeps-takes latest-low left-none left-short len-both length-walk
line-lawful line-more link-sets listing-of load-accepted load-accepts load-effect load-facts load-held load-joins
load-last load-no-page load-none load-passes load-refusal load-sinks loaded-counts loads-or-hits lru-alone many-after
many-told mark-between marked-hit marked-push marked-put marked-without marks-in marks-none marks-push named-is
never-refused next-after next-answers next-within no-page no-page-after no-page-told no-pages no-range none-given
none-held none-linked none-newest none-reply none-step not-in-front not-numbered nth-above numbers-from numbers-in
numbers-with off-append off-first ok-known oldest-accepted on-clear on-drop on-fault on-give on-hit on-load on-put
on-remove on-take one-if opened-counts opened-within or-none pages-append pages-in pages-lacking pages-mark
pages-marked pages-of pages-others pages-parts pages-turned pages-unmarked parted-space passed-ahead passed-off
passed-push played-behind played-over policy-laws prev-small prev-within put-adds put-not put-there queued-of
reached-off reached-push reached-settled reached-sound reads-back ready-count refuse-if refused-after refused-by
refused-unchanged release-after release-answer release-counts release-told release-within remove-takes rest-short
rest-within ring-lawful rising-first rising-join rising-push rising-rest rising-same rising-without room-count
room-few room-free room-full run-after run-laws run-layer run-number sent-out setting-of settings-told some-way
sound-join sound-left sound-push sound-rest sound-right sound-without state-of stays-fine stays-sound sunk-newest
takes-rest takes-without touch-after touch-answer touch-answers touch-counts touch-frames touch-told touch-within
turned-keeps turned-push walk-chained with-room within-true without-absent word-here
""".split()

# the one lemma that would have a function's name, and a variable that port.py took for one
OTHER = {"policy-laws": "policy_laws_lem", "is_held_lem": "is_held"}

LETTER = r"[\w'′-]"


def respelled(name):
    if name in OTHER:
        return OTHER[name]
    if name[0].isupper():
        return "".join(part[0].upper() + part[1:] for part in name.split("-"))
    return name.replace("-", "_")


SPELLING = {name: respelled(name) for name in NAMES + list(OTHER)}
ANY = re.compile(
    "(?<!" + LETTER + ")(?:" + "|".join(sorted(map(re.escape, SPELLING), key=len, reverse=True)) + ")(?!" + LETTER + ")"
)


def turned(text):
    return ANY.sub(lambda found: SPELLING[found.group(0)], text)


def turned_quotes(text):
    return re.sub(r"`[^`\n]*`", lambda quote: turned(quote.group(0)), text)


def main():
    assert len(set(SPELLING.values())) == len(SPELLING), "two names fall together"
    crates = pathlib.Path("crates")
    code = [p for ending in ("*.antt", "*.rt", "*.edit") for p in crates.rglob(ending) if "out" not in p.parts]
    pages = [pathlib.Path("README.md"), *pathlib.Path("docs").glob("*.md")]
    for path, turn in [(p, turned) for p in code] + [(p, turned_quotes) for p in pages]:
        old = path.read_text()
        new = turn(old)
        if new != old:
            path.write_text(new)


main()
