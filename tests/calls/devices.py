"""The expected output of the crate `calls` for public calls over whole texts while each of their
devices fails in turn, and for numbers of levels that the program can't be given."""

import re
from typing import Iterator, List, Mapping, Sequence, Tuple

THREE_LEVELS = "#####\n#@$.#\n#####\n\n#######\n#  $@.#\n#######\n\n####\n#@*#\n####\n"
THREE_ANSWERS = """\
sokoban-answers 1
; checked by hand
level 1
solution
R
end

level 2
unsolvable
pattern 2,2 @ 3,2
pattern 3,2 @ 4,2
pattern 4,2 @ 5,2
end
level 3
solution
end
"""
THREE_LINES = """\
level 1 solved moves 1 pushes 1 changes 1
level 2 unsolvable patterns 3
level 3 solved moves 0 pushes 0 changes 0
total 3 solved 2 unsolvable 1 refused 0 missing 0
"""
# a box on a dead square, a level that one push solves, and four boxes that freeze each other
MADE_FOR = """\
#####
#@ .#
# $ #
#####

#######
#  $@.#
#######

######
#@   #
# $$ #
# $$ #
#  ..#
#  ..#
######
"""
MADE = """\
sokoban-answers 1
level 1
unsolvable
pattern 2,2 @ *
pattern 2,3 @ *
pattern 3,3 @ *
pattern 4,3 @ *
end
level 3
unsolvable
pattern 2,2 @ *
pattern 3,2 @ *
pattern 4,2 @ *
pattern 5,2 @ *
pattern 2,3 @ *
pattern 2,4 @ *
pattern 2,5 @ *
pattern 2,6 @ *
pattern 3,3 4,3 3,4 4,4 @ *
end
"""
MAP = "#####\n#@ .#\n#x$x#\n#####\n"
SUMMARY = "Summary { levels: 3, solved: 2, unsolvable: 1, refused: 0, missing: 0 }"
DEVICES = "levels", "answers", "sink"
# the largest numbers of bytes in one call of a device; the report has 164
MOST = 1, 2, 7, 163, 164, 1000


def calls_on_devices() -> Iterator[Tuple[str, ...]]:
    """The words of the crate `calls`, and what it prints. Of made answers the header is written
    first, then each list in pieces: its dead squares at once, and then its frozen boxes."""
    header, *lists = re.split(r"level \d\nunsolvable\n", MADE)
    dead = [re.sub("pattern 3,3 4,3.*\n|end\n", "", it) for it in lists]
    frozen = "pattern ", "3,3", " 4,3 3,4 4,4", " @ *\n"
    pieces = [header, "level ", "1", "\n", "unsolvable\n", dead[0], "end\n",
              "level ", "3", "\n", "unsolvable\n", dead[1], *frozen, "end\n"]
    assert "".join(pieces) == MADE
    for call, levels, answers, writes, result in (
        ("audit", THREE_LEVELS, THREE_ANSWERS, [THREE_LINES], SUMMARY),
        ("make_answers", MADE_FOR, "", pieces, "2"),
        ("dead_map", MADE_FOR, "", [MAP], "()"),
    ):
        read = {"levels": levels}
        if call == "audit":
            read["answers"] = answers
        runs = "".join(spell_runs(call, read, writes, result))
        yield "fuses", call, levels, answers, runs + "status 0\n"
    for call in ("dead_map 0", "dead_map most"):
        borrowed = MADE_FOR.replace("\n", "\\n")
        wanted = 'Err(NoLevel)\nthe sink holds\n\nborrowed text "%s"\nstatus 0\n' % borrowed
        yield "whole", call, MADE_FOR, "", wanted


def spell_runs(call: str, read: Mapping[str, str], writes: Sequence[str],
               result: str) -> Iterator[str]:
    """Runs in which a device fails at its first call, its second, and so on until a run succeeds:
    with an error, by taking nothing, and with an error once."""
    for device in DEVICES:
        fault = "Write" if device == "sink" else "Read { which: %s }" % device.title()
        error = "Err(Audit(%s))" % fault if call == "dead_map" else "Err(%s)" % fault
        unread = "answers" not in read and device != "answers"
        for most in 3 * MOST:
            for held in held_after_failures(device, most, read, writes):
                yield spell_run(error, unread or device == "levels", held)
            yield spell_run("Ok(%s)" % result, unread, "".join(writes))


def held_after_failures(device: str, most: int, read: Mapping[str, str],
                        writes: Sequence[str]) -> List[str]:
    """What the sink has after each run that fails. A text is read in parts, and once more for its
    end."""
    if device == "sink":
        parts = [it[at:at + most] for it in writes for at in range(0, len(it), most)]
        return ["".join(parts[:calls]) for calls in range(len(parts))]
    return [""] * (-(-len(read[device]) // most) + 1) if device in read else []


def spell_run(said: str, unread: bool, held: str) -> str:
    """The result, whether the answers are unread, and what the sink has."""
    return "%s\n%s\nthe sink holds\n%s\n" % (said, str(unread).lower(), held)
