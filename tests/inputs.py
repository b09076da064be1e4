"""Levels and answers that several parts of the tests use, each in one line as in a table."""
from tests.tables.rows import rows

LEVELS = {
    "straight": "#####/#@$.#/#####",
    "split": "#######/#.$@$.#/#######",
    "nook": "#####/#@ .#/# $ #/#####",
    "goal_side": "#######/#  $@.#/#######",
    "square": "######/#@   #/# $$ #/# $$ #/#  ..#/#  ..#/######",
    "wall_line": "#######/#@ .  #/#     #/# $ $.#/#######",
    "one_goal": "#######/#@    #/#  .  #/#    $#/#  $ .#/#######",
    "turn": "#####/#   #/#@$ #/#  .#/#####",
    "apart": "#########/#. $@$ .#/#########",
    "on_goal": "####/#@*#/####",
}
# audits: a name, the levels and the answers
AUDITS = [(it["name"], it["levels"], it["answers"])
          for table in ("solutions", "certificates", "zones", "collections") for it in rows(table)]
_, WHOLE_LEVELS, WHOLE_ANSWERS = next(it for it in AUDITS if it[0] == "three levels")
