"""tests/run refusals PROGRAM CALLS: tests what no clause says. Refuses each allocation of the
program and of public calls (CALLS makes them by name) in turn, limits memory, and lets outputs
fail. Needs a C compiler. Ends in 'N passed, M failed'."""
from tests.calls.naming import calls_in
from tests.refusals import hostile, refusing
from tests.runner import Cases, arguments, enter_folder

program, calls = arguments("refusals PROGRAM CALLS")
cases, _room = Cases("refusals"), enter_folder()
cases.demands("cc")
refuse = refusing.library(cases)
# each call is a part of its own, so that all processors are used to the end
parts = {f"{sets}, {call}": (refusing.of_call, calls, refuse, sets, call)
         for sets, module in refusing.SETS.items() for call in calls_in(module)}
cases.holds("the calls are found", len(calls_in("whole")) >= 4 and len(calls_in("layers")) >= 25)
counts = cases.side_by_side({
    "program": (refusing.of_program, program, refuse, program, "--help", "audit"),
    "little memory": (hostile.little_memory, program),
    "devices": (hostile.devices, program, refuse),
    **parts,
})
made = [counts[it] for it in parts]
total, unmade = sum(sum(it.values()) for it in made), sum(it["unmade"] for it in made)
cases.say(f"in all {sum(counts['program'].values())} runs of the program, and {total} of `calls`, "
          f"{total - unmade} of which reach their call")
cases.finish()
