"""tests/run calls CALLS: tests public calls, which CALLS (crates/calls/out/calls) makes by name.
Ends in 'N passed, M failed'."""
from tests.calls import comparing_sets
from tests.runner import Cases, arguments

(calls,) = arguments("calls CALLS")
cases = Cases("calls")
cases.side_by_side({
    "both types of sets": (comparing_sets.of_both_types, calls),
    "levels after letters": (comparing_sets.after_letters, calls),
    "writing and devices": (comparing_sets.writing, calls),
})
cases.finish()
