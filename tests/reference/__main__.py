"""tests/run reference PROGRAM [LIBRARY]: compares the program, and the library for C if its file is
named, with the reference on the samples and on random cases of a fixed seed and of one that is new
each day (SEED=20300131 tests/run .. gives another), and with a search on all small levels. Takes
minutes. Ends in 'N passed, M failed'."""
from tests.reference import claims, parts
from tests.runner import Cases, arguments

program, *library = arguments("reference PROGRAM [LIBRARY]")
cases, more = Cases("reference"), ["--library", *library] if library else []
cases.side_by_side({
    "samples": (parts.samples,),
    "what hinders a run": (parts.hindered,),
    "what is no comparison": (parts.statuses,),
    "random cases": (parts.random_cases, *more, program),
    "small levels": (claims.judge_sets, "--samples", "300", *more, program),
})
cases.finish()
