"""tests/run tools PROGRAM [TEST..]: the tests of sokotool, all or some by their names, such as
test_find, or a share of their classes, such as 2/3. No share has what measures a browser's time:
'timed' runs that. PROGRAM is the sokoaudit that they run. Ends in 'N passed, M failed'."""
import sys
import unittest

from tests.runner import NAMES, Cases, arguments, chosen, work_in_memory
from tests.tools import dealing, helping

helping.PROGRAM, *names = arguments("tools PROGRAM [TEST..]")
if names == [NAMES]:
    chosen(names, [it[len("tests.tools."):] for it in dealing.names_of(dealing.tests_of([]))])
work_in_memory()
cases = Cases("tools")
runner = unittest.TextTestRunner(stream=sys.stdout, verbosity=0, failfast=cases.ends_first)
result = runner.run(dealing.tests_of(names))
for test, why in result.skipped:
    cases.skip(str(test), why)
failed = len(result.failures) + len(result.errors)
cases.add(result.testsRun - failed - len(result.skipped), failed)
cases.finish()
