"""Makes loads of the language, with the same statements in Python in the file 'same.py'."""
import collections.abc

import loads

SCRIPT = "same.py"

OPERATIONS = """\
  a = words[i % 10]
  b = '{0}-{1}'.format(i, a)
  c = 'x,y,z'.split(',')
  d = a in table
  if i == 0:
    e = 'first'
  elif i % 2 == 0:
    e = 'even'
  g = 'one two'.replace('two', a)
  n += 1
  h = f'file_{i}.c'
  k = 'folder' + '/' + h
  m = i < 100 and d
"""


def looped(count: int, body: str) -> str:
    """Returns so many rounds, in as many loops as the project has."""
    return "".join(f"for i in range({walked}):\n{body}" for walked in loads.walks(count))


def beside(make: loads.Maker, statements: collections.abc.Callable[[int], str]) -> loads.Maker:
    """Returns a generator of the project and of its statements in Python."""

    def both(folder: str, count: int) -> int:
        loads.write(folder, SCRIPT, statements(count))
        return make(folder, count)

    return both


rounds = beside(loads.rounds, lambda count: loads.ROUNDS_BEGIN + looped(count, OPERATIONS))
additions = beside(loads.additions, lambda count: loads.ADDITIONS_BEGIN + looped(count, loads.ADDITION))
assignments = beside(loads.assignments, loads.assigned)
growing_list = beside(loads.growing_list, lambda count: "x = []\n" + looped(count, "  x += ['item']\n"))
growing_text = beside(loads.growing_text, lambda count: "x = ''\n" + looped(count, "  x += '.'\n"))
growing_dictionary = beside(loads.growing_dictionary, lambda count: "x = {}\n" + looped(count, "  x |= {f'key_{i}': i}\n"))
growing_table = beside(loads.growing_table, lambda count: "x = {}\n" + looped(count, "  x |= {'k' + str(i): i}\n"))
