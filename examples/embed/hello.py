"""The least that a Python host does: one program, run in the host's own process.

    PYTHONPATH=out/python python3 examples/embed/hello.py
"""
import sys

import tallowmarch

report = tallowmarch.run(b'(Hello from PostScript: ) print 1 2 add =', space=4096)
sys.stdout.write(report.printed.decode('latin-1'))
print(report.outcome, 'after', report.steps, 'steps', file=sys.stderr)
