"""A host with a loop of frames: each of a hundred scripts gets a slice of 100 steps a frame, until all have ended.

    PYTHONPATH=out/python python3 examples/embed/frames.py
"""
import itertools

import tallowmarch

# Each prints the numbers from 1 to its own, and their sum.
texts = (b'0 1 1 %d { dup = add } for (sum ) print =' % number for number in range(1, 101))
scripts = [tallowmarch.Standing(it, space=4096) for it in texts]
taken = 0
for frame in itertools.count(1):
    left = [it for it in scripts if it.advance(100) is tallowmarch.Outcome.STEPS_OUT]
    taken += sum(len(it.take()) for it in scripts)
    scripts = left
    print(f'frame {frame}: {len(scripts)} scripts go on, {taken} bytes were printed')
    if not scripts:
        break
