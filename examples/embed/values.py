"""A host that asks scripts for what they came to: what they defined, the topmost operand, and what went wrong.

    PYTHONPATH=out/python python3 examples/embed/values.py
"""
import tallowmarch
from tallowmarch import Kind


def show(what, value):
    """A value in a few words."""
    if value is None:
        text = 'none'
    elif value.kind is Kind.INTEGER:
        text = f'the integer {value.number}'
    elif value.kind in (Kind.STRING, Kind.NAME, Kind.OPERATOR):
        text = value.bytes.decode('latin-1')
    else:
        text = f'{value.kind.name.lower()} of {value.length}'
    print(f'  {what}: {text}')


for text in (b'/area 12 5 mul def (square miles)', b'/area {side dup mul} def [1 2 3]', b'/area 12 0 idiv def'):
    with tallowmarch.Standing(text) as script:
        outcome = script.advance(1000)
        print(text.decode())
        if outcome is tallowmarch.Outcome.FAULTED:
            show('error', script.error_name())
            show('raised by', script.error_command())
        show('area', script.definition(b'area'))
        show('topmost operand', script.operand())
