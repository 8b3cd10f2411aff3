"""What the scripts of this repository do with their words: --help prints a script's own text on standard output, and a wrong word is refused
in one line, with status 2."""
import argparse
import os
import sys

# A script leaves nothing beside those that it takes parts of.
sys.dont_write_bytecode = True


def stop(what):
    """Ends the script with what is wrong, in one line."""
    print(f'{os.path.basename(sys.argv[0])}: {what}', file=sys.stderr)
    sys.exit(2)


class Parser(argparse.ArgumentParser):
    """The words of a script, which its text tells."""

    def __init__(self, about):
        self.options = {'-', '--'}
        super().__init__(description=about, formatter_class=argparse.RawDescriptionHelpFormatter, allow_abbrev=False)

    def add_argument(self, *names, **more):
        self.options.update(names)
        return super().add_argument(*names, **more)

    def parse_args(self, args=None, namespace=None):
        # An unknown option is told before what is missing.
        unknown = [it for it in sys.argv[1:] if it.startswith('-') and not it[1:].isdigit() and it.partition('=')[0] not in self.options]
        if unknown and '--' not in sys.argv:
            self.error(f'there is no option {unknown[0]}')
        return super().parse_args(args, namespace)

    def error(self, message):
        stop(f'{message}; --help tells the words')
