"""The commands of `tools/dev`: each is a module with a docstring and a function `run` of the command's arguments.

A parameter is a word of the command line, `*words` are any number, and one by keyword alone is an option. An annotation
lists the words that it may be, or makes its value of a word.
"""

import argparse
import importlib
import inspect
import signal
import sys

from .common import Failure, on_signals, reason
from .source import line_of

# Each command, and its module in this package. The first sentence of the module's docstring is what it does.
VERBS = {"setup": "needs", "render": "render", "check-pages": "pages", "mutants": "mutants", "test": "tests",
         "compare-original": "original", "measure": "measure", "install": "install", "make-libraries": "libraries",
         "make-page": "page", "take": "take"}  # fmt: skip


def module_of(verb):
    """Imports the module of a command."""
    return importlib.import_module(f".{VERBS[verb]}", __package__)


def summary_of(module):
    """Returns the first sentence of a module's docstring, without its full stop."""
    return line_of(module.__doc__).partition(". ")[0].rstrip(".")


def add_argument(command, parameter):
    """Adds an argument for a parameter of `run` to the parser of its command."""
    name, default, kind = parameter.name.strip("_"), parameter.default, parameter.annotation

    def one_of_kind(word):
        if word not in kind:
            raise argparse.ArgumentTypeError(f"'{word}' is none of: {' '.join(kind)}")
        return word

    if parameter.kind == parameter.KEYWORD_ONLY:
        how = {"action": "store_true"} if default is False else {"type": type(default or ""), "metavar": name.upper()}
        command.add_argument("--" + name.replace("_", "-"), dest=parameter.name, default=default, **how)
        return
    how = {"nargs": "?", "default": default} if default is not parameter.empty else {}
    if parameter.kind == parameter.VAR_POSITIONAL:
        how = {"nargs": "*", "default": []}
    if not callable(kind):
        how.update(type=one_of_kind, help=" ".join(kind))
    elif kind is not parameter.empty:
        how["type"] = kind
    command.add_argument(parameter.name, metavar=name.upper(), **how)


def main():
    """Calls the command that the words name, and returns its exit status: 2 if the words are wrong."""
    parser = argparse.ArgumentParser(prog="tools/dev", epilog="`tools/dev COMMAND --help` has the arguments.")
    commands = parser.add_subparsers(metavar="COMMAND", required=True)
    for verb in VERBS:
        module = module_of(verb)
        command = commands.add_parser(verb, help=summary_of(module), description=module.__doc__,
                                      formatter_class=argparse.RawDescriptionHelpFormatter)  # fmt: skip
        for parameter in inspect.signature(module.run).parameters.values():
            add_argument(command, parameter)
        command.set_defaults(run=module.run, command=command.prog)
    given = vars(parser.parse_args())
    run, name = given.pop("run"), given.pop("command")
    called = inspect.signature(run).bind_partial()
    called.arguments.update(given)
    on_signals(signal.default_int_handler)
    try:
        return run(*called.args, **called.kwargs) or 0
    except (Failure, OSError, KeyboardInterrupt) as error:
        print(f"{name}: {reason(error)}", file=sys.stderr, flush=True)
        return 1
