"""Which built program `rvc` the tools and the editor's server call.

RVC_PROGRAM in the environment names it. If it isn't set, that is the launcher `rvc` of this
repository, which builds the program first if need be.
"""
import os

TOP = os.path.dirname(os.path.dirname(os.path.realpath(__file__)))
NAME = "RVC_PROGRAM"


def named():
    """The path that RVC_PROGRAM names, or None."""
    path = os.environ.get(NAME)
    return os.path.abspath(path) if path else None


def program():
    """The path of the program to call."""
    return named() or os.path.join(TOP, "rvc")


def quiet():
    """The environment in which the program explains nothing."""
    return dict(os.environ, RVC_QUIET="1")


def calling(path):
    """The environment in which the tools call this program."""
    return dict(os.environ, **{NAME: path})
