"""Calls of the program, for `run-examples`: the words behind its name, what stands on standard input, the status, what is written and
what is told on standard error. Each subject has a file here."""
from .batch import BATCHES
from .check import CHECKS
from .compare import COMPARISONS
from .disassemble import DISASSEMBLIES
from .output import EXPORTS
from .session import SESSIONS
from .words import CALLS_BY_WORDS, HELPS

CALLS = BATCHES + SESSIONS + CALLS_BY_WORDS + CHECKS + COMPARISONS + DISASSEMBLIES

__all__ = ["CALLS", "EXPORTS", "HELPS"]
