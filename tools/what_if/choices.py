"""How a zone reclaims, and whether it kills: the choices of a boot. Those that nobody made are the nearest to a Linux kernel."""
from __future__ import annotations

import argparse
from typing import Tuple

from .amounts import Fault

# A round of a kernel's reclaim wants at least so many pages of so many bytes.
BATCH, PAGE = 32, 4096
# The greatest batch that memcg takes.
MOST_BATCH = 64


def add_options(parser: argparse.ArgumentParser) -> None:
    """The options of the choices."""
    parser.add_argument("--as-is", action="store_true", help="none of the choices by which reclaim is nearer to a kernel's")
    parser.add_argument("--reclaim-batch", metavar="N", type=int,
                        help="a round of reclaim for a charge wants at least N frames")
    order = parser.add_mutually_exclusive_group()
    order.add_argument("--by-number", action="store_true", help="reclaim takes of the groups in the order of the record")
    order.add_argument("--proportional", action="store_true",
                       help="reclaim first takes of each group in proportion to its clean pages (the default without --as-is)")


def add_no_kill(parser: argparse.ArgumentParser) -> None:
    """The choice of those words that also say what wasn't given."""
    parser.add_argument("--no-kill", action="store_true", help="nobody is killed: what has no room isn't given")


def batch_of(size: int) -> int:
    """The batch that is nearest to a kernel's, of frames of this size."""
    return max(1, min(MOST_BATCH, BATCH * PAGE // size))


def words_of(options: argparse.Namespace, size: int) -> Tuple[str, ...]:
    """The words for memcg, with frames of this size."""
    batch = options.reclaim_batch
    if batch is None and not options.as_is and batch_of(size) > 1:
        batch = batch_of(size)
    words = [f"--reclaim-batch={batch}"] if batch is not None else []
    if batch is not None and not 1 <= batch <= MOST_BATCH:
        raise Fault(f"--reclaim-batch is 1 to {MOST_BATCH}")
    is_proportional = options.proportional or not (options.as_is or options.by_number)
    return (*words, *["--no-kill"] * getattr(options, "no_kill", False), *["--proportional"] * is_proportional)
