"""The formats, and where the programs are that this repository has."""

import pathlib

# pylint: disable=unused-import
from copymgr_formats import cdbs, frames, lists, reservations, returned, rod_token, senses
from copymgr_formats.returned import Capacity, Reservation, Run, State

TOP = pathlib.Path(__file__).resolve().parents[3]

PLAIN_REPLAY = TOP / "tools/people/plain-replay"
PLAIN_SERVE = TOP / "tools/people/plain-serve"
PLAIN_MANAGE = TOP / "tools/people/plain-manage"
PROGRAM = TOP / "crates/copymgr/out/copymgr"
