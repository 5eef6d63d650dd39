"""The client of frames and the formats, which stand once in this repository."""

import pathlib

# pylint: disable=unused-import
from copymgr import Connection, Ended
from copymgr.hosts import BUSY, Reply
from copymgr_formats import cdbs, frames, lists, returned, senses
from copymgr_formats.addresses import address_of

TOP = pathlib.Path(__file__).resolve().parents[3]
