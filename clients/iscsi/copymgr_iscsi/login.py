"""The login of a session, without authentication or by CHAP, and with the keys of RFC 7143 that this target takes."""

import struct

from . import pdus
from .access import Challenge
from .pdus import Broken, Counters

# the stage behind the login
FULL = 3
TRANSIT, CONTINUE = 0x80, 0x40
PORTAL_GROUP = 1
# status class and detail of a login that is refused
NO_AUTHENTICATION, NO_AUTHORIZATION, NO_TARGET, NO_VERSION, MISSING = 0x0201, 0x0202, 0x0203, 0x0205, 0x0207
NO_SUCH_SESSION = 0x020A
INITIATOR_ERROR, NO_SERVICE = 0x0200, 0x0301

BURST, FIRST_BURST = 1_048_576, 262_144
# what comes of a number that is offered
NUMBERS = {
    "MaxConnections": lambda offered: 1,
    "MaxBurstLength": lambda offered: min(offered, BURST),
    "FirstBurstLength": lambda offered: min(offered, FIRST_BURST),
    "DefaultTime2Wait": lambda offered: offered,
    "DefaultTime2Retain": lambda offered: 0,
    "MaxOutstandingR2T": lambda offered: 1,
    "ErrorRecoveryLevel": lambda offered: 0,
}
# what is answered whatever is offered
FIXED = {
    "InitialR2T": "Yes", "DataPDUInOrder": "Yes", "DataSequenceInOrder": "Yes", "IFMarker": "No", "OFMarker": "No",
    "IFMarkInt": "Irrelevant", "OFMarkInt": "Irrelevant",
}
# keys of which one of the values that are offered is taken, and that the initiator tells alone
NONE_OF_LIST = ("HeaderDigest", "DataDigest")
AUTHENTICATION = ("AuthMethod", "CHAP_A", "CHAP_N", "CHAP_R", "CHAP_I", "CHAP_C")
TOLD = ("InitiatorName", "InitiatorAlias", "SessionType", "TargetName", "MaxRecvDataSegmentLength")


class Refused(Exception):
    """The login is refused with a status."""

    def __init__(self, status):
        super().__init__(f"{status:04x}h")
        self.status = status


def number_of(text):
    try:
        return int(text, 0)
    except ValueError:
        raise Refused(INITIATOR_ERROR) from None


class Agreed:
    """What was agreed, from the defaults of RFC 7143 on."""

    def __init__(self):
        self.told = {"SessionType": "Normal", "MaxRecvDataSegmentLength": "8192"}
        self.numbers = {"MaxBurstLength": 262_144, "FirstBurstLength": 65_536}
        self.immediate_data = True

    @property
    def data_in(self):
        """The longest data of one PDU that is sent."""
        return max(512, number_of(self.told["MaxRecvDataSegmentLength"]))

    @property
    def burst(self):
        return max(512, self.numbers["MaxBurstLength"])

    @property
    def is_discovery(self):
        return self.told["SessionType"] == "Discovery"

    def answer(self, key, value):
        """The value that is answered to a key; None where it wants no answer."""
        if key in TOLD:
            self.told[key] = value
            return None
        if key in NONE_OF_LIST:
            return "None" if "None" in value.split(",") else "Reject"
        if key == "ImmediateData":
            self.immediate_data = value == "Yes"
            return value
        if key in NUMBERS:
            self.numbers[key] = NUMBERS[key](number_of(value))
            return str(self.numbers[key])
        return FIXED.get(key, "NotUnderstood")


class Login:
    """One login, up to the full feature phase. `send` sends bytes, and `opens` opens what a target of a name has."""

    def __init__(self, first, send, opens, access):
        self.send, self.opens, self.access = send, opens, access
        self.agreed, self.counters = Agreed(), Counters(0, first.number(24))
        self.isid, self.is_first = first.header[8:14], True
        self.data = b""
        self.challenge, self.is_known = None, not access.chap

    def respond(self, request, flags, pairs=(), status=0, session=0):
        rest = struct.pack(">4x12sH", self.counters.told(), status)
        front = self.isid + struct.pack(">H", session)
        data = pdus.text_bytes(pairs)
        self.send(pdus.pdu_bytes(pdus.LOGGED_IN, flags, request.tag, rest, front, data=data))

    def judge(self, request):
        if request.code != pdus.LOGIN:
            raise Broken(f"{request.code:02x}h before the end of the login")
        if request.header[3] > 0:
            raise Refused(NO_VERSION)
        if request.number(14, 2):
            raise Refused(NO_SUCH_SESSION)

    def judge_names(self):
        """Of the first request."""
        self.is_first = False
        told = self.agreed.told
        if not told.get("InitiatorName") or not (self.agreed.is_discovery or told.get("TargetName")):
            raise Refused(MISSING)
        if not self.access.admits(told["InitiatorName"]):
            raise Refused(NO_AUTHORIZATION)
        return [] if self.agreed.is_discovery else [("TargetPortalGroupTag", PORTAL_GROUP)]

    def authenticated(self, keys):
        """What is answered to the keys of authentication: the method, a challenge, or nothing where it was met."""
        if "AuthMethod" in keys:
            method = "CHAP" if self.access.chap else "None"
            if method not in keys["AuthMethod"].split(","):
                raise Refused(NO_AUTHENTICATION)
            return [("AuthMethod", method)]
        if "CHAP_A" in keys and self.access.chap:
            self.challenge = Challenge(self.access.chap, keys["CHAP_A"])
            if self.challenge.algorithm is None:
                raise Refused(NO_AUTHENTICATION)
            return self.challenge.told()
        if keys:
            self.judge_response(keys)
        return []

    def judge_response(self, keys):
        """A response to the challenge. The target does not show a secret of its own."""
        challenge, self.challenge = self.challenge, None
        is_mutual = "CHAP_I" in keys or "CHAP_C" in keys
        if is_mutual or not challenge or not challenge.is_met(keys.get("CHAP_N"), keys.get("CHAP_R")):
            raise Refused(NO_AUTHENTICATION)
        self.is_known = True

    def leaves(self, request, is_asked):
        """The flags and the stage to which it goes on, where the initiator wants it and is known by then. While it is
        asked who it is, it stays in the first stage; without that it gets no further."""
        if self.is_known:
            return request.flags & (TRANSIT | 3) if request.flags & TRANSIT else 0
        if request.flags & 0x0C or (request.flags & TRANSIT and not is_asked):
            raise Refused(NO_AUTHENTICATION)
        return 0

    def take(self, request, session):
        """Answers a request; whether the login ended with it, and the session of that number begins."""
        self.judge(request)
        self.data += request.data
        stage = request.flags & 0x0C
        if request.flags & CONTINUE:
            self.respond(request, stage)
            return False
        pairs, self.data = pdus.read_text(self.data), b""
        keys = {key: value for key, value in pairs if key in AUTHENTICATION}
        others = [(key, value) for key, value in pairs if key not in AUTHENTICATION]
        answers = [(key, answer) for key, value in others if (answer := self.agreed.answer(key, value)) is not None]
        if self.is_first:
            answers += self.judge_names()
        answers += self.authenticated(keys)
        if any(key == "MaxRecvDataSegmentLength" for key, _ in pairs):
            answers.append(("MaxRecvDataSegmentLength", pdus.DATA_LIMIT))
        goes_on = self.leaves(request, bool(keys))
        ends = goes_on == TRANSIT | FULL
        if ends and not self.agreed.is_discovery:
            self.opens(self.agreed.told["TargetName"])
        self.respond(request, stage | goes_on, answers, session=session if ends else 0)
        return ends
