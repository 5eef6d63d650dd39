"""The persistent reservations of a unit: who is registered, who has reserved it, and what that bars others from."""

from .senses import BAD_CDB, BAD_LIST, TOO_MANY, Conflict, refuse_if

REGISTER, RESERVE, RELEASE, CLEAR, PREEMPT, REGISTER_AND_IGNORE = 0x00, 0x01, 0x02, 0x03, 0x04, 0x06
ACTIONS = (REGISTER, RESERVE, RELEASE, CLEAR, PREEMPT, REGISTER_AND_IGNORE)
WRITE_EXCLUSIVE, EXCLUSIVE_ACCESS, WRITE_EXCLUSIVE_REGISTRANTS, EXCLUSIVE_ACCESS_REGISTRANTS = 1, 3, 5, 6
KINDS = (WRITE_EXCLUSIVE, EXCLUSIVE_ACCESS, WRITE_EXCLUSIVE_REGISTRANTS, EXCLUSIVE_ACCESS_REGISTRANTS)
REGISTRANTS = 64


def conflict_if(wrong):
    if wrong:
        raise Conflict


class Reservations:
    def __init__(self):
        # the keys by nexus, in the order of registering
        self.keys = {}
        # the kind, and who holds it
        self.held = None
        self.generation = 0

    def may(self, nexus, writes):
        """Whether the nexus may read the unit, or write it."""
        if self.held is None or self.held[1] == nexus:
            return True
        kind = self.held[0]
        if kind in (WRITE_EXCLUSIVE, WRITE_EXCLUSIVE_REGISTRANTS) and not writes:
            return True
        return kind in (WRITE_EXCLUSIVE_REGISTRANTS, EXCLUSIVE_ACCESS_REGISTRANTS) and nexus in self.keys

    def holder(self):
        """The key that the holder has, and the kind of its reservation."""
        return None if self.held is None else (self.keys[self.held[1]], self.held[0])

    def apply(self, nexus, action, scope, kind, key, action_key):
        """What a PERSISTENT RESERVE OUT asks is done, or it is refused and changes nothing."""
        known = self.keys.get(nexus) == key
        if action == REGISTER:
            conflict_if(self.keys.get(nexus, 0) != key)
        elif action != REGISTER_AND_IGNORE:
            refuse_if(action != CLEAR and (scope != 0 or kind not in KINDS), BAD_CDB)
            conflict_if(not known)
        if action in (REGISTER, REGISTER_AND_IGNORE):
            self.register(nexus, action_key)
        elif action == RESERVE:
            conflict_if(self.held not in (None, (kind, nexus)))
            self.held = (kind, nexus)
        elif action == RELEASE:
            self.release(nexus, kind)
        elif action == CLEAR:
            self.keys, self.held = {}, None
        else:
            self.preempt(nexus, kind, action_key)
        if action not in (RESERVE, RELEASE):
            self.generation = (self.generation + 1) % 2**32

    def register(self, nexus, action_key):
        if action_key == 0:
            self.keys.pop(nexus, None)
            if self.held is not None and self.held[1] == nexus:
                self.held = None
            return
        refuse_if(nexus not in self.keys and len(self.keys) == REGISTRANTS, TOO_MANY)
        self.keys[nexus] = action_key

    def release(self, nexus, kind):
        if self.held is not None and self.held[1] == nexus:
            refuse_if(self.held[0] != kind, BAD_CDB)
            self.held = None

    def preempt(self, nexus, kind, action_key):
        refuse_if(action_key == 0, BAD_LIST)
        conflict_if(action_key not in self.keys.values())
        if self.held is not None and self.keys[self.held[1]] == action_key:
            self.held = (kind, nexus)
        self.keys = {other: key for other, key in self.keys.items() if other == nexus or key != action_key}
