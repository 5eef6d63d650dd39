"""A unit: its blocks, its tokens, its operations, and what its record holds."""

from copymgr_formats import rod_token
from copymgr_formats.reservations import Reservations, conflict_if
from copymgr_formats.senses import (
    BAD_CDB, IN_USE, OUT_OF_RANGE, OVER_QUOTA, RecordFull, Refused, TOKEN_CORRUPT, TOKEN_DELETED, TOKEN_EVICTED,
    TOKEN_EXPIRED, TOKEN_REMOTE, TOKEN_UNKNOWN, TOO_MANY, refuse_if,
)

from .acts import (
    Abort, Advance, Capture, Close, End, MapStatus, Open, PIECE, Populate, Pump, Put, Read, Result, Start, Told, Unmap,
    Write, pieces,
)
from .told import BACKGROUND, DONE, FAILED, TERMINATED

LIVE_TOKENS = 64
RUNNING_OPERATIONS = 64
KEPT_RECORDS = 256
STATUS_RUNS = 64
RUN_LIMIT = 2**32 - 1
RUNNING = BACKGROUND
# the acts that a reservation may bar, and whether they write
BARRED = {
    Read: False, Capture: False, MapStatus: False, Populate: False, Write: True, Unmap: True, Start: True, Put: True,
}


class Token:
    """A token: its blocks as they stood, and what became of it."""

    def __init__(self, timeout, rod, now):
        self.timeout = timeout
        self.rod = rod
        self.last_use = now
        self.fate = None


class Operation:
    """What a Populate, a Start or an Open began. Its key is who, of which form, as which list identifier."""

    def __init__(self, key, state, count=0):
        self.key = key
        self.state = state
        self.sense = None
        self.count = count
        self.serial = None
        self.background = False
        self.writes = []
        self.served = 0
        self.result = Result(RUNNING, 0, 0)

    def reserved(self):
        """The entries that are kept free for it while it runs."""
        if self.state != RUNNING:
            return 0
        return pieces(len(self.writes)) + 1 - self.served if self.key[1] == "token" else 1


class Unit:
    def __init__(self, machine, number):
        self.machine = machine
        self.number = number
        self.shape = machine.shapes[number]
        self.held = {}
        self.moment = 0
        self.tokens = []
        self.operations = []
        self.reservations = Reservations()
        self.entries = 0
        # how many of them left the record, and what the Writes of the others hold
        self.folded = 0
        self.payload = 0

    # ---- one act

    def act(self, actor, moment, act):
        """The answer to an act, which is kept in the record; or it is refused, or finds the record full."""
        served = self.served_by(actor, act)
        if self.is_full(act, served):
            raise RecordFull
        self.entries += 1
        self.payload += self.length_of(act)
        self.moment = max(self.moment, moment)
        self.expire()
        if type(act) in BARRED:
            conflict_if(not self.reservations.may(actor, BARRED[type(act)]))
        if isinstance(act, (Advance, Pump, End, Abort, Close)):
            return self.serve(act, served)
        return getattr(self, "do_" + type(act).__name__.lower())(actor, act)

    def is_full(self, act, served):
        """Whether the record has no room for an act, which serves this operation or none."""
        if self.entries - self.folded + self.reserved() + self.need(act, served) > self.shape.entries:
            return True
        length = self.length_of(act)
        return length > 0 and self.payload + length > self.shape.payload

    def length_of(self, act):
        """The bytes of a Write."""
        return len(act.blocks) * self.shape.block_length if isinstance(act, Write) else 0

    def reserved(self):
        return sum(operation.reserved() for operation in self.operations)

    def need(self, act, served):
        if isinstance(act, Start):
            return 2 + pieces(len(act.rod))
        if isinstance(act, Open):
            return 2
        return 0 if served else 1

    # ---- blocks

    def judge_bounds(self, ranges):
        refuse_if(any(lba + count > self.shape.blocks for lba, count in ranges), OUT_OF_RANGE)

    def as_they_stand(self, ranges):
        return [self.held.get(lba + at) for lba, count in ranges for at in range(count)]

    def put(self, writes):
        """Whether the blocks were written, which they are not where too many would be mapped."""
        last = dict(writes)
        before = sum(1 for block in last if block in self.held)
        after = sum(1 for data in last.values() if data is not None)
        if len(self.held) - before + after > self.shape.quota:
            return False
        for block, data in last.items():
            if data is None:
                self.held.pop(block, None)
            else:
                self.held[block] = data
        return True

    def do_read(self, _, act):
        self.judge_bounds([act])
        return self.as_they_stand([act])

    do_capture = do_read

    def do_write(self, _, act):
        self.judge_bounds([(act.lba, len(act.blocks))])
        refuse_if(not self.put([(act.lba + at, data) for at, data in enumerate(act.blocks)]), OVER_QUOTA)

    do_put = do_write

    def do_unmap(self, _, act):
        self.judge_bounds(act.ranges)
        for lba, count in act.ranges:
            few = range(lba, lba + count) if count < len(self.held) else list(self.held)
            for block in few:
                if lba <= block < lba + count:
                    self.held.pop(block, None)

    def do_mapstatus(self, _, act):
        refuse_if(act.lba >= self.shape.blocks, OUT_OF_RANGE)
        runs, lba = [], act.lba
        mapped = sorted(block for block in self.held if block >= lba)
        while lba < self.shape.blocks and len(runs) < STATUS_RUNS:
            kind = lba in self.held
            end = self.end_of_run(lba, kind, mapped)
            while end - lba > RUN_LIMIT:
                runs.append((lba, RUN_LIMIT, kind))
                lba += RUN_LIMIT
            runs.append((lba, end - lba, kind))
            lba = end
        return runs[:STATUS_RUNS]

    def end_of_run(self, lba, kind, mapped):
        if not kind:
            return next((block for block in mapped if block > lba), self.shape.blocks)
        while lba in self.held:
            lba += 1
        return lba

    # ---- tokens

    def live(self):
        return [token for token in self.tokens if token.fate is None]

    def expire(self):
        for token in self.live():
            if self.moment > token.last_use + token.timeout:
                token.fate = TOKEN_EXPIRED

    def do_populate(self, actor, act):
        key = (actor, "token", act.id)
        refuse_if(self.running(key), IN_USE)
        self.judge_bounds(act.ranges)
        live = self.live()
        if len(live) == LIVE_TOKENS:
            min(live, key=lambda token: token.last_use).fate = TOKEN_EVICTED
        rod = self.as_they_stand(act.ranges)
        operation = Operation(key, DONE, len(rod))
        operation.serial = len(self.tokens)
        self.tokens.append(Token(act.timeout, rod, self.moment))
        self.keep(operation)

    def do_redeem(self, _, act):
        refuse_if(act.serial >= len(self.tokens), TOKEN_UNKNOWN)
        token, target = self.tokens[act.serial], self.machine.shapes[act.target]
        alike = (self.shape.group, self.shape.block_length) == (target.group, target.block_length)
        refuse_if(not alike, TOKEN_REMOTE)
        text = rod_token.text(self.machine, self.number, act.serial, len(token.rod))
        refuse_if(text != act.text, TOKEN_CORRUPT)
        refuse_if(token.fate, token.fate)
        token.last_use = self.moment
        return token.rod

    def do_delete(self, _, act):
        if act.serial < len(self.tokens) and self.tokens[act.serial].fate is None:
            self.tokens[act.serial].fate = TOKEN_DELETED

    # ---- operations

    def running(self, key):
        return any(operation.key == key and operation.state == RUNNING for operation in self.operations)

    def is_crowded(self):
        return sum(1 for operation in self.operations if operation.state == RUNNING) >= RUNNING_OPERATIONS

    def served_by(self, actor, act):
        """The operation that runs and that the act is for: the one that was made first."""
        tests = {
            Advance: lambda o: o.key == (actor, "token", act.id) and not o.background,
            End: lambda o: o.key == (actor, "token", act.id) and not o.background,
            Abort: lambda o: o.key == (actor, "token", act.id) and o.background,
            Close: lambda o: o.key == (actor, "copy", act.id),
            Pump: lambda o: o.background,
        }
        test = tests.get(type(act), lambda o: False)
        return next((o for o in self.operations if o.state == RUNNING and test(o)), None)

    def keep(self, new):
        """A new record, which replaces the ended one of its key."""
        self.operations = [o for o in self.operations if o.key != new.key or o.state == RUNNING]
        if len(self.operations) == KEPT_RECORDS:
            self.operations.remove(next(o for o in self.operations if o.state != RUNNING))
        self.operations.append(new)

    def do_start(self, actor, act):
        operation = Operation((actor, "token", act.id), RUNNING if act.rod else DONE)
        refuse_if(self.running(operation.key), IN_USE)
        self.judge_bounds(act.ranges)
        refuse_if(self.is_crowded(), TOO_MANY)
        blocks = [lba + at for lba, count in act.ranges for at in range(count)]
        operation.writes = list(zip(blocks, act.rod))
        operation.background = bool(act.background)
        self.keep(operation)
        return operation

    def do_open(self, actor, act):
        operation = Operation((actor, "copy", act.id), RUNNING)
        refuse_if(self.running(operation.key), IN_USE)
        refuse_if(self.is_crowded(), TOO_MANY)
        self.keep(operation)

    def serve(self, act, operation):
        """An act for a running operation."""
        if operation is None:
            refuse_if(not isinstance(act, Pump), BAD_CDB)
            return None
        operation.served += 1
        if isinstance(act, Close):
            operation.result, operation.state = act.result, act.result.state
        elif isinstance(act, (End, Abort)):
            operation.state = TERMINATED
        else:
            self.piece(operation)
        return operation

    def piece(self, operation):
        writes = operation.writes[operation.count : operation.count + PIECE]
        if not self.put(writes):
            operation.state, operation.sense = FAILED, OVER_QUOTA
            return
        operation.count += len(writes)
        if operation.count == len(operation.writes):
            operation.state = DONE

    def kept(self, key):
        for operation in self.operations:
            if operation.key == key:
                return operation
        raise Refused(BAD_CDB)

    def do_report(self, actor, act):
        o = self.kept((actor, "token", act.id))
        return Told(o.serial is not None, o.state, o.sense, o.count, o.serial)

    def do_recall(self, actor, act):
        return self.kept((actor, "copy", act.id)).result

    # ---- reservations

    def do_prout(self, actor, act):
        self.reservations.apply(actor, *act)

    def do_prkeys(self, *_):
        return self.reservations.generation, list(self.reservations.keys.values())

    def do_prholder(self, *_):
        return self.reservations.generation, self.reservations.holder()
