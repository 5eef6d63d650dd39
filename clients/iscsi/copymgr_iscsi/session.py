"""A session after its login: commands are done one after the other, in the order in which they came."""

import collections
import struct

from . import login, pdus, tasks, units
from .wire import frames

ABORT_TASK, LOGICAL_UNIT_RESET, TARGET_WARM_RESET = 1, 5, 6
SETS = (2, 4, LOGICAL_UNIT_RESET)
DONE, NO_TASK, NO_UNIT, NOT_SUPPORTED = 0, 1, 2, 5


class Session:
    """One session. `its_units` go by a connection of its own to the program; a discovery session has none."""

    def __init__(self, link, counters, agreed, targets, its_units=None):
        self.link, self.counters, self.agreed, self.targets = link, counters, agreed, targets
        self.units = its_units
        self.waiting = collections.deque()

    def send(self, *words, **named):
        self.link.sendall(pdus.pdu_bytes(*words, **named))

    def run(self, source):
        """Takes what comes until the other end leaves."""
        goes_on = True
        while goes_on and (request := pdus.read_pdu(source)) is not None:
            goes_on = self.take(request)

    def take(self, request):
        """One PDU; whether the session goes on."""
        if request.code not in (pdus.DATA_OUT, pdus.SNACK) and not request.is_immediate:
            if not self.counters.takes(request.number(24)):
                return True
        takes = {
            pdus.NOP_OUT: self.ping, pdus.COMMAND: self.command, pdus.DATA_OUT: self.data_out, pdus.TASK: self.manage,
            pdus.TEXT: self.text, pdus.LOGOUT: self.logout,
        }
        if request.code not in takes or (self.units is None and request.code in (pdus.COMMAND, pdus.TASK)):
            self.reject(request, pdus.NOT_SUPPORTED)
            return True
        return takes[request.code](request) is not False

    def reject(self, request, why):
        rest = struct.pack(">4x") + self.counters.told()
        self.send(pdus.REJECT, pdus.FINAL, pdus.NO_TAG, rest, second=why, data=request.header)

    # ---- what is no command

    def ping(self, request):
        if request.tag != pdus.NO_TAG:
            rest = struct.pack(">I", pdus.NO_TAG) + self.counters.told()
            self.send(pdus.NOP_IN, pdus.FINAL, request.tag, rest, request.lun, data=request.data[: self.agreed.data_in])

    def text(self, request):
        """SendTargets, and keys that may be told at any time."""
        answers = []
        for key, value in pdus.read_text(request.data):
            if key == "SendTargets":
                answers += self.targets(value)
            else:
                answer = self.agreed.answer(key, value) if key in login.TOLD else "NotUnderstood"
                answers += [(key, answer)] if answer else []
        rest = struct.pack(">I", pdus.NO_TAG) + self.counters.told()
        self.send(pdus.TEXT_DONE, pdus.FINAL, request.tag, rest, data=pdus.text_bytes(answers))

    def logout(self, request):
        reason = request.flags & 0x7F
        rest = struct.pack(">4x") + self.counters.told()
        # recovery of a connection is not supported
        self.send(pdus.LOGGED_OUT, pdus.FINAL, request.tag, rest, second=0 if reason < 2 else 2)
        return reason >= 2

    def manage(self, request):
        """Task management. What has begun is done when this is read, so only commands that wait for data are ended."""
        rest = struct.pack(">4x") + self.counters.told()
        self.send(pdus.TASK_DONE, pdus.FINAL, request.tag, rest, second=self.managed(request))
        self.go_on()

    def managed(self, request):
        function = request.flags & 0x7F
        unit = units.unit_of(request.lun)
        if function == TARGET_WARM_RESET:
            self.waiting.clear()
            return DONE
        if function not in (ABORT_TASK, *SETS):
            return NOT_SUPPORTED
        if self.units.capacity(unit) is None:
            return NO_UNIT
        ended = [
            task for task in self.waiting
            if task.unit == unit and (function != ABORT_TASK or task.tag == request.number(20))
        ]
        for task in ended:
            self.waiting.remove(task)
        return NO_TASK if function == ABORT_TASK and not ended else DONE

    # ---- commands

    def command(self, request):
        unit = units.unit_of(request.lun)
        task = tasks.Task(request, unit, self.units.data_out(unit, request.header[32:48]))
        self.waiting.append(task)
        if not task.is_whole:
            self.link.sendall(task.ready(self.counters, self.agreed.burst))
        self.go_on()

    def data_out(self, request):
        task = next((task for task in self.waiting if task.tag == request.tag), None)
        if task is None or task.is_whole:
            return
        if task.take(request) and not task.is_whole:
            self.link.sendall(task.ready(self.counters, self.agreed.burst))
        self.go_on()

    def go_on(self):
        """Does the commands in front whose data is there."""
        while self.waiting and self.waiting[0].is_whole:
            task = self.waiting.popleft()
            if task.refusal:
                self.respond(task, units.check(task.refusal))
            else:
                self.respond(task, self.units.answer(task.unit, task.cdb, bytes(task.data)))

    def respond(self, task, reply):
        """Data, and the status with its last part, or the status alone."""
        had = len(reply.data) if not task.brings_data else task.wanted
        flag, count = tasks.residual(task.expected, had)
        data = reply.data[: task.expected]
        if data and reply.status == frames.GOOD:
            self.send_data(task, data, flag, count)
            return
        sense = struct.pack(">H", len(reply.sense)) + reply.sense if reply.sense else b""
        rest = struct.pack(">4x") + self.counters.told() + struct.pack(">III", 0, 0, count)
        self.send(pdus.RESPONSE, pdus.FINAL | flag, task.tag, rest, third=reply.status, data=sense)

    def send_data(self, task, data, flag, count):
        """In parts that the other end takes; a sequence of them ends at each burst."""
        at = number = 0
        while at < len(data):
            burst_end = (at // self.agreed.burst + 1) * self.agreed.burst
            end = min(at + self.agreed.data_in, burst_end, len(data))
            is_last = end == len(data)
            flags = (pdus.FINAL if end in (burst_end, len(data)) else 0) | (flag | 0x01 if is_last else 0)
            numbers = self.counters.told() if is_last else bytes(4) + self.counters.told(counts=False)[4:]
            rest = struct.pack(">I", pdus.NO_TAG) + numbers + struct.pack(">III", number, at, count if is_last else 0)
            self.send(pdus.DATA_IN, flags, task.tag, rest, task.lun, data=data[at:end])
            at, number = end, number + 1
