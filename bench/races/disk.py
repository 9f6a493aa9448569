"""The raw disk of the second machine, by docs/KERNEL.md: calls are requests, which completions serve in their order. What a read brings is stored
for its caller in the event of the completion."""
from races.calls import Semaphore
from races.console import Console
from races.history import Moment
from races.machine import REFUSED
from second import RAM

RAW_DISK, CALLERS, BLOCK = 2, 2, 512  # the device, the semaphore on which callers wait, and the bytes of a block


class Request:
    """What a process asks of the disk; a write has its bytes."""

    def __init__(self, caller, address, block, data):
        self.caller, self.address, self.block, self.data = caller, address, block, data


class Machine(Console):
    """The machine with its raw disk."""

    def __init__(self, image, disk):
        self.blocks_of_disk, self.requests = [disk[k : k + BLOCK] for k in range(0, len(disk), BLOCK)], []
        super().__init__(image)
        self.semaphores[CALLERS] = Semaphore([], False, False)

    def interrupt(self, kind, byte):
        if kind not in ("disk0", "fail0"):
            return super().interrupt(kind, byte)
        self.asks = False
        if self.requests:
            self.completed(self.requests.pop(0), kind == "disk0")
        if self.asks:
            self.resched()
        return None

    def completed(self, request, is_good):
        """The first request is served, and its caller goes on if it lives."""
        process = self.processes.get(request.caller)
        if is_good and request.data is not None:
            self.blocks_of_disk[request.block] = request.data
        if process is None:
            return
        if is_good and request.data is None:
            self.ram[request.address : request.address + BLOCK] = self.blocks_of_disk[request.block]
            moment = Moment(self.now, None)
            moment.touch(True, process.number, process.pc - 4, request.address, BLOCK)
            self.moments.append(moment)
            self.calls[self.now] = process.called
        reply = 0 if is_good else REFUSED
        process.rest = lambda: reply
        self.semaphores[CALLERS].waiters.remove(process.number)
        self.release(process.number)

    def leave(self, number):
        super().leave(number)
        # the first request goes on without its caller
        self.requests = [it for k, it in enumerate(self.requests) if k == 0 or it.caller != number]
        if self.requests and self.requests[0].caller == number:
            self.requests[0].caller = None

    def ask(self, process, address, block, data):
        """A request is made, and its caller waits."""
        self.requests.append(Request(process.number, address, block, data))
        self.semaphores[CALLERS].waiters.append(process.number)
        return self.block(process, "wait", lambda: None)

    def is_request(self, address, block):
        """Whether there is such a block, and its bytes are in RAM."""
        return block < len(self.blocks_of_disk) and address + BLOCK <= RAM

    def call_read(self, process, device, address, count):
        if device != RAW_DISK:
            return super().call_read(process, device, address, count)
        return self.ask(process, address, count, None) if self.is_request(address, count) else REFUSED

    def call_write(self, process, device, address, count):
        if device != RAW_DISK:
            return super().call_write(process, device, address, count)
        if not self.is_request(address, count):
            return REFUSED
        self.moment.touch(False, process.number, self.at, address, BLOCK)
        return self.ask(process, address, count, bytes(self.ram[address : address + BLOCK]))
