"""One packet comes, waits and goes: what examples/hello.c does, in Python."""

from maltcove import Packet, Scheduler

BUFFERS = {7: "hello, queue"}  # the caller's buffers, which tags name

# The seed is 16 random bytes in a real program, as where none is given.
with Scheduler("limit 1000 target 5ms", seed=bytes([1, 2, 3]) + bytes(13)) as scheduler:
    admitted = scheduler.enqueue(0, Packet(tag=7, len=13))
    print(f"packet {admitted.id} waits in flow {admitted.flow}")
    while (sent := scheduler.dequeue(1500)) is not None:
        print(f"packet {sent.id} goes: {BUFFERS[sent.tag]}")
