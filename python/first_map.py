"""The first MAP of a channel, as docs/simulators.md has it."""
from upsched import Channel, Cut, Machine

with Machine() as machine:
    machine.apply(Channel(ch=1, ucd=7, base=1000, ranging=(0, 0), data=(0, 0)))
    output = machine.apply(Cut(ch=1, minislots=100))
    print(output.body.hex())
