"""Plans of the examples as commands of the package, and outputs as lines of `upsched maps`."""
import dataclasses

import upsched

FLOWS = {
    "best_effort": (upsched.BestEffort, {}),
    "ugs": (upsched.Ugs, {"size": "minislots"}),
    "poll": (upsched.Poll, {}),
    "station": (upsched.Station, {"size": "minislots"}),
    "initial": (upsched.Initial, {"size": "minislots"}),
}
OTHERS = {
    "noop": (upsched.Noop, {}),
    "channel": (upsched.Channel, {}),
    "change": (upsched.Change, {}),
    "drop": (upsched.Drop, {}),
    "request": (upsched.Request, {"n": "minislots"}),
    "cut": (upsched.Cut, {"len": "minislots"}),
}
PHYS = {"tdma": upsched.Phy.TDMA, "advanced": upsched.Phy.ADVANCED}


def command_of(table):
    """The command of a plan's table, whose other keys nothing reads."""
    table = {key: tuple(value) if isinstance(value, list) else value for key, value in table.items()}
    kind = table.pop("kind")
    made, names = FLOWS[table.pop("service")] if kind == "flow" else OTHERS[kind]
    if "phy" in table:
        table["phy"] = PHYS[table["phy"]]
    fields = {field.name for field in dataclasses.fields(made)}
    named = {names.get(key, key): value for key, value in table.items()}
    return made(**{key: value for key, value in named.items() if key in fields})


def line_of(output):
    """The text of an output."""
    if isinstance(output, upsched.Nothing):
        return "nothing"
    if isinstance(output, upsched.ChannelSet):
        return f"channel {output.ch} ucd {output.ucd}"
    if isinstance(output, upsched.Assigned):
        line = f"assigned modem {output.modem} channel {output.ch} sid {output.sid}"
        if (output.first, output.last) == (0, upsched.LAST_TIME):
            return line
        return f"{line} first {output.first} last {output.last}"
    if isinstance(output, upsched.MapMessage):
        return f"map channel {output.ch} start {output.start} len {output.minislots} {output.body.hex()}"
    return f"refused {int(output.refusal)}"
