"""What the importers share: a machine's devices, and the script and the INF that are written of them."""
import os
import re
import sys
from dataclasses import dataclass, field

# What the language of scripts allows: docs/LANGUAGE.md.
MOST_GROUPS = 16
MOST_IDS = 64
MOST_LINE = 4096
# How many scripted drivers the program has, and how many steady ones; the last name serves for all that are beyond.
MOST_SCRIPTED = 128
MOST_DRIVERS = MOST_SCRIPTED + 32
ROOT = r"HTREE\ROOT\0"


@dataclass
class Resource:
    """Numbers of a kind that a device has: their first and last, and the window in which others would serve too, if any."""

    kind: str
    low: int
    high: int
    shared: bool = False
    room: tuple = ()

    def clashes(self, other):
        return self.kind == other.kind and self.low <= other.high and other.low <= self.high

    def place(self):
        number = hex if self.kind in ("port", "mem") else str
        return f"{self.kind}:{number(self.low)}-{number(self.high)}"

    def want(self):
        """Returns the want of a script, for this very place or for any in the room that is as large, at a multiple of its size."""
        shared = ":shared" if self.shared else ""
        if self.kind in ("irq", "dma"):
            return f"{self.kind}:{self.low}{shared}"
        size = self.high - self.low + 1
        if self.room:
            return f"{self.kind}:{self.room[0]:#x}-{self.room[1]:#x}/{size}@{size}{shared}"
        return f"{self.place()}/{size}{shared}"


@dataclass
class Model:
    """A models line: the name that people see, its IDs, and the drivers and the score that it gives. Of two with one rank the greater age is taken. The note is a comment."""

    title: str
    ids: list
    driver: str
    lower: list = field(default_factory=list)
    upper: list = field(default_factory=list)
    score: int = 255
    age: tuple = ()
    note: str = ""

    def key(self):
        """Returns what is written of it, but for title and note."""
        return tuple(it.lower() for part in (self.ids, [self.driver], self.lower, ["|"], self.upper, [str(self.score)]) for it in part)


@dataclass
class Device:
    """A device: its parent's path, the two parts of its own, its IDs, what it has, its drivers' names, and a bridge's windows. A driver may fail a request, the device be disabled, or its driver have no namesake."""

    title: str
    parent: str
    name: str
    instance: str
    hardware: list
    compatible: list
    driver: str
    model: str
    resources: list = field(default_factory=list)
    notes: list = field(default_factory=list)
    windows: list = field(default_factory=list)
    lower: list = field(default_factory=list)
    upper: list = field(default_factory=list)
    models: list = None
    fails: str = ""
    is_disabled: bool = False
    is_unnamed: bool = False

    @property
    def path(self):
        return f"{self.name}\\{self.instance}"

    def lines_of_inf(self):
        """Returns its models lines: without others one of its own."""
        return [Model(self.title, [self.model], self.driver, self.lower, self.upper)] if self.models is None else self.models

    def drivers(self):
        """Returns the drivers that are to have a name, from the bottom to the top."""
        return [*self.lower, *([] if self.is_unnamed or not self.driver else [self.driver]), *self.upper]

    def line(self):
        """Returns the line of the script, with fewer IDs where all would make it too long."""
        hardware, compatible = self.hardware[:MOST_IDS], self.compatible[:MOST_IDS]
        while True:
            words = [f"plug {self.parent} {self.name} {self.instance}"]
            words += [f"hw={','.join(hardware)}"] * bool(hardware) + [f"compat={','.join(compatible)}"] * bool(compatible)
            words += [f"need={';'.join(it.want() for it in self.resources)}"] * bool(self.resources)
            line = " ".join(words)
            if len(line) <= MOST_LINE or not (compatible or hardware[1:]):
                return line
            (compatible or hardware).pop()


def is_id(text):
    """Returns whether the text is an identifier of the language."""
    return re.fullmatch(r"[!-+\--\x7f]{1,199}", text) is not None


def plain(text):
    """Returns the text as one line of printable ASCII, of which the language and an INF take no more than a part."""
    return re.sub(r"[^ -~]", "?", text)[: MOST_LINE // 2]


def driver_name(text):
    """Returns a name that a driver may have."""
    return re.sub(r"[^A-Za-z0-9_.-]", "_", text)[:64] or "unnamed"


def settle(devices):
    """Leaves out what clashes, since no two devices may have the same numbers: of two the larger one, as a bridge's window. Interrupts and channels that several have are shared."""
    ranges = [(it.high - it.low, number, it, device) for number, (it, device) in enumerate((it, device) for device in devices for it in device.resources)]
    taken, numbers = [], {}
    for _, _, it, device in sorted(ranges, key=lambda entry: entry[:2]):
        if it.kind in ("irq", "dma"):
            numbers.setdefault((it.kind, it.low), []).append(it)
        elif any(it.clashes(other) for other in taken):
            device.resources = [other for other in device.resources if other is not it]
            device.notes.append(f"left out {it.place()}: it holds, or is held in, what another device has")
        else:
            taken.append(it)
    for same in numbers.values():
        for it in same:
            it.shared = it.shared or len(same) > 1
    return taken


def reserve_the_rest(devices):
    """Takes from a device what is beyond the groups of one list, and returns those ranges."""
    rest = []
    for device in devices:
        over = [it for it in device.resources[MOST_GROUPS:] if not it.shared]
        if device.resources[MOST_GROUPS:]:
            device.notes.append(f"has {len(device.resources)} resources: those beyond {MOST_GROUPS} are reserved, or left out where they are shared")
            device.resources = device.resources[:MOST_GROUPS]
        rest += over
    return rest


def set_windows(devices):
    """Leaves each bridge one window of a kind, as the language has it: from the first to the last of those that it has. One outside of which something below it lies is left out."""
    below = {}
    for it in devices:
        below.setdefault(it.parent, []).append(it)
    for bridge in (it for it in devices if it.windows):
        under = list(below.get(bridge.path, []))
        for it in under:
            under += below.get(it.path, [])
        windows = {}
        for it in bridge.windows:
            windows.setdefault(it.kind, []).append(it)
        bridge.windows = []
        for kind, own in windows.items():
            window = Resource(kind, min(it.low for it in own), max(it.high for it in own))
            outside = [(device, it) for device in under for it in device.resources if it.kind == kind and (it.low < window.low or window.high < it.high)]
            if outside:
                device, it = outside[0]
                bridge.notes.append(f"window {window.place()} is not set: {device.title} below it has {it.place()}")
                continue
            if own[1:]:
                bridge.notes.append(f"windows {', '.join(it.place() for it in own)}: one of a kind can be set, so it is from the first to the last")
            bridge.windows.append(window)


def name_drivers(devices):
    """Gives all beyond the most drivers one in common, and returns the names, each once."""
    names = list({name.lower(): name for it in devices for name in it.drivers()}.values())
    if len(names) <= MOST_DRIVERS:
        return names
    common = {it.lower(): "other" for it in names[MOST_DRIVERS - 1 :]}
    for it in [*devices, *(model for device in devices for model in device.models or [])]:
        it.driver = common.get(it.driver.lower(), it.driver)
        it.lower, it.upper = ([common.get(name.lower(), name) for name in names] for names in (it.lower, it.upper))
    return [*names[: MOST_DRIVERS - 1], "other"]


def driver_lines(devices):
    """Returns the lines that name drivers: scripted ones, and steady ones beyond those, of drivers that are not taught."""
    names = name_drivers(devices)
    taught = {it.driver.lower() for it in devices if it.fails}
    over = [it for it in names if it.lower() not in taught][max(MOST_SCRIPTED - len(taught), 0) :]
    return [f"driver {it} {'steady' if it in over else 'scripted'}" for it in names]


def lines_of_device(device):
    """Returns the lines of the script for a device."""
    lines = [f"# {plain(it)}" for it in [device.title, *device.notes]]
    lines += [f"teach {device.driver} {device.fails} {device.path} fail"] * bool(device.fails)
    lines.append(device.line())
    lines += [f"window {device.path} {it.place()}" for it in device.windows]
    return lines + [f"disable {device.path}"] * device.is_disabled


def script_of(heading, reserved, devices):
    """Returns the text of the script. reserved: pairs of a name and a resource."""
    lines = [f"# {plain(it)}" for it in heading]
    lines += driver_lines(devices)
    for name, it in reserved:
        lines += [f"# {plain(name)}", f"reserve {it.place()}"]
    for device in devices:
        lines += lines_of_device(device)
    return "\n".join([*lines, ""])


def quoted(text):
    """Returns a value of an INF that reads as the text."""
    text = text.replace("%", "%%")
    return '"' + text.replace('"', '""') + '"' if re.search(r'[;,=" ]|\\$', text) else text


def install_of(number, model):
    """Returns the sections that a models line names."""
    lines = ["", f"[Install_{number}]"] + [f"FeatureScore = {model.score:#04x}"] * (model.score != 255)
    if model.lower or model.upper:
        lines += [f"[Install_{number}.HW]", f"AddReg = Filters_{number}", f"[Filters_{number}]"]
        for name, filters in (("LowerFilters", model.lower), ("UpperFilters", model.upper)):
            lines += [f'HKR,,"{name}",0x00010000,' + ",".join(f'"{it}"' for it in filters)] * bool(filters)
    return [*lines, f"[Install_{number}.Services]", f"AddService = {model.driver}, 0x00000002, Service"]


def inf_of(heading, devices):
    """Returns the text of an INF with a models line, and a service, for each model of device."""
    models = list({it.key(): it for device in devices for it in device.lines_of_inf()}.values())
    # (of one rank the line that stands first is taken)
    models.sort(key=lambda it: it.age, reverse=True)
    lines = [f"; {plain(it)}" for it in heading]
    lines += ["[Version]", 'Signature = "$Windows NT$"', "DriverVer = 01/01/2024,1.0.0.0", "", "[Manufacturer]", '"Imported" = Models,NTamd64', "", "[Models.NTamd64]"]
    for number, it in enumerate(models, 1):
        lines += [f"; {plain(it.note)}"] * bool(it.note)
        lines.append(f'{quoted(plain(it.title) + " ")} = Install_{number}, {", ".join(map(quoted, it.ids))}')
    for number, it in enumerate(models, 1):
        lines += install_of(number, it)
    return "\n".join([*lines, "", "[Service]", "ServiceType = 1", ""])


def write(prefix, heading, reserved, devices, force):
    """Writes PREFIX.pnp and PREFIX.inf, and returns the status of the importer."""
    texts = {f"{prefix}.pnp": script_of(heading, reserved, devices), f"{prefix}.inf": inf_of(heading, devices)}
    there = [it for it in texts if os.path.lexists(it)]
    if there and not force:
        print(f"{there[0]} is there already: --force writes over it", file=sys.stderr)
        return 1
    try:
        for file, text in texts.items():
            with open(file, "w", encoding="ascii", newline="\n") as it:
                it.write(text)
    except OSError as error:
        print(f"{error.filename} cannot be written: {error.strerror}", file=sys.stderr)
        return 1
    left = sum("left out" in note for it in devices for note in it.notes)
    print(f"{prefix}.pnp and {prefix}.inf: {len(devices)} devices, {len(reserved)} reserved ranges, {left} resources left out", file=sys.stderr)
    return 0
