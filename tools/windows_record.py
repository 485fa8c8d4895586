"""The records of Windows machines: what pnputil, setupapi.dev.log and Kernel-PnP's events say of devices. What a record does not say is None, or empty."""
import re
import xml.etree.ElementTree as tree

from inf_target import fold

FORMS = r"""  text or XML  pnputil /enum-devices /connected /ids /drivers /stack      (with /format xml)
  a log        C:\Windows\INF\setupapi.dev.log
  XML          wevtutil qe Microsoft-Windows-Kernel-PnP/Configuration /f:xml"""
GROUPS = {"lower filters": "lower", "function driver": "function", "upper filters": "upper"}


class Driver:
    """A driver that matches a device: the names of its INF now and before, date and version, the ID that it matched, its rank in eight digits, and what became of it."""

    def __init__(self, fields):
        self.name, self.original = fields.get("driver name"), fields.get("original name")
        self.version, self.matched = fields.get("driver version"), fields.get("matching device id")
        self.rank, self.status = eight_of(fields.get("driver rank", "")), fields.get("driver status", "")
        self.is_installed = "installed" in fold(self.status)
        self.is_extension = fold(fields.get("class name", "")) in ("extension", "extensions")

    @property
    def title(self):
        return self.name + (f" ({self.original})" if self.original and fold(self.original) != fold(self.name) else "")


class Device:
    """What the machine says of a device."""

    def __init__(self, path):
        self.path = path
        self.title = self.kind = self.status = self.parent = None
        self.hw = self.compat = self.inf = self.section = self.rank = self.matched = self.problem = self.groups = self.service = None
        self.original, self.drivers, self.resources = {}, [], []

    @property
    def stack(self):
        """Returns the drivers from the bottom to the top."""
        return None if self.groups is None else self.groups["lower"] + self.groups["function"] + self.groups["upper"]

    def installed(self):
        """Returns the driver that was installed, with what is told of it, or None."""
        if self.inf is None:
            return None
        named = [it for it in self.drivers if it.name and not it.is_extension and fold(it.name) == fold(self.inf)]
        alone = Driver({"driver name": self.inf, "matching device id": self.matched, "driver rank": f"00{self.rank}"})
        return next((it for it in named if it.is_installed), (named or [alone])[0])


def decoded(data):
    """Returns the characters of a file: UTF-16 by its mark, else UTF-8."""
    code = "utf-16" if data[:2] in (b"\xff\xfe", b"\xfe\xff") else "utf-8-sig"
    return data.decode(code, errors="replace")


def eight_of(text):
    """Returns the eight digits of a rank, or None."""
    found = re.fullmatch(r"(?:0x)?([0-9a-fA-F]{8})", text.strip())
    return found[1].lower() if found else None


def rank_of(text):
    """Returns the last six digits of a rank, or None."""
    digits = eight_of(text)
    return digits[2:] if digits else None


def problem_of(text):
    """Returns the number of a problem code, or None."""
    found = re.match(r"\s*(?:0x([0-9a-fA-F]+)|([0-9]+))", text)
    return None if not found else int(found[1], 16) if found[1] else int(found[2])


def take_driver(device, fields):
    """Takes what is said of one of the matching drivers."""
    one = Driver(fields)
    device.drivers.append(one)
    if one.name and one.original:
        device.original[fold(one.name)] = one.original
    if one.is_installed and not one.is_extension:
        device.inf = one.name or device.inf
        device.matched = one.matched or device.matched
        device.rank = rank_of(one.rank or "") or device.rank


def plain(device, label, value):
    """Takes a value of a device."""
    if label in ("hardware ids", "compatible ids"):
        name = "hw" if label[0] == "h" else "compat"
        setattr(device, name, (getattr(device, name) or []) + ([value] if value else []))
    elif label == "resources":
        device.resources += [value] if value else []
    elif label == "driver name" and value:
        device.inf = value
    elif label == "problem code" and value:
        device.problem = device.problem or problem_of(value)
    elif label in ("device description", "class name", "status") and value:
        name = {"device description": "title", "class name": "kind", "status": "status"}[label]
        setattr(device, name, " ".join([*([getattr(device, name)] if getattr(device, name) else []), value]))
    elif label in ("parent device", "parent") and value:
        device.parent = device.parent or value


def stacked(device, label, value):
    """Takes drivers of a stack, which is told from the bottom to the top in three groups."""
    if label in GROUPS:
        device.groups = device.groups or {"lower": [], "function": [], "upper": []}
        names = [it.strip().rsplit("\\", 1)[-1] for it in value.split(",") if it.strip()]
        device.groups[GROUPS[label]] += names
        if label == "function driver" and names:
            device.service = names[-1]


class Text:
    """Reads the text of pnputil /enum-devices, line by line."""

    def __init__(self):
        self.found, self.label, self.group, self.fields = [], None, None, {}

    def close(self):
        """Ends what is said of a matching driver."""
        if self.found and self.fields:
            take_driver(self.found[-1], dict(self.fields))
        self.fields.clear()

    def outer(self, label, value):
        """Takes a label at the front of a line."""
        self.close()
        self.label, self.group = label, label if label in ("matching drivers", "driver stack") else None
        if label == "instance id":
            self.found.append(Device(value))
        elif self.found:
            plain(self.found[-1], label, value)

    def inner(self, label, value):
        """Takes a label below that of a group."""
        self.label = label
        if self.group == "driver stack":
            stacked(self.found[-1], label, value)
            return
        if label == "driver name":
            self.close()
        self.fields[label] = value

    def further(self, value):
        """Takes a line without a label, which goes on with the one before."""
        if self.group is None:
            plain(self.found[-1], self.label, value)
        elif self.group == "driver stack":
            stacked(self.found[-1], self.label, value)

    def line(self, line):
        labelled = re.match(r"(\s*)([A-Z][A-Za-z ]*[A-Za-z]):(?:\s+(.*))?$", line)
        if not line.strip():
            self.close()
            self.label = None
        elif labelled and labelled[1] == "":
            self.outer(fold(labelled[2]), (labelled[3] or "").strip())
        elif labelled and self.group and self.found:
            self.inner(fold(labelled[2]), (labelled[3] or "").strip())
        elif line[:1].isspace() and self.found and self.label:
            self.further(line.strip())


def from_pnputil(text):
    """Reads the text of pnputil /enum-devices."""
    reader = Text()
    for line in text.splitlines():
        reader.line(line)
    reader.close()
    return reader.found


def local(element):
    """Returns the name of an element, without its namespace, and in lower case."""
    return fold(element.tag.split("}")[-1])


def texts(element, *names):
    """Returns the texts of the elements below one that have one of these names."""
    return [(it.text or "").strip() for it in element.iter() if local(it) in names and (it.text or "").strip()]


# What elements of pnputil's XML say of a device, and of a driver that matches it, in the words of its text.
OF_DEVICE = {"devicedescription": "device description", "classname": "class name", "status": "status", "parentdevice": "parent device", "parent": "parent",
             "drivername": "driver name", "driverinf": "driver name", "problemcode": "problem code"}
OF_DRIVER = {"drivername": "driver name", "originalname": "original name", "driverversion": "driver version", "classname": "class name", "driverstatus": "driver status",
             "status": "driver status", "driverrank": "driver rank", "rank": "driver rank", "matchingdeviceid": "matching device id"}


def device_of_xml(element, path):
    """Returns the device of an element."""
    device = Device(path)
    drivers = [it for it in element.iter() if local(it) in ("matchingdriver", "driver")]
    below = {id(it) for one in drivers for it in one.iter()}
    for it in element.iter():
        name, value = local(it), (it.text or "").strip()
        if name == "hardwareids":
            device.hw = texts(it, "hardwareid", "id") or device.hw
        elif name == "compatibleids":
            device.compat = texts(it, "compatibleid", "id") or device.compat
        elif name == "resource":
            device.resources.append(" ".join("  ".join(it.itertext()).split()))
        elif name in OF_DEVICE and value and id(it) not in below:
            plain(device, OF_DEVICE[name], value)
    for one in drivers:
        fields = {OF_DRIVER[local(it)]: (it.text or "").strip() for it in one.iter() if local(it) in OF_DRIVER}
        for key, value in one.attrib.items():
            if fold(key) in OF_DRIVER:
                fields.setdefault(OF_DRIVER[fold(key)], value)
        take_driver(device, fields)
    for name, label in (("lowerfilter", "lower filters"), ("functiondriver", "function driver"), ("upperfilter", "upper filters")):
        for value in texts(element, name):
            stacked(device, label, value)
    return device


def from_pnputil_xml(root):
    """Reads the XML of pnputil /enum-devices /format xml."""
    found = []
    for element in root.iter():
        if local(element) == "device":
            named = next((value for key, value in element.attrib.items() if fold(key) in ("instanceid", "id")), None) or (texts(element, "instanceid") or [None])[0]
            found += [device_of_xml(element, named)] if named else []
    return found


def file_of(path):
    """Returns the name of a file without its folders, and without what a log says behind it."""
    return re.split(r"[\\/]", path.split(" (")[0].strip())[-1]


def from_setupapi(text):
    """Reads setupapi.dev.log: of each section of a device installation its IDs and what it selected; the last one of a device counts."""
    found, device = {}, None
    for line in text.splitlines():
        begun = re.match(r">>>\s+\[Device Install \(.*?\)\s+-\s+(.+?)\]\s*$", line)
        if begun:
            device, nodes, block = Device(begun[1].strip()), [], None
        elif line.startswith("<<<"):
            if device is not None and (device.inf or device.hw):
                ranked(device, nodes)
                found[fold(device.path)] = device
            device = None
        elif device is not None:
            said = re.match(r"[.!#]*\s*\w+:\s+(.*)$", line)
            if said:
                block = logged(device, nodes, block, said[1].strip())
    return list(found.values())


def logged(device, nodes, block, said):
    """Takes what a line of a log says in a block of its lines, and returns the block that goes on behind it."""
    if said.endswith(":") or said.startswith("{"):
        word = fold(said.rstrip(":"))
        if word == "created driver node":
            nodes.append({})
        return {"searching for hardware id(s)": "hw", "searching for compatible id(s)": "compat", "created driver node": "node", "selected driver": "selected"}.get(word)
    pair = re.match(r"([A-Za-z][A-Za-z ]*?)\s+-\s+(.*)$", said)
    if block in ("hw", "compat") and not pair:
        setattr(device, block, (getattr(device, block) or []) + [said])
    elif pair:
        label, value = fold(pair[1]), pair[2].strip()
        if block == "node":
            nodes[-1][label] = value
        elif label in ("inffile", "infname", "driver inf") and value:
            device.inf = file_of(value)
        elif block == "selected" and label == "section":
            device.section = value
    return block


def ranked(device, nodes):
    """Takes the rank and the ID of the driver node that was selected."""
    for it in nodes:
        if device.inf and fold(file_of(it.get("infname", ""))) == fold(device.inf) and fold(it.get("section", "")) in ("", fold(device.section or "")):
            device.rank = rank_of(it.get("rank", "")) or device.rank
            device.matched = it.get("hardwareid") or device.matched
            return


def from_events(root):
    """Reads Kernel-PnP configuration events: 400 tells what a device was configured with, 410 and 411 that it started or has a problem."""
    found = {}
    for event in root.iter():
        if local(event) != "event":
            continue
        number = next((it.text.strip() for it in event.iter() if local(it) == "eventid" and it.text), "")
        told = {fold(it.attrib.get("Name", "")): (it.text or "").strip() for it in event.iter() if local(it) == "data"}
        path = told.get("deviceinstanceid") or told.get("deviceinstance")
        if not path or number not in ("400", "401", "410", "411"):
            continue
        device = found.setdefault(fold(path), Device(path))
        device.inf = told.get("drivername") or told.get("driverinf") or device.inf
        device.section = told.get("driversection") or told.get("section") or device.section
        device.matched = told.get("matchingdeviceid") or device.matched
        device.rank = rank_of(told.get("driverrank", "")) or device.rank
        device.service = told.get("servicename") or told.get("service") or device.service
        if number == "411" and told.get("problem"):
            device.problem = problem_of(told["problem"])
    return list(found.values())


def devices_of(data):
    """Returns the devices of a machine's record, and None where it is none of the forms."""
    text = decoded(data)
    if text.lstrip().startswith("<"):
        whole = re.sub(r"^\s*<\?xml.*?\?>", "", text, count=1)
        try:
            root = tree.fromstring("<all>" + whole + "</all>")
        except tree.ParseError:
            return None
        return from_events(root) if any(local(it) == "event" for it in root.iter()) else from_pnputil_xml(root)
    if re.search(r"^>>>\s+\[", text, re.MULTILINE):
        return from_setupapi(text)
    return from_pnputil(text) if re.search(r"^Instance ID:", text, re.MULTILINE) else None
