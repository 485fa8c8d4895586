"""INF files as a machine of a given kind reads them: decorations, Include and Needs, filters, extensions. A plain program, by docs/INF.md alone."""
import re

LONGEST = 4096
ARCHES = ("amd64", "arm64", "arm", "ia64", "x86")


class Refused(Exception):
    """An INF is refused: why, and at which line; 0 where it is the whole file."""

    def __init__(self, why, line):
        super().__init__(f"line {line}: {why}" if line else why)
        self.why, self.line = why, line


def fold(text):
    """Returns the text with ASCII letters folded."""
    return "".join(c.lower() if "A" <= c <= "Z" else c for c in text)


class Entry:
    """A line of a section: its number, its key (None without one), its values."""

    def __init__(self, line, key, values):
        self.line, self.key, self.values = line, key, values

    def value(self, at):
        return self.values[at] if at < len(self.values) else ""

    def has_key(self, word):
        return self.key is not None and fold(self.key) == fold(word)


def text_of(data):
    """Returns the characters of a file's bytes, as bytes of UTF-8 read back one by one would give them."""
    if data[:2] == b"\xff\xfe":
        return data[2:len(data) // 2 * 2].decode("utf-16-le", errors="replace")
    if data[:3] == b"\xef\xbb\xbf":
        data = data[3:]
    try:
        return data.decode("utf-8")
    except UnicodeDecodeError:
        return data.decode("latin-1")


def symbols_of(line):
    """Returns the characters of a line before its comment, each with whether it is quoted; the marks of quotes are left as None."""
    found, quoted, at = [], False, 0
    while at < len(line):
        c = line[at]
        if c == '"':
            if quoted and line[at + 1:at + 2] == '"':
                found.append(('"', True))
                at += 2
                continue
            quoted = not quoted
            found.append((None, True))
        elif c == ";" and not quoted:
            break
        else:
            found.append((c, quoted))
        at += 1
    return trimmed(found)


def trimmed(symbols):
    """Returns symbols without plain blanks at both ends."""
    blank = ((" ", False), ("\t", False))
    first, last = 0, len(symbols)
    while first < last and symbols[first] in blank:
        first += 1
    while last > first and symbols[last - 1] in blank:
        last -= 1
    return symbols[first:last]


def cut(symbols, mark):
    """Returns the parts between plain marks."""
    parts, part = [], []
    for it in symbols:
        if it == (mark, False):
            parts.append(part)
            part = []
        else:
            part.append(it)
    return parts + [part]


def bare(symbols):
    """Returns the text of a part, without blanks at its ends and without quotes."""
    return "".join(c for c, _ in trimmed(symbols) if c is not None)


def whole_lines(text):
    """Returns the lines of a text with those that continue them: number, symbols."""
    lines = text.split("\n")
    ended = lines[:-1]
    lines = [(it[:-1] if it.endswith("\r") else it) for it in ended] + ([lines[-1]] if lines[-1] else [])
    found, open_at, gathered = [], 0, []
    for number, (line, raw) in enumerate(zip(lines, ended + [lines[-1] if lines else ""]), 1):
        if len(raw.encode("utf-8", errors="surrogatepass")) > LONGEST:
            raise Refused("a line is too long", number)
        symbols = symbols_of(line)
        if not open_at and symbols[:1] == [("[", False)]:
            found.append((number, symbols))
            continue
        more = symbols[-1:] == [("\\", False)]
        open_at = open_at or number
        gathered += symbols[:-1] if more else symbols
        if not more:
            if gathered:
                found.append((open_at, gathered))
            open_at, gathered = 0, []
    if gathered:
        found.append((open_at, gathered))
    return found


class Inf:
    """An INF by its sections. Its name is that of its file, without folders."""

    def __init__(self, name, data):
        self.name = name
        self.sections, self.lines_of = {}, {}
        raw, strings, current, under_header = [], {}, None, False
        for number, symbols in whole_lines(text_of(data)):
            if symbols[0] == ("[", False) and not (raw and raw[-1][0] == number):
                written = "".join('"' if c is None else c for c, _ in symbols)[1:]
                if "]" not in written:
                    raise Refused("a header without its end", number)
                current = fold(written.split("]")[0].strip(" \t"))
                self.sections.setdefault(current, [])
                self.lines_of.setdefault(current, number)
                under_header = True
            elif under_header:
                raw.append((number, current, symbols))
        for number, section, symbols in raw:
            if section == "strings":
                key, values = parts_of(symbols)
                if key is not None:
                    strings.setdefault(fold(key), values[0])
        for number, section, symbols in raw:
            key, values = parts_of(symbols)
            if section != "strings":
                key = None if key is None else replaced(strings, key)
                values = [replaced(strings, it) for it in values]
            self.sections[section].append(Entry(number, key or None, values))
        self.judge()

    def section(self, name):
        return self.sections.get(fold(name), [])

    def has(self, name):
        return fold(name) in self.sections

    def first(self, section, key):
        for it in self.section(section):
            if it.has_key(key):
                return it
        return None

    def judge(self):
        """Finds date and version, or why the INF is refused."""
        for entries in self.sections.values():
            for it in entries:
                if it.has_key("FeatureScore") and score_of(it.value(0)) is None:
                    raise Refused("no score", it.line)
        driver = self.first("Version", "DriverVer")
        self.date, self.version = (0, 0) if driver is None else dated(driver)
        signed = [it for it in self.section("Version") if it.has_key("Signature")]
        if not any(fold(it.value(0)) in ("$windows nt$", "$chicago$") for it in signed):
            raise Refused("no signature", 0)
        kind = self.first("Version", "Class")
        self.is_extension = kind is not None and fold(kind.value(0)) == "extension"
        mark = self.first("Version", "ExtensionId")
        self.extension_id = fold(mark.value(0)) if mark is not None else ""


def parts_of(symbols):
    """Returns the key of a line and its values."""
    for at, it in enumerate(symbols):
        if it == ("=", False):
            return bare(symbols[:at]), [bare(part) for part in cut(symbols[at + 1:], ",")]
    return None, [bare(part) for part in cut(symbols, ",")]


def replaced(strings, text):
    """Returns the text with its tokens replaced."""
    parts = text.split("%")
    made = [parts[0]]
    at = 1
    while at < len(parts):
        if at + 1 == len(parts):
            made.append("%" + parts[at])
            break
        name = parts[at]
        made.append("%" if name == "" else strings.get(fold(name), f"%{name}%"))
        made.append(parts[at + 1])
        at += 2
    return "".join(made)


def number_of(text, most):
    """Returns the number that a text is, decimal or behind 0x, or None."""
    if text[:2] == "0x":
        digits, base = text[2:], 16
    else:
        digits, base = text, 10
    if not re.fullmatch("[0-9A-Fa-f]+" if base == 16 else "[0-9]+", digits, re.ASCII):
        return None
    number = int(digits, base)
    return number if number <= most else None


def score_of(text):
    """Returns a score, or None."""
    if re.fullmatch("[0-9A-Fa-f]{1,2}", text, re.ASCII) and not text.isdigit():
        return int(text, 16)
    return number_of(text, 255)


def dated(driver):
    """Returns the date and the version of a DriverVer."""
    for mark in "/-":
        date = re.fullmatch(f"([0-9]{{1,2}}){mark}([0-9]{{1,2}}){mark}([0-9]{{4}})", driver.value(0), re.ASCII)
        if date and 1 <= int(date[1]) <= 12 and 1 <= int(date[2]) <= 31:
            version = 0
            if driver.value(1):
                numbers = driver.value(1).split(".")
                if len(numbers) > 4 or not all(re.fullmatch("[0-9]+", it, re.ASCII) and int(it) <= 65535 for it in numbers):
                    break
                for it in numbers + ["0"] * (4 - len(numbers)):
                    version = version * 65536 + int(it)
            return int(date[3]) * 10000 + int(date[1]) * 100 + int(date[2]), version
    raise Refused("no date and version", driver.line)


class Kind:
    """What a decoration or a target tells: a machine, a version, a product, suites, a build; None of what it leaves out."""

    def __init__(self, text):
        parts = text.split(".")
        word = fold(parts[0])
        word = word[2:] if word.startswith("nt") else None
        self.is_one = word is not None and (word == "" or word in ARCHES) and len(parts) <= 6
        self.arch = word or None
        numbers = []
        for it in parts[1:]:
            numbers.append(None if it == "" else number_of(it, 0xFFFFFFFF))
            self.is_one = self.is_one and (it == "" or numbers[-1] is not None)
        numbers += [None] * (5 - len(numbers))
        self.major, self.minor, self.product, self.suite, self.build = numbers[:5]
        # a minor version without a major one, or a build without a version, tells nothing that could be compared
        self.is_one = self.is_one and not (self.major is None and self.minor is not None)


def target_of(text):
    """Returns a target, or None where the text is none."""
    words = text if fold(text).startswith("nt") else "NT" + text
    kind = Kind(words)
    return kind if kind.is_one and kind.arch is not None else None


def version_key(kind):
    return (kind.major or 0, kind.minor or 0)


def applies(decoration, target):
    """Tells whether a decoration is for the target. What the target leaves out limits nothing."""
    if not decoration.is_one or decoration.arch not in (None, target.arch):
        return False
    if decoration.major is not None and target.major is not None:
        if version_key(decoration) > version_key(target):
            return False
    if decoration.build is not None and target.build is not None:
        same_version = target.major is None or decoration.major is None or version_key(decoration) == version_key(target)
        if same_version and decoration.build > target.build:
            return False
    if decoration.product is not None and target.product is not None and decoration.product != target.product:
        return False
    if decoration.suite is not None and target.suite is not None and decoration.suite & ~target.suite:
        return False
    return True


def strength(decoration):
    """Returns what is compared of decorations that apply: the greater is taken."""
    version = (-1, -1) if decoration.major is None else version_key(decoration)
    return (decoration.arch is not None, version, -1 if decoration.build is None else decoration.build,
            decoration.product is not None, -1 if decoration.suite is None else bin(decoration.suite).count("1"))


def models_name(entry, target):
    """Returns the models section that an entry of [Manufacturer] names for a target, or None."""
    decorations = entry.values[1:]
    if not decorations:
        return entry.value(0)
    best = None
    for text in decorations:
        kind = Kind(text)
        if applies(kind, target) and (best is None or strength(kind) > strength(best[1])):
            best = (text, kind)
    return None if best is None else f"{entry.value(0)}.{best[0]}"


def install_name(inf, name, target):
    """Returns the name of an install section: with the machine, with NT, or bare."""
    for end in (f".NT{target.arch}", ".NT"):
        if inf.has(name + end):
            return name + end
    return name


class Set:
    """INFs that are given together, with what is missing of them."""

    def __init__(self, infs):
        self.infs = infs
        self.by_name = {}
        for inf in infs:
            self.by_name.setdefault(fold(inf.name), inf)
        self.missing = []

    def needed(self, inf, section):
        """Returns the places (INF, section) that a section needs, itself first, each once, level by level."""
        places, at = [(inf, fold(section))], 0
        while at < len(places):
            here, name = places[at]
            at += 1
            entries = here.section(name)
            included = []
            for it in entries:
                if it.has_key("Include"):
                    for file in it.values:
                        found = self.by_name.get(fold(file))
                        if found is None and file:
                            self.missing.append((here, it.line, file))
                        elif found is not None:
                            included.append(found)
            for it in entries:
                if it.has_key("Needs"):
                    for wanted in it.values:
                        if not wanted:
                            continue
                        there = next((one for one in [here] + included if one.has(wanted)), None)
                        if there is None:
                            self.missing.append((here, it.line, f"[{wanted}]"))
                        elif (there, fold(wanted)) not in places:
                            places.append((there, fold(wanted)))
        return places

    def entries(self, inf, section):
        """Returns the entries of a section and of those that it needs, with the INF of each."""
        return [(there, it) for there, name in self.needed(inf, section) for it in there.section(name)]


class Install:
    """What an install section gives."""

    def __init__(self, given, inf, name):
        scores = [it for it in inf.section(name) if it.has_key("FeatureScore")]
        self.score = score_of(scores[0].value(0)) if scores else 255
        self.name = name
        self.service = None
        for _, it in given.entries(inf, name + ".Services"):
            if it.has_key("AddService") and (number_of(it.value(1), 0xFFFFFFFF) or 0) & 2:
                self.service = it.value(0) or None
                break
        self.lower, self.upper = [], []
        for there, it in given.entries(inf, name + ".HW"):
            if it.has_key("AddReg"):
                for section in it.values:
                    self.registry(there.section(section))
        for there, it in given.entries(inf, name + ".Filters"):
            if it.has_key("AddFilter") and it.value(0):
                position = there.first(it.value(2), "FilterPosition")
                if position is not None and fold(position.value(0)) == "lower":
                    self.lower.append(it.value(0))
                elif position is not None and fold(position.value(0)) == "upper" or there.first(it.value(2), "FilterLevel") is not None:
                    self.upper.append(it.value(0))
        self.excluded = {fold(one) for it in inf.section(name) if it.has_key("ExcludeID") for one in it.values if one}

    def registry(self, entries):
        for it in entries:
            if it.key is None and fold(it.value(0)) == "hkr" and it.value(1) == "" and (number_of(it.value(3), 0xFFFFFFFF) or 0) & 0x10000:
                into = {"lowerfilters": self.lower, "upperfilters": self.upper}.get(fold(it.value(2)))
                if into is not None:
                    into += [name for name in it.values[4:] if name]


def windows_rank(rank):
    """Returns a rank in Windows' digits, those of signatures 00. Where the line's ID is not its first, the last three are not told."""
    at, line_at = divmod(rank % 0x1000, 8)
    return f"{rank // 0x1000:05x}" + ("???" if line_at else f"{at:03x}")


def own_rank(digits):
    """Returns the rank here of Windows' eight digits, or None where they do not tell it: of a compatible ID of a line, and of a device's ID behind its 64th."""
    number = int(digits, 16) & 0xFFFFFF
    at = number % 0x1000
    return None if number & 0x1000 or at >= 64 else number - at + 8 * at


class Match:
    """A models line that matches a device."""

    def __init__(self, inf, number, section, entry, install, device_at, compatible, line_at):
        self.inf, self.number, self.section, self.entry, self.install = inf, number, section, entry, install
        self.device_at, self.compatible, self.line_at = device_at, compatible, line_at
        self.type = (2 if compatible else 0) + (1 if line_at else 0)
        self.rank = install.score * 0x10000 + self.type * 0x1000 + device_at * 8 + line_at

    def key(self):
        return (self.rank, -self.inf.date, -self.inf.version, self.number, self.entry.line)

    def windows_rank(self):
        """Returns the rank in Windows' digits, without the signature's."""
        return windows_rank(self.rank)


class Reading:
    """INFs for a target: each models line that is read, in order."""

    def __init__(self, infs, target):
        self.given, self.lines = Set(infs), []
        installs = {}
        for number, inf in enumerate(infs):
            for maker in inf.section("Manufacturer"):
                section = models_name(maker, target)
                if section is None:
                    continue
                for entry in inf.section(section):
                    if entry.key is None:
                        continue
                    name = install_name(inf, entry.value(0), target)
                    if (number, fold(name)) not in installs:
                        installs[number, fold(name)] = Install(self.given, inf, name)
                    self.lines.append((number, inf, section, entry, installs[number, fold(name)]))

    def matches(self, hw, compat):
        """Returns the matches of a device, of each line the best, the best line first."""
        places = {}
        for compatible, ids in ((True, compat), (False, hw)):
            for at in reversed(range(len(ids))):
                places[fold(ids[at])] = (compatible, at)
        own = {fold(it) for it in hw} | {fold(it) for it in compat}
        found = []
        for order, (number, inf, section, entry, install) in enumerate(self.lines):
            if install.excluded & own:
                continue
            best = None
            for line_at, it in enumerate(entry.values[1:9]):
                if it and fold(it) in places:
                    compatible, at = places[fold(it)]
                    one = Match(inf, number, section, entry, install, at, compatible, line_at)
                    if best is None or one.rank < best.rank:
                        best = one
            if best is not None:
                found.append((best.key() + (order,), best))
        return [one for _, one in sorted(found, key=lambda it: it[0])]

    def choice(self, hw, compat):
        """Returns the best match of a device that is no extension, and the best of each extension, by the order of INFs."""
        base, extensions = None, {}
        for one in self.matches(hw, compat):
            if not one.inf.is_extension:
                base = base or one
            elif one.inf.extension_id:
                extensions.setdefault(one.inf.extension_id, one)
        return base, sorted(extensions.values(), key=lambda it: (it.number, it.entry.line))

    def stack(self, hw, compat):
        """Returns the drivers of a device from the bottom to the top, or None where it has none."""
        base, extensions = self.choice(hw, compat)
        if base is None or base.install.service is None:
            return None
        lower, upper = list(base.install.lower), list(base.install.upper)
        for it in extensions:
            lower += it.install.lower
            upper += it.install.upper
        return lower + [base.install.service] + upper
