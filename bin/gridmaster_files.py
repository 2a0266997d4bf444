"""What gridmaster's tools share about files: the cluster's two files, and where the programs are. No command of its own.

`copies` takes a copy of spool.a and spool.b that belongs together, also while a gridmaster works on them, and
`configuration` reads from it what is configured: the tables of docs/FORMAT.md, of the snapshot and of the entries behind it.
"""
import os
import pathlib
import re
import shutil

FILES = ("spool.a", "spool.b")
# Load values that a host has for good; the others are measured and change.
LASTING_LOADS = ("arch", "m_core", "m_socket", "m_thread", "m_topology", "mem_total", "num_proc", "swap_total", "virtual_total")
# Rows and enums, in the words of docs/FORMAT.md; of the cluster only what stands before its jobs.
ROWS = """
Entry | moment u64, change Change
Change | 0 Submit(Job); 1 Alter([(u32, Patch)]); 2 Hold([u32], u8); 3 Release([u32], u8); 4 Delete([Pick], bool); 5 Clear([Pick]); 6 Put(Item); 7 Drop(Key); 8 Load(text, {text: Value}); 9 End(u64, u32, u64, u64, u64); 10 Run([Start]); 11 Book(Advance); 12 Unbook([u32])
Pick | job u32, tasks tasks?
Patch | name text?, request Request?, priority i32?, share u64?, project text?, reserve bool?, not_before u64?, deadline u64?, account text?, after [u32]?, after_each [u32]?, oticket u64?
Item | 0 Complexes({text: ComplexDef}); 1 Host(text, {text: Value}); 2 Group(text, [text]); 3 Queue(text, QueueRow); 4 Pe(text, PeRow); 5 Quota(text, QuotaRow); 6 Set(text, [text]); 7 User(text, UserRow); 8 Project(text, ProjectRow); 9 Shares({u32: ShareNode}); 10 Sched(Sched); 11 Managers([text]); 12 Operators([text])
ObjectKind | 0 Complexes; 1 Host; 2 Group; 3 Queue; 4 Pe; 5 Quota; 6 Set; 7 User; 8 Project; 9 Shares; 10 Sched; 11 Managers; 12 Operators
Key | kind ObjectKind, name text
Start | task TaskId, serial u64, grants [Grant]
TaskId | job u32, task u32
Configured | last u64, last_run u64, next_job u32, next_serial u64, complexes {text: ComplexDef}, hosts {text: HostRow}, groups {text: [text]}, queues {text: QueueRow}, pes {text: PeRow}, quotas {text: QuotaRow}, sets {text: [text]}, users {text: UserRow}, projects {text: ProjectRow}
ComplexDef | shortcut text, kind Kind, relop Relop, requestable Requestable, consumable Consumable, fallback Value, urgency u64
Value | 0 Amount(u64); 1 Flag(bool); 2 Word(text)
Kind | 0 Int; 1 Time; 2 Memory; 3 Double; 4 Bool; 5 Str; 6 CStr; 7 ReStr; 8 Host
Relop | 0 Eq; 1 Ne; 2 Lt; 3 Le; 4 Gt; 5 Ge
Requestable | 0 No; 1 Yes; 2 Forced
Consumable | 0 No; 1 Yes; 2 Job
HostRow | values {text: Value}, load {text: Value}
QueueRow | hosts [text], seq_no Attr of u64, thresholds Attr of {text: Value}, pes Attr of [text], users Attr of [text], xusers Attr of [text], projects Attr of [text], xprojects Attr of [text], values Attr of {text: Value}, slots Attr of u64, limits {text: Attr of u64}
PeRow | slots u64, users [text], xusers [text], rule Allocation, urgency_slots UrgencySlots
Allocation | 0 Fixed(u32); 1 PeSlots; 2 FillUp; 3 RoundRobin
UrgencySlots | 0 Fixed(u32); 1 Min; 2 Max; 3 Avg
QuotaRow | description text, enabled bool, rules [Rule]
Rule | name text, users Filter?, projects Filter?, pes Filter?, queues Filter?, hosts Filter?, limits {text: u64}
Filter | braces bool, plain [text], without [text]
UserRow | fshare u64, oticket u64
ProjectRow | fshare u64, oticket u64, acl [text], xacl [text]
ShareNode | name text, project bool, shares u64, children [u32]
Sched | interval u64, maxujobs u64, sort SortMethod, load_formula text, w_priority u64, w_urgency u64, w_ticket u64, w_waiting u64, w_deadline u64, functional u64, share u64, w_user u64, w_project u64, w_job u64, halftime u64, max_reservation u64, default_duration u64, u_cpu u64, u_mem u64, u_io u64, max_pending u64
SortMethod | 0 Load; 1 Seqno
Job | number u32, name text, owner text, group text, account text, submitted u64, priority i32, share u64, project text, reserve bool, not_before u64, deadline u64, request Request, array bool, span TaskSpan, queued tasks, broken tasks, running {u32: Running}, hold u8, after [u32], after_each [u32], oticket u64, words [text], script text, advance u32
Advance | name text, owner text, group text, from u64, until u64, request Request, grants [Grant]
Request | asked {text: Value}, queues [text], pe PeRequest?
PeRequest | name text, low u32, high u32
TaskSpan | first u32, last u32, step u32
Running | serial u64, start u64, grants [Grant], deleting bool
Grant | at InstanceId, slots u32
InstanceId | queue text, host text
"""
SIZES = {"u8": 1, "u32": 4, "u64": 8, "u128": 16, "i32": 4}
# The tables of a configuration that Put and Drop name by these kinds.
TABLES = {"Host": "hosts", "Group": "groups", "Queue": "queues", "Pe": "pes", "Quota": "quotas", "Set": "sets",
          "User": "users", "Project": "projects"}


class NoCluster(Exception):
    """The bytes are those of no cluster."""


class Reader:
    """Reads values of one format from `data`; a reader of a type gives the value at a place and where it ends."""

    def __init__(self, form):
        self.data, self.readers = b"", {}
        rows = ROWS if form == 2 else ROWS.replace(", script text, advance u32", ", script text")
        self.rows = dict(row.split(" | ") for row in rows.strip().split("\n"))

    def take(self, at, size):
        if at + size > len(self.data):
            raise NoCluster("its bytes end too early")
        return self.data[at:at + size], at + size

    def number(self, at, size, signed=False):
        data, at = self.take(at, size)
        return int.from_bytes(data, "big", signed=signed), at

    def text(self, at):
        size, at = self.number(at, 8)
        data, at = self.take(at, size)
        return data.decode("latin-1"), at

    def of(self, name):
        """The reader of a type, made once."""
        if name not in self.readers:
            self.readers[name] = self.make(name)
        return self.readers[name]

    def make(self, name):
        if name in SIZES:
            return lambda at: self.number(at, SIZES[name], name[0] == "i")
        if name == "text":
            return self.text
        if name == "bool":
            return self.flag
        if name == "tasks":
            return self.of("[TaskSpan]")
        if name.endswith("?"):
            return self.option(self.of(name[:-1]))
        if name.startswith("["):
            return self.list(self.of(name[1:-1]))
        if name.startswith("{"):
            key, value = cut(name[1:-1], ": ")
            items = self.list(self.tuple([self.of(key), self.of(value)]))
            return lambda at: (lambda pair: (dict(pair[0]), pair[1]))(items(at))
        if name.startswith("("):
            return self.tuple([self.of(part) for part in parts(name[1:-1], ", ")])
        if name.startswith("Attr of "):
            kind = name[len("Attr of "):]
            return self.tuple([self.of(kind), self.of("[(text, %s)]" % kind)])
        return self.row(name)

    def row(self, name):
        """A record as a dictionary, or an enum as its variant's name and fields."""
        words = self.rows[name]
        if words[0].isdigit():
            variants = [re.fullmatch(r"\d+ (\w+)(?:\((.*)\))?", word).groups() for word in words.split("; ")]
            fields = [self.tuple([self.of(part) for part in parts(inner or "", ", ")]) for _, inner in variants]
            return lambda at: self.variant(at, variants, fields)
        names, kinds = zip(*(cut(word, " ") for word in parts(words, ", ")))
        read = self.tuple([self.of(kind) for kind in kinds])
        return lambda at: (lambda pair: (dict(zip(names, pair[0])), pair[1]))(read(at))

    def variant(self, at, variants, fields):
        tag, at = self.number(at, 1)
        if tag >= len(variants):
            raise NoCluster("a tag has no variant")
        values, at = fields[tag](at)
        return (variants[tag][0],) + values, at

    def flag(self, at):
        value, at = self.number(at, 1)
        if value > 1:
            raise NoCluster("a byte is neither 0 nor 1")
        return value == 1, at

    def option(self, inner):
        def read(at):
            there, at = self.flag(at)
            return inner(at) if there else (None, at)
        return read

    def list(self, inner):
        def read(at):
            count, at = self.number(at, 8)
            values = []
            for _ in range(count):
                value, at = inner(at)
                values.append(value)
            return values, at
        return read

    def tuple(self, inners):
        def read(at):
            values = []
            for inner in inners:
                value, at = inner(at)
                values.append(value)
            return tuple(values), at
        return read


def parts(text, mark):
    """A text cut at a mark, but not inside brackets."""
    found, depth, begin = [], 0, 0
    for place, byte in enumerate(text):
        depth += (byte in "[{(") - (byte in "]})")
        if depth == 0 and text.startswith(mark, place):
            found.append(text[begin:place])
            begin = place + len(mark)
    return found + [text[begin:]] if text else []


def cut(text, mark):
    return text.split(mark, 1)


def area(data):
    """An area that is open: its format, generation, snapshot and the bodies of its records; else None."""
    if len(data) < 19 or data[0] != 1:
        return None
    size = int.from_bytes(data[10:18], "big")
    if data[1] not in (1, 2) or 18 + size >= len(data):
        raise NoCluster("its header is none")
    records, at = [], 18 + size
    while data[at] == 1:
        length = int.from_bytes(data[at + 1:at + 5], "big")
        records.append(data[at + 5:at + 5 + length])
        at += 5 + length
        if length == 0 or at >= len(data):
            raise NoCluster("a record passes the end")
    return data[1], int.from_bytes(data[2:10], "big"), data[18:18 + size], records


def copies(folder):
    """The bytes of both files at one moment: they are read until they are the same twice."""
    before = None
    for _ in range(1000):
        now = [path.read_bytes() if path.is_file() else b"" for path in (pathlib.Path(folder, name) for name in FILES)]
        if now == before:
            return now
        before = now
    raise NoCluster("it changes all the time")


def opening():
    """What a new cluster has configured, without its complexes."""
    tables = {name: {} for name in TABLES.values()}
    tables["hosts"] = {"global": {"load": {}}, "local": {"load": {}}}
    tables["queues"] = {"all.q": {}}
    return tables


def put(tables, item):
    """A row that is put in; a host keeps its load report."""
    kind = item[0]
    if kind == "Host":
        tables["hosts"].setdefault(item[1], {"load": {}})["values"] = item[2]
    elif kind in TABLES:
        tables[TABLES[kind]][item[1]] = item[2]


def apply(tables, change):
    """What an entry changes of what is configured."""
    kind = change[0]
    if kind == "Put":
        put(tables, change[1])
    elif kind == "Drop" and change[1]["kind"][0] in TABLES:
        tables[TABLES[change[1]["kind"][0]]].pop(change[1]["name"], None)
    elif kind == "Load":
        if change[1] not in tables["hosts"]:
            raise NoCluster("a load is of no host")
        tables["hosts"][change[1]]["load"].update(change[2])


def entries(areas):
    """The format, the snapshot and the entries of the area that counts, as a list."""
    open_areas = [found for found in map(area, areas) if found]
    if not open_areas:
        return 2, b"", []
    form, _, snapshot, records = max(open_areas, key=lambda found: found[1])
    found, reader = [], Reader(form)
    for record in records:
        reader.data, at = record, 0
        while at < len(record):
            entry, at = reader.of("Entry")(at)
            found.append(entry)
    return form, snapshot, found


def configuration(areas):
    """The tables of hosts, groups, queues, pes, quotas, sets, users and projects, each from names to rows."""
    form, snapshot, found = entries(areas)
    reader, tables = Reader(form), opening()
    if snapshot:
        reader.data = snapshot
        tables = reader.of("Configured")(0)[0]
    for entry in found:
        apply(tables, entry["change"])
    return tables


def program(variable, name):
    """The path of a program: as the environment says, else as built in this clone, else that of the path."""
    named = os.environ.get(variable)
    built = str(pathlib.Path(__file__).resolve().parent.parent / "crates" / name / "out" / name)
    return shutil.which(named) or named if named else shutil.which(built) or shutil.which(name)
