"""A small assembler of class files, for the scripts beside it.

It writes the one spelling that docs/CLASSFILE.md says: the entries of the pool stand in the order of their first
mention, each with its parts behind it, and each frame in the first form that fits."""
import struct


def u1(n):
    return struct.pack(">B", n)


def u2(n):
    return struct.pack(">H", n)


def u4(n):
    return struct.pack(">I", n)


def modified(text):
    """A text in modified UTF-8: each UTF-16 unit by itself, and U+0000 in two bytes."""
    out = bytearray()
    data = text.encode("utf-16-be", "surrogatepass")
    for (unit,) in struct.iter_unpack(">H", data):
        if 0 < unit < 0x80:
            out.append(unit)
        elif unit < 0x800:
            out += bytes([0xC0 | unit >> 6, 0x80 | unit & 63])
        else:
            out += bytes([0xE0 | unit >> 12, 0x80 | unit >> 6 & 63, 0x80 | unit & 63])
    return bytes(out)


def parts_of(entry):
    """The entries that an entry mentions, in order."""
    kind, *rest = entry
    if kind in ("Class", "String"):
        return [("Utf8", rest[0])]
    if kind == "NameAndType":
        return [("Utf8", rest[0]), ("Utf8", rest[1])]
    if kind in ("Field", "Method", "InterfaceMethod"):
        return [("Class", rest[0]), ("NameAndType", rest[1], rest[2])]
    return []


TAGS = {"Class": 7, "String": 8, "Field": 9, "Method": 10, "InterfaceMethod": 11, "NameAndType": 12}


class Pool:
    """A constant pool, which grows by mentions."""

    def __init__(self):
        self.index, self.entries, self.next = {}, [], 1

    def mention(self, entry):
        """The index of an entry in two bytes."""
        if entry not in self.index:
            self.index[entry] = self.next
            self.entries.append(entry)
            self.next += 2 if entry[0] == "Long" else 1
            for part in parts_of(entry):
                self.mention(part)
        return u2(self.index[entry])

    def spelled(self, entry):
        kind = entry[0]
        if kind == "Utf8":
            text = modified(entry[1])
            return u1(1) + u2(len(text)) + text
        if kind == "Int":
            return struct.pack(">Bi", 3, entry[1])
        if kind == "Long":
            return struct.pack(">Bq", 5, entry[1])
        return u1(TAGS[kind]) + b"".join(u2(self.index[part]) for part in parts_of(entry))

    def bytes(self):
        return u2(self.next) + b"".join(map(self.spelled, self.entries))


# ---- descriptors

def parameters(descriptor):
    """The types of the parameters of a method, one by one."""
    found, at = [], 1
    while descriptor[at] != ")":
        end = at
        while descriptor[end] == "[":
            end += 1
        end = descriptor.index(";", end) + 1 if descriptor[end] == "L" else end + 1
        found.append(descriptor[at:end])
        at = end
    return found


def start_types(class_name, flags, name, descriptor):
    """The local variables at the start of a method, as types of a frame."""
    locals = [] if flags & 8 else ["this" if name == "<init>" else class_name]
    for t in parameters(descriptor):
        locals.append("int" if t in ("I", "Z", "C") else "long" if t == "J" else t[1:-1] if t[0] == "L" else t)
    return locals


# ---- frames: (offset, locals, stack), a type is a word, the offset of a `new`, or the name of a class

WORDS = {"top": 0, "int": 1, "long": 4, "null": 5, "this": 6}


def frame_type(pool, t):
    if isinstance(t, int):
        return u1(8) + u2(t)
    return u1(WORDS[t]) if t in WORDS else u1(7) + pool.mention(("Class", t))


def frame_types(pool, types):
    return b"".join(frame_type(pool, t) for t in types)


def frame(pool, before, delta, locals, stack):
    """A frame in the first form that fits behind these locals."""
    more = len(locals) - len(before)
    if locals == before and not stack:
        return u1(delta) if delta < 64 else u1(251) + u2(delta)
    if locals == before and len(stack) == 1:
        return (u1(64 + delta) if delta < 64 else u1(247) + u2(delta)) + frame_types(pool, stack)
    if not stack and -3 <= more < 0 and before[:more] == locals:
        return u1(251 + more) + u2(delta)
    if not stack and 0 < more <= 3 and locals[:-more] == before:
        return u1(251 + more) + u2(delta) + frame_types(pool, locals[-more:])
    return (u1(255) + u2(delta) + u2(len(locals)) + frame_types(pool, locals)
            + u2(len(stack)) + frame_types(pool, stack))


def frames(pool, start, wanted):
    out, last, before = u2(len(wanted)), -1, start
    for offset, locals, stack in wanted:
        out += frame(pool, before, offset - last - 1, locals, stack)
        last, before = offset, locals
    return out


# ---- classes

def spelled_code(pool, code):
    """Code as a list of bytes and of entries, which are mentioned where they stand."""
    return b"".join(part if isinstance(part, bytes) else pool.mention(part) for part in code)


def attribute(pool, name, body):
    """An attribute whose body is made behind the mention of its name."""
    named = pool.mention(("Utf8", name))
    inside = body()
    return named + u4(len(inside)) + inside


def code_body(pool, class_name, m):
    code = spelled_code(pool, m["code"])
    out = u2(m["stack"]) + u2(m["locals"]) + u4(len(code)) + code
    handlers = m.get("handlers", [])
    out += u2(len(handlers))
    for start, end, at, catch in handlers:
        out += u2(start) + u2(end) + u2(at) + (pool.mention(("Class", catch)) if catch else u2(0))
    wanted = m.get("frames", [])
    if not wanted:
        return out + u2(0)
    start = start_types(class_name, m["flags"], m["name"], m["descriptor"])
    return out + u2(1) + attribute(pool, "StackMapTable", lambda: frames(pool, start, wanted))


def method(pool, class_name, m):
    out = u2(m["flags"]) + pool.mention(("Utf8", m["name"])) + pool.mention(("Utf8", m["descriptor"]))
    if "code" not in m:
        return out + u2(0)
    return out + u2(1) + attribute(pool, "Code", lambda: code_body(pool, class_name, m))


def class_file(name, above="java/lang/Object", flags=0x21, interfaces=(), fields=(), methods=()):
    """The bytes of a class. A field is flags, name and descriptor; a method a dict with flags, name, descriptor and,
    unless it is abstract, stack, locals, code, handlers and frames."""
    pool = Pool()
    body = u2(flags) + pool.mention(("Class", name)) + pool.mention(("Class", above)) + u2(len(interfaces))
    for interface in interfaces:
        body += pool.mention(("Class", interface))
    body += u2(len(fields))
    for flag, field, descriptor in fields:
        body += u2(flag) + pool.mention(("Utf8", field)) + pool.mention(("Utf8", descriptor)) + u2(0)
    body += u2(len(methods)) + b"".join(method(pool, name, m) for m in methods) + u2(0)
    return u4(0xCAFEBABE) + u2(0) + u2(52) + pool.bytes() + body


# ---- classes to try

TICK = [b"\xb8", ("Method", "kt/rt/Turn", "tick", "()V")]
SUPER = [b"\x2a", b"\xb7", ("Method", "java/lang/Object", "<init>", "()V"), b"\xb1"]


def constructor():
    return {"flags": 1, "name": "<init>", "descriptor": "()V", "stack": 1, "locals": 1, "code": TICK + SUPER}


def empty_class():
    return class_file("MainKt", methods=[constructor()])


def main_class():
    """`main`, which prints a number."""
    code = TICK + [b"\x13", ("Int", 14), b"\xb8", ("Method", "kt/rt/Text", "of", "(I)Ljava/lang/String;"),
                   b"\xb8", ("Method", "kt/rt/Out", "println", "(Ljava/lang/String;)V"), b"\xb1"]
    return class_file("MainKt", flags=0x31, methods=[
        {"flags": 9, "name": "main", "descriptor": "()V", "stack": 1, "locals": 0, "code": code}])


def interface_class():
    return class_file("Shape", flags=0x601, methods=[
        {"flags": 0x401, "name": "area", "descriptor": "(IJCZ)J"}, {"flags": 0x401, "name": "own", "descriptor": "([I)LShape;"}])


def whole_class():
    """Fields, constants, calls of all kinds, switches, handlers and frames of each form."""
    wide = b"\xc4\x15\x01\x2c\xc4\x84\x01\x2c\x80\x00"
    branches = b"\x1a\x99\0\x05\x03\x3b\xb1"
    table = b"\x1a\xaa\0\0" + struct.pack(">iiiii", 23, -1, 0, 23, 23) + b"\xb1"
    lookup = b"\x1a\xab\0\0" + struct.pack(">iiiiii", 27, 2, -7, 27, 900, 27) + b"\xb1"
    calls = [b"\x2a\xb4", ("Field", "Whole", "next", "LWhole;"), b"\x57\x2a\x01\xb5", ("Field", "Whole", "next", "LWhole;"),
             b"\x2a\xb6", ("Method", "Whole", "tick", "()V"), b"\x2a\xb9", ("InterfaceMethod", "Shape", "area", "(IJCZ)J"), b"\x06\x00",
             b"\x14", ("Long", -5000000000), b"\x58\x14", ("Long", 7), b"\x58\x13", ("String", "a\0b\u00e9\u20ac\U0001f600\ud800"), b"\x57",
             b"\xbb", ("Class", "Whole"), b"\x57\x04\xbd", ("Class", "java/lang/Object"), b"\x57\x04\xbc\x0a\x57",
             b"\x2a\xc0", ("Class", "Whole"), b"\xc1", ("Class", "[I"), b"\x57\xb1"]
    framed = [(4, ["int", "long"], []), (9, ["int", "long"], ["int"]), (80, ["int", "long"], []), (200, ["int", "long"], ["Whole"]),
              (201, ["int", "long", "null", "top", "Whole"], []), (202, ["int", "long", "null"], []),
              (300, ["int"], []), (301, ["int", "Shape"], []), (302, ["Whole"], ["int", 0, "[I"])]
    return class_file(
        "Whole", flags=0x31, interfaces=["Shape", "kt/rt/Function1"],
        fields=[(1, "next", "LWhole;"), (0x11, "size", "I"), (1, "all", "[Ljava/lang/Object;"), (1, "sure", "Z"), (1, "far", "J")],
        methods=[
            constructor(),
            {"flags": 1, "name": "calls", "descriptor": "()V", "stack": 9, "locals": 4, "code": calls},
            {"flags": 9, "name": "wide", "descriptor": "(I)V", "stack": 2, "locals": 400, "code": [wide + b"\xb1"]},
            {"flags": 9, "name": "branches", "descriptor": "(I)V", "stack": 2, "locals": 1, "code": [branches],
             "frames": [(6, ["int"], [])], "handlers": [(0, 4, 6, "java/lang/Throwable"), (0, 1, 4, None)]},
            {"flags": 9, "name": "table", "descriptor": "(I)V", "stack": 2, "locals": 1, "code": [table], "frames": [(24, ["int"], [])]},
            {"flags": 9, "name": "lookup", "descriptor": "(I)V", "stack": 2, "locals": 1, "code": [lookup]},
            {"flags": 9, "name": "framed", "descriptor": "(IJ)V", "stack": 2, "locals": 9, "code": [b"\x03" * 302 + b"\xb1"], "frames": framed},
        ])


def samples():
    return {"Empty": empty_class(), "MainKt": main_class(), "Shape": interface_class(), "Whole": whole_class()}
