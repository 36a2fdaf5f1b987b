"""Small methods in the form of the table crates/class_verify_rows/stdin: verified by our rules, and by a stock JVM.

A row is a tuple of the parts of its line: signature, greatest stack, local variables, code, frames, exception table, where it
is refused, and the rule that it shows."""
import pathlib, re, shutil, struct, subprocess

top = pathlib.Path(__file__).resolve().parent.parent
crate = top / "crates" / "class_verify_rows"
table = crate / "stdin"

NAMES = {
    "O": "java/lang/Object", "X": "java/lang/Throwable", "Y": "java/lang/NullPointerException",
    "S": "java/lang/IllegalStateException", "K": "kt/rt/ContinuationImpl", "A": "[I", "B": "[Ljava/lang/Object;",
    "W": "java/lang/String", "M": "MainKt", "F": "Face", "P": "Implementing",
}
CLASSES = {0: "java/lang/Object", 6: "java/lang/Throwable", 9: "java/lang/IllegalStateException", 12: "java/lang/NullPointerException"}

STUBS = {
    "kt/rt/Turn": "package kt.rt; public final class Turn { public static void tick() {} }",
    "kt/rt/ContinuationImpl": "package kt.rt; public abstract class ContinuationImpl { public ContinuationImpl(ContinuationImpl c) {} public abstract Object invokeSuspend(); }",
    "Cont": "public class Cont extends kt.rt.ContinuationImpl { public Cont(kt.rt.ContinuationImpl c) { super(c); } public Object invokeSuspend() { return null; } }",
    "Face": "public interface Face { void f(); }",
    "Implementing": "public class Implementing implements Face { public final int i = 0; public void f() {} }",
    "Above": "public abstract class Above { }",
}
HARNESS = """
import java.nio.file.*;
public final class Harness {
    static final class One extends ClassLoader {
        final byte[] bytes; final String name;
        One(byte[] bytes, String name) { super(Harness.class.getClassLoader()); this.bytes = bytes; this.name = name; }
        protected Class<?> loadClass(String wanted, boolean resolve) throws ClassNotFoundException {
            if (!wanted.equals(name)) return super.loadClass(wanted, resolve);
            Class<?> known = findLoadedClass(wanted);
            return known != null ? known : defineClass(wanted, bytes, 0, bytes.length);
        }
    }
    public static void main(String[] args) throws Exception {
        for (String line : Files.readAllLines(Path.of(args[0]))) {
            String[] parts = line.split(" ");
            String told = "accepted";
            try { Class.forName(parts[1], true, new One(Files.readAllBytes(Path.of(parts[0])), parts[1])); }
            catch (LinkageError e) { told = "refused " + String.valueOf(e.getMessage()).split("\\n")[0]; }
            System.out.println(told);
        }
    }
}
"""


def row_of(line):
    signature, sizes, code, frames, entries, want, why = [part.strip() for part in line.split("|")]
    stack, local = sizes.split()
    return (
        signature, int(stack), int(local), bytes.fromhex(code),
        [(int(offset),) + tuple(kinds.split("/")) for offset, kinds in (frame.split(":") for frame in frames.split())],
        [tuple(map(int, re.split("[-:]", entry))) for entry in entries.split()], want, why,
    )


def line_of(row):
    signature, stack, local, code, frames, entries, want, why = row
    return "%s | %d %d | %s | %s | %s | %s | %s" % (
        signature, stack, local, code.hex(" "), " ".join("%d:%s/%s" % frame for frame in frames),
        " ".join("%d-%d:%d:%d" % entry for entry in entries), want, why,
    )


def table_rows():
    """The methods of the table."""
    lines = table.read_text().splitlines()
    return [row_of(line) for line in lines if line and not line.startswith(("#", "class "))]


def program():
    """Our verifier of rows, built where it isn't there."""
    built = crate / "out" / "class_verify_rows"
    if not built.exists():
        subprocess.run(["rt", "run"], cwd=crate, stdin=subprocess.DEVNULL, capture_output=True, check=True)
    return built


def verified(rows):
    """Of each row `-` where our rules accept it, else the class, the method and the offset."""
    text = "".join(line_of(row) + "\n" for row in rows)
    told = subprocess.run([program()], input=text, capture_output=True, text=True, check=True).stdout.splitlines()
    if len(told) != len(rows):
        raise SystemExit("%d rows, %d answers" % (len(rows), len(told)))
    return [answer.split(":")[0] for answer in told]


class Pool:
    """The entries of the table at their indices, and what they lead to behind them."""

    def __init__(self):
        self.entries, self.more, self.known = {}, 0x30, {}
        method, field = 10, 9
        self.entries[1] = self.member(method, "kt/rt/Turn", "tick", "()V")
        self.entries[2] = self.class_entry("java/lang/Object")
        self.entries[3] = self.member(method, "java/lang/Object", "<init>", "()V")
        self.entries[4] = struct.pack(">Bi", 3, 7)
        self.entries[5] = struct.pack(">Bq", 5, 9)
        self.entries[7] = self.class_entry("MainKt")
        self.entries[8] = self.member(field, "MainKt", "n", "I")
        self.entries[9] = self.member(field, "MainKt", "m", "I")
        self.entries[0xA] = self.member(method, "MainKt", "<init>", "()V")
        self.entries[0xB] = self.class_entry("Cont")
        self.entries[0xC] = self.member(method, "Cont", "<init>", "(Lkt/rt/ContinuationImpl;)V")
        self.entries[0xD] = self.member(method, "kt/rt/ContinuationImpl", "<init>", "(Lkt/rt/ContinuationImpl;)V")
        self.entries[0xE] = self.member(method, "Cont", "invokeSuspend", "()Ljava/lang/Object;")
        self.entries[0xF] = self.member(11, "Face", "f", "()V")
        self.entries[0x10] = self.class_entry("Above")
        self.entries[0x11] = self.class_entry("Face")
        self.entries[0x12] = self.class_entry("Implementing")
        self.entries[0x13] = self.member(method, "MainKt", "take", "(JI)V")
        self.entries[0x14] = self.member(field, "MainKt", "w", "J")
        self.entries[0x15] = struct.pack(">BH", 8, self.text(""))
        self.entries[0x16] = self.class_entry("[I")
        self.entries[0x17] = self.class_entry("java/lang/Throwable")
        self.entries[0x18] = self.member(field, "Implementing", "i", "I")
        self.entries[0x19] = self.member(method, "MainKt", "pick", "(LFace;Ljava/lang/Object;)LMainKt;")
        self.entries[0x1A] = self.member(method, "MainKt", "turned", "(I)J")
        self.entries[0x1B] = self.member(field, "MainKt", "o", "Ljava/lang/Object;")
        self.entries[0x1C] = self.member(field, "MainKt", "other", "LMainKt;")
        self.entries[0x1D] = self.class_entry("[Ljava/lang/Object;")
        self.entries[0x1E] = self.class_entry("java/lang/NullPointerException")
        self.entries[0x1F] = self.member(method, "Implementing", "<init>", "()V")
        self.entries[0x20] = self.class_entry("java/lang/IllegalStateException")

    def add(self, entry):
        if entry not in self.known:
            self.known[entry] = self.more
            self.entries[self.more] = entry
            self.more += 1
        return self.known[entry]

    def text(self, text):
        return self.add(struct.pack(">BH", 1, len(text)) + text.encode())

    def class_entry(self, name):
        return struct.pack(">BH", 7, self.text(name))

    def class_index(self, name):
        return self.add(self.class_entry(name))

    def member(self, tag, owner, name, descriptor):
        both = self.add(struct.pack(">BHH", 12, self.text(name), self.text(descriptor)))
        return struct.pack(">BHH", tag, self.class_index(owner), both)

    def bytes(self):
        out, index = b"", 1
        while index < self.more:
            entry = self.entries.get(index) or struct.pack(">BH", 1, 0)
            out += entry
            index += 2 if entry[0] == 5 else 1
        return struct.pack(">H", self.more) + out


def descriptor(signature):
    def one(letter):
        if letter in "IJZCV":
            return letter
        name = NAMES[letter]
        return name if name.startswith("[") else "L%s;" % name

    return "(%s)%s" % ("".join(map(one, signature[2:])), one(signature[1]))


PLAIN = {"T": 0, "I": 1, "J": 4, "N": 5, "U": 6}


def kinds(pool, letters):
    """Kinds as a StackMapTable has them: a long, one entry, takes the T behind it with it."""
    out, found = b"", re.findall(r"JT|\d+\.|[A-Z]", letters)
    for each in found:
        if each[0].isdigit():
            out += struct.pack(">BH", 8, int(each[:-1]))
        elif each[0] in PLAIN:
            out += bytes([PLAIN[each[0]]])
        else:
            out += struct.pack(">BH", 7, pool.class_index(NAMES[each]))
    return struct.pack(">H", len(found)) + out


def turned(letters):
    """Operands with the other end first."""
    return "".join(reversed(re.findall(r"\d+\.|[A-Z]", letters)))


def frames_of(pool, frames):
    """A StackMapTable of full frames; None where their offsets don't ascend."""
    out, last = b"", -1
    for offset, local, stack in frames:
        if offset <= last:
            return None
        out += struct.pack(">BH", 255, offset - last - 1) + kinds(pool, local) + kinds(pool, turned(stack))
        last = offset
    return struct.pack(">H", len(frames)) + out


def class_file(row):
    """The name and the bytes of a class with the method of a row; None where no class file has it."""
    signature, stack, local, code, frames, handlers, _, _ = row
    pool = Pool()
    name, above = "MainKt", "java/lang/Object"
    if signature == "C":
        signature, name, above = "cVK", "Cont", "kt/rt/ContinuationImpl"
    flags = {"s": 9, "i": 1, "c": 1, "r": 1}[signature[0]]
    method = {"c": "<init>", "r": "invokeSuspend"}.get(signature[0], "tried")
    frame_table = frames_of(pool, frames)
    if frame_table is None:
        return None
    attributes = struct.pack(">H", 0)
    if frames:
        attributes = struct.pack(">HHI", 1, pool.text("StackMapTable"), len(frame_table)) + frame_table
    body = struct.pack(">HHI", stack, local, len(code)) + code + struct.pack(">H", len(handlers))
    for start, end, at, catch in handlers:
        body += struct.pack(">HHHH", start, end, at, pool.class_index(CLASSES[catch]))
    body += attributes
    methods = struct.pack(">HHHHHHI", 1, flags, pool.text(method), pool.text(descriptor(signature)), 1, pool.text("Code"), len(body)) + body
    heads = struct.pack(">HHHHH", 0x21 if name == "MainKt" else 0x421, pool.class_index(name), pool.class_index(above), 0, 0)
    return name, struct.pack(">IHH", 0xCAFEBABE, 0, 52) + pool.bytes() + heads + methods + struct.pack(">H", 0)


def has_jdk():
    return bool(shutil.which("java") and shutil.which("javac"))


def on_stock_jvm(rows, folder):
    """Of each row `accepted` or why a stock JVM refuses it; None where no class file has it."""
    for name, text in list(STUBS.items()) + [("Harness", HARNESS)]:
        path = folder / (name + ".java")
        path.parent.mkdir(parents=True, exist_ok=True)
        path.write_text(text)
    subprocess.run(["javac", "-d", str(folder)] + [str(folder / (n + ".java")) for n in list(STUBS) + ["Harness"]], check=True)
    lines, places = [], []
    for number, row in enumerate(rows):
        made = class_file(row)
        if made:
            path = folder / ("row%d.class" % number)
            path.write_bytes(made[1])
            places.append(number)
            lines.append("%s %s" % (path, made[0]))
    (folder / "list").write_text("\n".join(lines))
    run = subprocess.run(["java", "-Xverify:all", "-cp", str(folder), "Harness", str(folder / "list")], capture_output=True, text=True)
    told = run.stdout.splitlines()
    if len(told) != len(places):
        raise SystemExit(run.stdout[-2000:] + run.stderr[-2000:])
    answers = [None] * len(rows)
    for place, said in zip(places, told):
        answers[place] = said
    return answers
