"""The declarations of the C library, as crates/sockdiag_c and the crates below it have them.

tools/bindings writes the header from these. Doc comments are copied as documentation; no name,
number or type is taken from a comment.
"""

import re
import sys
from pathlib import Path
from typing import NamedTuple

CRATES = Path(__file__).resolve().parent.parent / "crates"
# Structs with the fields of an enum, which calls fill as bytes: the documentation, the enum, and
# the record whose comments document the first fields.
FIELD_STRUCTS = {
    "TcpInfo": (
        "The state of a TCP connection: `struct tcp_info` of `linux/tcp.h` in Linux 7.2. Later "
        "versions of this header append fields.",
        "TcpField",
        "inet/tcp_info.rt",
    ),
    "MptcpInfo": (
        "The state of an MPTCP connection: `struct mptcp_info` of `linux/mptcp.h` in Linux 7.2. "
        "Later versions of this header append fields.",
        "MptcpField",
        None,
    ),
}
# The calls that take such a struct: the parameter is its bytes, and in C it has a size.
FILLED = {"sockdiag_inet_get_tcp_info": "TcpInfo", "sockdiag_inet_get_mptcp_info": "MptcpInfo"}
# Structs of the crates below that no call takes.
NOT_IN_C = {"SocketOptions"}
# The file of each of these enums, in sock_diag_extras.
FIELD_FILES = {"TcpField": "tcp_info.rt", "MptcpField": "mptcp_info.rt"}
# The types of fields that have a width of this many bytes.
TYPES = {1: "u8", 2: "u16", 4: "u32", 8: "u64"}
# Variants of `DecodeError` that no call returns.
NOT_RETURNED = {"Memory"}
# The parts of `#[error]` texts that need other words if their values are left out.
WITHOUT_VALUES = {
    "{which}: ": "",
    "{got} bytes, at least {need} needed": "too few bytes",
    "{got} bytes, {need} needed": "the wrong number of bytes",
    "value of {got} bytes is": "value length is",
    "length is {got} but ": "",
    ": {left} bytes left": "",
    ": {got} bytes": "",
    " at {index}": "",
    " at byte {offset}": "",
}
DOC = r"((?:^ *///[^\n]*\n)*)"
STRUCT = re.compile(DOC + r"((?:^#\[.*\]\n)*)^pub struct (\w+)(?:<'a>)? \{\n((?s:.*?))^\}", re.M)
FIELD = re.compile(DOC + r"^    pub (\w+): (.*),$", re.M)
FUNCTION = re.compile(
    DOC + r'((?:^#\[.*\]\n)*)^pub extern "C" fn (\w+)(?:<\'a>)?\(((?s:.*?))\)(?: -> (\w+))?\s*\n',
    re.M,
)
CONSTANT = re.compile(DOC + r"^pub(?:\(crate\))? const (\w+): \w+ = (\S+);$", re.M)
VARIANT = re.compile(DOC + r'^    #\[error\("(.*)"\)\]\s+(\w+)(?: \{(?s:.*?)\})?,', re.M)
PLAIN_VARIANT = re.compile(DOC + r"^    (\w+)(?: \{.*?\})?,$", re.M)
SPAN = re.compile(r"\w+Field::(\w+) => \((\d+), (\d+)\),")
BITS = re.compile(r"\w+Field::(\w+) => Some\(\((\d+), (\w+)\)\),")
BIT = re.compile(r"SocketOption::(\w+) => (\d+),")
SIZE = re.compile(r"prove!\(std::mem::size_of::<(\w+)(?:<'static>)?>\(\) == (\d+)\)")
CODE = re.compile(r"DecodeError::(\w+)(?: \{ \.\. \})? => (\d+),")
FILTER_CODE = re.compile(r"FilterTextError::(\w+)(?: \{.*\})? => \((\w+),")
RECORD = re.compile(r"RecordName::(\w+)(?: \{.*\})? => \((\d+),")


class Field(NamedTuple):
    """A field of a struct, or a parameter of a function. A bit field has a shift and a mask in a
    number of its type, as the source has them; the bit fields of a number are consecutive."""

    name: str
    kind: str
    doc: list = []
    bits: tuple = ()

    @property
    def begins_number(self):
        """Returns whether the field is not a bit field after another one of its number."""
        return not self.bits or self.bits[0] == "0"


class Struct(NamedTuple):
    """A struct with the layout of C."""

    name: str
    fields: list
    doc: list


class Function(NamedTuple):
    """An exported function, with its parameters as the source has them."""

    name: str
    parameters: list
    answer: str
    doc: list


class Constant(NamedTuple):
    """A constant, with its value as it is written."""

    name: str
    value: str
    doc: list


class Variant(NamedTuple):
    """A variant of an enum, with its number: a code or a bit."""

    name: str
    number: str
    doc: list


class Error(NamedTuple):
    """An error, with its code and its text without values."""

    name: str
    code: str
    text: str
    doc: list


def text_of(*paths):
    return "".join(path.read_text(encoding="utf-8") for path in sorted(paths))


def code_of(text):
    """Returns a Rattle source without its comments."""
    return re.sub(r"^[ \t]*//.*\n", "", text, flags=re.M)


def doc_of(comment):
    return [line.strip()[4:] for line in comment.splitlines()]


def summary(doc):
    """Returns the first paragraph of a doc comment."""
    return doc[: doc.index("")] if "" in doc else doc


def fields_of(body):
    """Yields the fields of a struct. A slice is a pointer and a length."""
    for comment, name, kind in FIELD.findall(body):
        is_slice = kind == "&'a [u8]"
        yield Field(name, "&u8" if is_slice else kind, doc_of(comment))
        if is_slice:
            yield Field("length", "usize", ["Length in bytes."])


def parameters_of(text, filled):
    """Yields the parameters of a function. If it fills a struct, the bytes that it writes are this
    struct and its size in C."""
    for name, kind in re.findall(r"(\w+): ([^,]+?)(?:,|\s*$)", text):
        if filled and kind == "&mut [u8]":
            yield Field(name, f"&mut {filled}")
            yield Field(f"{name}_size", "usize")
        else:
            yield Field(name, kind)


def passed(parameters):
    """Yields the parameters of a function in C. A slice is a pointer and a length. The length of
    the first one is `length`, of a later one `NAME_length`."""
    slices = 0
    for it in parameters:
        part = re.fullmatch(r"&(?:'a )?(mut )?\[u8\]", it.kind)
        if part:
            yield Field(it.name, f"&{part[1] or ''}u8")
            yield Field(f"{it.name}_length" if slices else "length", "usize")
            slices += 1
        else:
            yield it


def structs_in(text):
    """Yields each struct that has the layout of C."""
    for comment, attributes, name, body in STRUCT.findall(text):
        if "#[repr(C)]" in attributes and name not in NOT_IN_C:
            yield Struct(name, [*fields_of(body)], doc_of(comment))


def constants_in(text):
    return {it[1]: Constant(*it[1:], doc_of(it[0])) for it in CONSTANT.findall(text)}


def snake(name):
    """Returns a name of Rust's types in the style of Rust's fields."""
    return re.sub(r"(?<=[a-z0-9])(?=[A-Z])", "_", name).lower()


def decode_errors():
    """Yields each decode error that a call returns."""
    text = text_of(CRATES / "netlink_core/src/error.rt")
    codes = dict(CODE.findall(code_of(text)))
    for comment, shown, name in VARIANT.findall(text):
        if name not in NOT_RETURNED:
            doc = summary(doc_of(comment))
            yield Error(name, codes[name], without_values(shown), doc)


def filter_errors():
    """Yields each error of the text of a filter."""
    text = text_of(CRATES / "sock_diag_filters/src/text/parsed.rt")
    codes = dict(FILTER_CODE.findall(text_of(CRATES / "sockdiag_c/src/parsed_filters.rt")))
    parts = {"{MAX_PARTS}": constants_in(text)["MAX_PARTS"].value}
    for comment, shown, name in VARIANT.findall(text):
        yield Error(codes[name], "", without_values(shown, parts), doc_of(comment))


def filter_grammar():
    """Returns the documentation of the texts of filters, without its first and last paragraph."""
    text = text_of(CRATES / "sock_diag_filters/src/text/parsed.rt")
    doc = re.search(DOC + r"^    pub fn parse\(", text, re.M)[1]
    return "\n".join(doc_of(doc)).split("\n\n")[1:-1]


def enum_in(text, name):
    """Returns the text between the braces of an enum."""
    return re.search(rf"^pub enum {name} \{{\n((?s:.*?))^\}}", text, re.M)[1]


def record_names():
    """Yields the records of decode errors, with their numbers in C."""
    numbers = dict(RECORD.findall(text_of(CRATES / "sockdiag_c/src/error_details.rt")))
    text = enum_in(text_of(CRATES / "netlink_core/src/error.rt"), "RecordName")
    for comment, name in PLAIN_VARIANT.findall(text):
        yield Variant(name, numbers[name], doc_of(comment))


def socket_options():
    """Yields the options of a socket, with their bits."""
    text = text_of(CRATES / "sock_diag_extras/src/options.rt")
    bits = dict(BIT.findall(code_of(text)))
    for comment, name in PLAIN_VARIANT.findall(enum_in(text, "SocketOption")):
        yield Variant(name, bits[name], doc_of(comment))


def record_fields(path):
    """Returns the fields of a record."""
    return [*fields_of(STRUCT.search(text_of(CRATES / "sock_diag_values/src" / path))[4])]


def struct_fields(enum):
    """Yields the fields of a struct of the kernel, the variants of an enum, with their offsets."""
    text = text_of(CRATES / "sock_diag_extras/src" / FIELD_FILES[enum])
    spans = {it[0]: it[1:] for it in SPAN.findall(code_of(text))}
    bits = {it[0]: it[1:] for it in BITS.findall(code_of(text))}
    for comment, name in PLAIN_VARIANT.findall(enum_in(text, enum)):
        offset, width = map(int, spans[name])
        yield Field(snake(name), TYPES[width], doc_of(comment), bits.get(name, ())), offset


def without_values(text, parts={}):
    """Returns an `#[error]` text without its values: the parts and those in WITHOUT_VALUES are
    replaced, then each placeholder that is left is dropped with the space before it."""
    for part, other in (WITHOUT_VALUES | parts).items():
        text = text.replace(part, other)
    return re.sub(r" \{\w+\}", "", text)


class Library:
    """The structs, functions and constants of the library, by their names in Rattle."""

    def __init__(self):
        own = (CRATES / "sockdiag_c/src").glob("*.rt")
        text = text_of(*own)
        shared = text_of(*(CRATES / "sock_diag_families/src").rglob("*.rt"))
        shared += text_of(*(CRATES / "sock_diag_extras/src").rglob("*.rt"))
        records = CRATES / "sock_diag_records/src"
        headers = text_of(records / "inet/response.rt", records / "unix/response.rt")
        self.code = code_of(text)
        self.constants = constants_in(text + shared + headers)
        self.structs = {it.name: self.with_lengths(it) for it in structs_in(text + shared)}
        self.sizes = dict(SIZE.findall(self.code))
        for name, row in FIELD_STRUCTS.items():
            self.structs[name] = self.field_struct(name, *row)
        self.functions = {it[2]: self.function(*it) for it in FUNCTION.findall(text)}
        # The structs whose later fields a call fills by themselves.
        self.sized = {*re.findall(r"&mut (\w+)(?:<'a>)?,\s+later: &mut \[u8\]", self.code)}
        for name, struct in self.structs.items():
            size = self.layout(struct.fields)["the end"]
            if self.sizes.get(name) != str(size):
                sys.exit(f"the source does not state that {name} has {size} bytes")

    def with_lengths(self, struct):
        """Returns a struct with numbers in place of the constants that are lengths of arrays."""

        def number(found):
            return f"; {self.constants[found[1]].value}]"

        kinds = [re.sub(r"; ([A-Z]\w*)\]", number, it.kind) for it in struct.fields]
        fields = [it._replace(kind=kind) for it, kind in zip(struct.fields, kinds)]
        return struct._replace(fields=fields)

    def field_struct(self, name, doc, enum, record):
        """Returns the struct with all fields of an enum: those of the record, if it is not None,
        and after them the other ones. Each has the offset that the enum has."""
        fields = record_fields(record) if record else []
        found = [*struct_fields(enum)]
        fields += [field for field, _ in found[len(fields):]]
        offsets = self.layout(fields)
        for field, (it, offset) in zip(fields, found, strict=True):
            if (field.name, field.kind, offsets[field.name]) != (it.name, it.kind, offset):
                sys.exit(f"{field.name} of {name} is not {it.name} of {enum}")
        self.sizes[name] = str(offsets["the end"])
        return Struct(name, fields, [doc])

    def function(self, comment, attributes, name, inside, answer):
        if "#[unsafe(no_mangle)]" not in attributes:
            sys.exit(f"{name} is not exported")
        parameters = [*parameters_of(inside, FILLED.get(name))]
        kinds = [it.kind for it in passed(parameters)]
        for kind in [*kinds, *([answer] if answer else [])]:
            self.size_and_align(re.sub(r"^&(mut )?", "", kind))
        return Function(name, parameters, answer, doc_of(comment))

    def number(self, name):
        """Returns the value of a constant, or the number of bytes that a function writes, or the
        number that it returns at most or always, by its contract."""
        if name in self.constants:
            return self.constants[name].value
        header = re.search(rf"\bfn {name}\((?s:.*?)\n\{{\n", self.code)
        states = r"(?:WritesMessage |result ≤ |result ≡ (?=\d+ }))(\d+)"
        found = header and re.search(states, header[0])
        return found[1] if found else sys.exit(f"the source has no number for {name}")

    def size_and_align(self, kind):
        """Returns the size and the alignment of a type in bytes, by the C ABI of x86-64."""
        kind = kind.removesuffix("<'a>")
        array = re.fullmatch(r"\[(\w+); (\d+)\]", kind)
        if array:
            size, align = self.size_and_align(array[1])
            return size * int(array[2]), align
        if kind in self.structs:
            offsets = self.layout(self.structs[kind].fields)
            return offsets["the end"], offsets["the alignment"]
        number = re.fullmatch(r"[iu](8|16|32|64)", kind)
        if not number and kind not in ("usize", "&u8"):
            sys.exit(f"the header has no type for {kind}")
        size = int(number[1]) // 8 if number else 8
        return size, size

    def layout(self, fields):
        """Returns the offset of each field and of the end of a struct, and its alignment."""
        offsets, at, most = {}, 0, 1
        for field in fields:
            size, align = self.size_and_align(field.kind)
            at = (at + align - 1) // align * align if field.begins_number else at - size
            offsets[field.name] = at
            at, most = at + size, max(most, align)
        return offsets | {"the end": (at + most - 1) // most * most, "the alignment": most}
