#!/usr/bin/env python3
"""Asks the library what the rows of the repository ask the program naga_query, with each module as words and as text,
and compares the results: with those of the rows, and those of the two forms with each other. The last lines are how
many were the same.

    rows.py LIBRARY HEADER FILE..
"""

import ctypes
import functools
import re
import sys

from debug_form import read, told
from words_of_text import Unreadable, Writer

OK, REFUSED, UNREADABLE, MEMORY, ROOM, NO_TYPE, LIMIT, OPTIONS, SETTINGS, NOT_SHAREABLE, NOT_OPEN = range(11)
STAGES = "handle layout type expression constant override".split()
ITEMS = {"layout": "T", "type": "T", "expression": "G", "constant": "C", "override": "O"}
ERRORS = {1: "HANDLE_ERROR", 2: "LAYOUT_ERROR", 3: "TYPE_ERROR", 4: "CONST_EXPRESSION_ERROR", 5: "CONSTANT_ERROR",
          6: "OVERRIDE_ERROR", 7: "EXPRESSION_ERROR", 8: "EXPRESSION_ERROR", 10: "GLOBAL_VARIABLE_ERROR",
          11: "FUNCTION_DECLARATION_ERROR", 12: "ENTRY_POINT_ERROR"}
# The kind of the item that an outcome is about, by its stage; of the stage HANDLE the row says it.
KINDS = {2: "TYPE", 3: "TYPE", 4: "EXPRESSION", 5: "CONSTANT", 6: "OVERRIDE", 7: "FUNCTION", 8: "ENTRY_POINT",
         10: "GLOBAL_VARIABLE", 11: "FUNCTION", 12: "ENTRY_POINT"}
# The stages of what a module declares, by the letter that rows have before the index of an item.
DECLARED = {"V": 10, "F": 11, "N": 12}
TYPE_FLAGS = "DATA SIZED COPY IO_SHAREABLE HOST_SHAREABLE CREATION_RESOLVED ARGUMENT CONSTRUCTIBLE".split()
MOST_LEAVES = 1000
ALL_FLAGS, DEFAULT_CAPABILITIES, ALL_CAPABILITIES = 0x3F, 0x9000, 0xFFFFFFFFFFF
CONSTANTS = 0x10
NARROW = 1
UNLIMITED = 2**64 - 1
UNKNOWN = object()
# What is handed to calls by its address, and all that calls may write.
WRITTEN = (ctypes.Structure, ctypes.c_size_t, ctypes.c_uint64, ctypes.c_void_p)
BUFFERS = (ctypes.Array, *WRITTEN)


def struct(name, fields):
    kinds = {"uint32_t": ctypes.c_uint32, "uint64_t": ctypes.c_uint64}
    return type(name, (ctypes.Structure,), {"_fields_": [
        (field, kinds[ty] * int(length) if length else kinds[ty]) for ty, field, length in fields]})


class Header:
    """The structs and numbers of the header."""

    def __init__(self, path):
        parts = [path.removesuffix(".h") + part for part in (".h", "_errors.h", "_words.h")]
        parts = (open(part, encoding="utf-8").read() for part in parts)
        text = re.sub(r"/\*.*?\*/", "", "".join(parts), flags=re.DOTALL)
        found = re.findall(r"typedef struct naga_check_(\w+) \{(.*?)\}", text, re.DOTALL)
        structs = {name: struct(name, re.findall(r"(\w+) (\w+)(?:\[(\d+)\])?;", body)) for name, body in found}
        self.options, self.outcome, self.info, self.leaf, self.counts = (
            structs[name] for name in ("options", "outcome", "type_info", "leaf", "counts"))
        self.numbers = {}
        for name, value in re.findall(r"\bNAGA_CHECK_(\w+) = (\d+)", text):
            self.numbers[name.replace("_", "")] = int(value)
        flags = open(path.removesuffix(".h") + "_flags.h", encoding="utf-8").read()
        named = re.findall(r"^#define NAGA_CHECK_(\w+) (?:UINT64_C\()?(0x\w+?)u?\)?$", flags, re.MULTILINE)
        self.flags = {name: int(value, 0) for name, value in named}

    def find(self, enum, variant):
        return self.numbers.get((enum + variant).replace("_", "").upper())

    def number(self, enum, variant):
        return self.numbers[(enum + variant).replace("_", "").upper()]


def content(argument):
    """What was handed to a call, to compare."""
    return bytes(argument) if isinstance(argument, BUFFERS) else argument


def array(kind, values):
    """A buffer of values; of none, one of a length that no call is told."""
    return (kind * max(len(values), 1))(*values)


class Library:
    """The calls, with results as Python has them. What a call gives on words, it has to give on a module that is opened
    with them."""

    def __init__(self, path, header):
        self.calls = ctypes.CDLL(path)
        self.different = 0
        self.header = header

    def call(self, name, *arguments):
        passed = [ctypes.c_size_t(it) if isinstance(it, int) else ctypes.byref(it) if isinstance(it, WRITTEN) else it
                  for it in arguments]
        return getattr(self.calls, f"naga_check_{name}_with")(*passed)

    def on_words(self, name, module, options, *given):
        """Makes a call on words, and one on the module that is opened with them: both have to do the same."""
        words, closed = (array(ctypes.c_uint32, module.words), len(module.words), options), ctypes.c_void_p()
        again = [type(it).from_buffer_copy(it) if isinstance(it, BUFFERS) else it for it in given]
        status = self.call(name, *words, *given)
        found = self.call("open", *words, closed, again[-1])
        if found == OK:
            found = self.call("module_" + {"words": "types"}.get(name, name), closed, *again)
        self.call("close", closed)
        if closed or (status, list(map(content, given))) != (found, list(map(content, again))):
            self.different += 1
            print(f"rows: {name} of the open module differ: {module.lines}")
        return status

    def report(self, text):
        report, length = (ctypes.c_uint8 * 65536)(), ctypes.c_size_t()
        status = self.call("report", array(ctypes.c_uint8, text), len(text), report, len(report), length)
        return status, bytes(report[:length.value]).decode()

    def text(self, module):
        outcome, infos = self.header.outcome(), (self.header.info * 4096)()
        status = self.call("text", array(ctypes.c_uint8, module.text), len(module.text), module.options(self.header),
                           infos, len(infos), outcome)
        return status, outcome, infos[:outcome.types] if status == OK else []

    def words(self, module, capable=False):
        outcome, infos = self.header.outcome(), (self.header.info * 4096)()
        status = self.on_words("words", module, module.options(self.header, capable), infos, len(infos), outcome)
        return status, outcome, infos[:outcome.types] if status == OK else []

    def functions(self, module):
        outcome, stages = self.header.outcome(), (ctypes.c_uint32 * 4096)()
        status = self.on_words("functions", module, module.options(self.header), stages, len(stages), outcome)
        return status, outcome, stages[:outcome.written]

    def declarations(self, module):
        outcome = self.header.outcome()
        return self.on_words("declarations", module, module.options(self.header), outcome), outcome

    def leaves(self, module, ty, length):
        counts, leaves, outcome = self.header.counts(), (self.header.leaf * MOST_LEAVES)(), self.header.outcome()
        paths, types = (ctypes.c_uint32 * (64 * MOST_LEAVES))(), array(ctypes.c_uint32, [ty])
        status = self.on_words("leaves", module, module.options(self.header, True), types, 1, ctypes.c_uint32(length),
                               leaves, len(leaves), paths, len(paths), counts, outcome)
        found = [(leaf, paths[leaf.path_at:leaf.path_at + leaf.path_length]) for leaf in leaves[:counts.leaves]]
        return status, outcome, found

    def slots(self, module, ty, offset):
        slots, outcome = ctypes.c_uint64(), self.header.outcome()
        status = self.on_words("slots", module, module.options(self.header, True), ctypes.c_uint32(ty),
                               ctypes.c_uint32(offset), slots, outcome)
        return status, outcome, slots.value


class Module:
    """A module of a case: its text, its words, and where the item of each line begins."""

    def __init__(self, lines):
        self.lines = lines
        self.text = "".join(line + "\n" for line in lines).encode()
        writer = Writer()
        self.starts = []
        for line in lines:
            self.starts.append(len(writer.words))
            writer.line(line)
        writer.end_function()
        self.words = writer.words
        self.resolve = writer.resolve

    def setting(self, keyword, default, most):
        """The number that a line sets, if it is one or all bits that there are."""
        numbers = [line.split()[1] for line in self.lines if line.startswith(keyword + " ") and line.count(" ") == 1]
        if numbers and numbers[0] == "all":
            return most
        return int(numbers[0]) if numbers and numbers[0].isdigit() else default

    def options(self, header, capable=False):
        """Options that say what the lines say, with which these can agree. Leaves and slots depend on no capability, and
        a call on them validates the module first: it may have all of them, unless a line says which."""
        by_default = ALL_CAPABILITIES if capable else DEFAULT_CAPABILITIES
        capabilities = self.setting("caps", by_default, ALL_CAPABILITIES)
        flags = self.setting("flags", ALL_FLAGS, ALL_FLAGS)
        return header.options(ctypes.sizeof(header.options), flags & ALL_FLAGS, capabilities & ALL_CAPABILITIES,
                              0, NARROW, UNLIMITED, UNLIMITED, UNLIMITED)


def is_named(outcome, header, stage, index, error):
    """Whether an item is refused with the error of a name."""
    number = header.number(ERRORS[stage], error.rstrip("_"))
    return (outcome.stage, outcome.index, outcome.errors[0]) == (stage, index, number)


def is_refusal(outcome, header, stage, index, errors, values, kind=None):
    """Whether an item is refused with these errors, which hold these values."""
    kind = header.number("ITEM_KIND", kind or KINDS[stage])
    return ((outcome.stage, outcome.index, outcome.kind, outcome.value_count) == (stage, index, kind, len(values)) and
            list(outcome.errors) == (errors + [0] * 4)[:4] and list(outcome.values) == (values + [0] * 5)[:5])


def is_report(library, module, result):
    """Whether a report is right: of the text itself, and of the words."""
    *lines, last = result
    status = int(last.removeprefix("status "))
    if library.report(module.text) != (status, "".join(line + "\n" for line in lines)):
        return False
    given, outcome, infos = library.words(module)
    if given != status:
        return False
    if status == UNREADABLE:
        return outcome.index == module.starts[int(lines[0].split()[1]) - 1]
    if status == REFUSED:
        _, kind, *place, name = lines[0].split()
        stage = STAGES.index(kind) + 1
        index = int(place[0][1:]) if place else outcome.index
        return is_named(outcome, library.header, stage, index, name)
    return [report_line(library.header, at, info) for at, info in enumerate(infos)] + ["ok"] == lines


def report_line(header, at, info):
    layouts = [layout_name(header, info.uniform_alignment, info.uniform_error),
               layout_name(header, info.storage_alignment, info.storage_error)]
    return f"T{at} {info.flags:02x} {' '.join(layouts)}"


def layout_name(header, alignment, error):
    if alignment:
        return str(alignment)
    names = "ArrayStride StructSpan MemberOffset MemberOffsetAfterStruct UnsizedMember NonHostShareable".split()
    return next(name for name in names if header.number("DISALIGNMENT", name) == error)


def is_handles(library, module, result):
    _, outcome, _ = library.words(module)
    fault, *operands = result[0].split()
    if fault == "ok":
        return outcome.stage != 1
    header, numbers = library.header, [int(operand) for operand in operands if operand.isdigit()]
    if fault == "MissingMember":
        return is_refusal(outcome, header, 3, numbers[0], [header.number(ERRORS[3], "InvalidData")], numbers[:1])
    kind = "Expression" if fault == "BadRange" else operands[0]
    return is_refusal(outcome, header, 1, numbers[0], [header.number(ERRORS[1], fault)], numbers, kind)


def is_validated(library, module, result):
    status, outcome, _ = library.words(module)
    if result[0] == "ok":
        return status == OK
    form = read(result[0])
    stage = 1 + "InvalidHandle Layouter Type ConstExpression Constant Override".split().index(form.name)
    held = form.fields[0] if stage <= 2 else form
    if stage == 1:
        within = held.within()
        errors, values = told(library.header, ERRORS[1], within)
        kind = within.fields["subject_kind" if held.name == "ForwardDependency" else "kind"]
        return is_refusal(outcome, library.header, 1, values[0], errors, values, kind.strip('"'))
    error = held.fields["inner" if stage == 2 else "source"]
    index = held.fields["ty" if stage == 2 else "handle"]
    is_same = is_refusal(outcome, library.header, stage, index, *told(library.header, ERRORS[stage], error))
    # The rows are of the plain typing, which gives no type where the library's, naga's own, may have one.
    return is_same or (UNKNOWN if stage == 4 and error.name == "Type" else False)


def is_type(library, module, result, ty):
    _, _, infos = library.words(module)
    found = re.match(r"T(\d+): size (\d+), alignment (\d+), TypeFlags\((.*?)\), uniform (.*), storage (.*), "
                     r"immediates (Ok|Err)", result[0])
    if found is None or not infos:
        return found is None and not infos
    at, size, alignment, flags, uniform, storage, immediates = found.groups()
    info = infos[int(at)]
    bits = sum(1 << TYPE_FLAGS.index(name) for name in flags.split(" | ") if name != "0x0")
    layouts = [re.search(r"bytes: (\d+)|\], (\w+)", it) for it in (uniform, storage)]
    expected = f"T{at} {bits:02x} " + " ".join(it[1] if text.startswith("Ok") else it[2]
                                               for it, text in zip(layouts, (uniform, storage)))
    return (int(at) == ty and (info.size, info.alignment, info.immediates) ==
            (int(size), int(alignment), int(immediates == "Ok")) and report_line(library.header, ty, info) == expected)


def is_outcome(library, module, outcome):
    """Whether an outcome is the one of the call on types, except that no info was written."""
    _, of_words, _ = library.words(module, True)
    of_words.written = 0
    return plain(outcome) == plain(of_words)


def is_leaves(library, module, result, ty, length=1):
    status, outcome, found = library.leaves(module, ty, length)
    if not is_outcome(library, module, outcome):
        return False
    if status == REFUSED:
        return UNKNOWN if not found else False
    more = ["and so on"] if status == ROOM else []
    lines = [f".{'.'.join(map(str, path))} at {leaf.first}, size {leaf.size}, alignment {leaf.alignment}"
             for leaf, path in found]
    return status in (OK, ROOM) and lines + more == result


def is_slots(library, module, result, ty, offset):
    status, outcome, slots = library.slots(module, ty, offset)
    if not is_outcome(library, module, outcome):
        return False
    if status == REFUSED:
        return UNKNOWN if slots == 0 else False
    if status in (NO_TYPE, NOT_SHAREABLE):
        _, _, infos = library.words(module, True)
        is_shareable = ty < len(infos) and infos[ty].flags >> TYPE_FLAGS.index("HOST_SHAREABLE") & 1
        is_right = (status == NO_TYPE) == (ty >= len(infos)) and not is_shareable and slots == 0
        return UNKNOWN if is_right else False
    return status == OK and result[0].startswith(f"{slots:016x} ")


def is_expression(header, outcome, result):
    """Whether the expression of a row is refused."""
    kind, index, expression, error = re.match(r"([FN])(\d+) E(\d+) refused (.*)", result).groups()
    stage = 7 if kind == "F" else 8
    is_place = outcome.expression == int(expression)
    return is_place and is_refusal(outcome, header, stage, int(index), *told(header, ERRORS[stage], read(error)))


def is_callables(library, module, result):
    status, outcome, _ = library.functions(module)
    return status == OK if result[0] == "ok" else is_expression(library.header, outcome, result[0])


def is_declared(library, module, result, query):
    """Whether what a module declares is accepted or refused as a row says, which may ask for some of it only: then what
    the call refuses before or after that says nothing."""
    status, outcome = library.declarations(module)
    if (query == "interfaces" and outcome.stage == 10) or (query == "variables" and outcome.stage in (7, 8, 11, 12)):
        return UNKNOWN
    # The call never leaves out constants.
    if outcome.stage in (4, 5, 6) and not module.setting("flags", ALL_FLAGS, ALL_FLAGS) & CONSTANTS:
        return UNKNOWN
    if result[0] == "ok":
        return status == OK
    found = re.match(r"([VFN])(\d+) refused (.*)", result[0])
    if found is None:
        return is_expression(library.header, outcome, result[0]) if " E" in result[0] else UNKNOWN
    kind, index, error = found.groups()
    refusal = told(library.header, ERRORS[DECLARED[kind]], read(error))
    return status == REFUSED and is_refusal(outcome, library.header, DECLARED[kind], int(index), *refusal)


def is_stages(library, module, result, index, is_entry_point=False):
    _, outcome, stages = library.functions(module)
    at = index + (outcome.functions if is_entry_point else 0)
    if not result[-1].startswith("stages ") or at >= len(stages):
        return UNKNOWN
    return stages[at] == int(result[-1].split()[1], 16)


CHECKS = {"report": is_report, "handles": is_handles, "validate": is_validated, "type": is_type, "leaves": is_leaves,
          "typeslots": is_slots, "callables": is_callables, "function": is_stages,
          "entry": lambda library, module, result, at: is_stages(library, module, result, at, True),
          **{name: functools.partial(is_declared, query=name) for name in ("variables", "interfaces", "declarations")}}


def cases_of(text):
    """The cases of a file: each is a title, its lines, and its queries with their results."""
    head, *cases = re.split(r"^== ", text, flags=re.MULTILINE)
    shared = head.split("\n")
    while shared and (not shared[0] or shared[0].startswith("#")):
        shared.pop(0)
    for case in cases:
        title, *lines = case.split("\n")
        yield title, *parts_of(shared + lines)


def parts_of(lines):
    module, queries = [], []
    for line in lines:
        if line.startswith("? "):
            query, found, result = line[2:].partition(" -> ")
            queries.append((query, [result] if found else []))
        elif line.startswith("| "):
            queries[-1][1].append(line[2:])
        else:
            module.append(line)
    return module, queries


def answer(library, module, query, result):
    """Whether a result is right, or `UNKNOWN`."""
    name, *operands = query.split(" ")
    if name == "run" and result:
        given = query[len("run "):].strip('"').encode().decode("unicode_escape").encode("latin-1")
        *lines, last = result
        return library.report(given) == (int(last.removeprefix("status ")), "".join(line + "\n" for line in lines))
    if name not in CHECKS or module is None or not result:
        return UNKNOWN
    return CHECKS[name](library, module, result, *(int(module.resolve(operand)) for operand in operands))


def is_line_text(lines):
    """Whether all lines have content that the text of naga_check may have."""
    keywords = {"flags", "caps", "resolved", "type", "expr", "const", "override", "doc"}
    return all(not line or line.startswith("#") or line.split(" ")[0] in keywords for line in lines) and not any(
        is_larger_type(line) or line in ("caps all", "flags all") for line in lines)


def is_larger_type(line):
    """Whether a line has words of a type that only the larger text has."""
    return re.match(r"type (struct .*:[@a-z]|image .* (sintms|uintms|storage:)|(value)?pointer .* storage:)", line)


def plain(structure):
    values = (getattr(structure, field) for field, _ in structure._fields_)
    return tuple(tuple(value) if isinstance(value, ctypes.Array) else value for value in values)


def agree(library, module):
    """Whether the calls on the text and on the words of a module return the same."""
    (status, of_text, infos), (other, of_words, others) = library.text(module), library.words(module)
    if (status, [plain(info) for info in infos]) != (other, [plain(info) for info in others]):
        return False
    if status == UNREADABLE:
        return of_words.index == module.starts[of_text.index - 1]
    return plain(of_text) == plain(of_words)


def main():
    library = Library(sys.argv[1], Header(sys.argv[2]))
    passed = failed = unknown = agreed = 0
    for path in sys.argv[3:]:
        for title, lines, queries in cases_of(open(path, encoding="utf-8").read()):
            try:
                module = Module(lines)
            except Unreadable:
                module = None
            if module is not None and is_line_text(lines):
                if agree(library, module):
                    agreed += 1
                else:
                    failed += 1
                    print(f"rows: {path}: {title}: the text and the words have other results")
            for query, result in queries:
                is_right = answer(library, module, query, result)
                if is_right is UNKNOWN:
                    unknown += 1
                elif is_right:
                    passed += 1
                else:
                    failed += 1
                    print(f"rows: {path}: {title}: {query[:100]}: {result[:3]}")
    print(f"rows: {passed} results the same, {failed} others, {unknown} of queries whose result no call returns")
    print(f"rows: {agreed} modules have the same results as text and as words")
    print(f"rows: {library.different} calls on open modules do otherwise than on their words")
    sys.exit(failed > 0 or library.different > 0 or passed == 0 or agreed == 0)


if __name__ == "__main__":
    main()
