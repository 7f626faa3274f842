#!/usr/bin/env python3
"""Compares the tables of docs/HOSTS.md, section "From a module of naga", with the variants and fields of the crate
naga_ir, and their numbers with the header. Fields of naga's that naga_ir leaves out have to be said to have no words.

    converter_table.py HOSTS NAGA_IR HEADER
"""

import re
import sys

# Enums whose variants are rows, and enums that are a row each, with how the header calls their numbers.
TABLES = {"TypeInner": "OP", "Expression": "FORM", "Statement": "STATEMENT"}
PARTS = {"ScalarKind": "KIND", "CooperativeRole": "ROLE", "AddressSpace": "SPACE", "ArraySize": "LENGTH",
         "Binding": "BINDING", "ImageDimension": "DIMENSION", "ImageClass": "CLASS", "Literal": "LITERAL",
         "SwizzleComponent": "COMPONENT", "SampleLevel": "LEVEL", "ImageQuery": "QUERY", "UnaryOperator": "UNARY",
         "RelationalFunction": "RELATIONAL", "AtomicFunction": "ATOMIC", "RayQueryFunction": "RAY_STEP",
         "GatherMode": "GATHER", "SubgroupOperation": "SUBGROUP", "CollectiveOperation": "COLLECTIVE",
         "Interpolation": "INTERPOLATION", "Sampling": "SAMPLING", "ShaderStage": "ENTRY_STAGE",
         "ConservativeDepth": "EARLY_DEPTH_TEST", "MeshOutputTopology": "TOPOLOGY", "SwitchValue": "SWITCH_VALUE"}
# Enums whose numbers are sizes, or stand in docs/WORDS.md, or that are in another row.
UNNUMBERED = {"VectorSize", "CooperativeSize", "BinaryOperator", "MathFunction", "RayPipelineFunction", "BuiltIn",
              "StorageFormat", "EarlyDepthTest"}
RENAMED = {"D1": "1D", "D2": "2D", "D3": "3D", "Pending": "OVERRIDE", "Dynamic": "RUNTIME",
           "SubgroupCollectiveOperation": "SUBGROUP_OPERATION", "RayPipelineFunction": "TRACE_RAY"}
# What naga_ir calls otherwise, or has in place of naga's fields.
FIELDS = {"others": "predeclared_types"}
REPLACED = {"CooperativeLoad": {"columns", "rows", "role", "data"}, "CooperativeStore": {"target", "data"}}
LEFT_OUT = {"Derivative": {"axis", "ctrl"}}
LEFT_OUT_OF_STRUCTS = {"DiagnosticFilterNode": {"inner"}}
ROWS = ("Module", "Function", "EntryPoint")
# Sums of bits, whose rows name flags in place of fields, with how the header calls these.
SUMS = {"StorageAccess": "ACCESS", "MemoryDecorations": "MEMORY_DECORATION", "Barrier": "BARRIER"}
# What is no item of a module, or no struct of naga's.
NO_ITEMS = {"Type", "Block", "CooperativeShape", *SUMS}

wrong = []


def expect(condition, what):
    if not condition:
        wrong.append(what)


def read(path):
    return open(path, encoding="utf-8").read()


def fields_of(body):
    return {FIELDS.get(field, field) for field in re.findall(r"(\w+):(?!:)", body or "")}


def sources(folder):
    """The variants of each public enum with their fields, and the fields of each public struct."""
    names = "types built_in storage_format expression statement ir".split()
    text = "\n".join(read(f"{folder}/{name}.rt") for name in names)
    text = re.sub(r"//.*", "", text)
    enums, structs = {}, {}
    for kind, name, body in re.findall(r"^pub (enum|struct) (\w+) \{\n(.*?)^\}", text, re.MULTILINE | re.DOTALL):
        if kind == "struct":
            structs[name] = fields_of(body)
        else:
            variants = re.findall(r"^    ([A-Z]\w*)(?:\([^)]*\)| \{(.*?)\})?,$", body, re.MULTILINE | re.DOTALL)
            enums[name] = {variant: fields_of(fields) for variant, fields in variants}
    return enums, structs


def constants_of(header):
    text = "".join(read(header.removesuffix(".h") + part) for part in (".h", "_words.h"))
    named = re.findall(r"\bNAGA_CHECK_(\w+) = (\d+)", text)
    return {name.replace("_", ""): int(value) for name, value in named}


class Section:
    """The rows of the tables, each with the heading that it is under."""

    def __init__(self, path):
        text = read(path)
        self.rows = []
        heading = None
        for line in text[text.index("## From a module of naga"):].splitlines():
            if line.startswith("### "):
                heading = line
            elif line.startswith("| `"):
                first, second, *_ = re.split(r"(?<!\\) \| ", line.removeprefix("| "), maxsplit=1)
                self.rows.append((heading, first, second))

    def table(self, enum):
        return [(first, second) for heading, first, second in self.rows if heading == f"### `{enum}`"]

    def part(self, name):
        found = [second for _, first, second in self.rows if first == f"`{name}`"]
        return found[0] if found else ""


PATTERN = r"`(\w+)(?: \{ ([^}]*) \}|\([^)]*\))?`"


def check_fields(variant, given, fields, left_out, row):
    """Checks that a row has the fields of a variant or struct, and says that others have no words."""
    given = set(re.findall(r"\w+", given or ""))
    expected = REPLACED.get(variant, fields) | left_out
    expect(given == expected, f"{variant} has the fields {sorted(given)}, not {sorted(expected)}")
    expect(not left_out or "no words" in row, f"{variant}: nothing says that {sorted(left_out)} have no words")


def check_enums(section, enums, constants):
    for enum, variants in enums.items():
        if enum in TABLES:
            found = [(re.match(PATTERN, first), second) for first, second in section.table(enum)]
            found = [(*match.groups(), re.match(r"\d*", second)[0], second) for match, second in found
                     if match and match[1] in variants and re.match(r"\d", second)]
        else:
            part = section.part(enum)
            found = [(*entry, part) for entry in re.findall(PATTERN + r" (\d+)", part)]
            expect(part or enum in UNNUMBERED, f"{enum} has no row")
        if enum not in UNNUMBERED or found:
            differing = {name for name, *_ in found} ^ set(variants)
            expect(not differing, f"{enum}: the page or naga_ir lacks {sorted(differing)}")
        for name, given, number, row in found:
            check_fields(name, given, variants.get(name, set()), LEFT_OUT.get(name, set()), row)
            prefix = TABLES.get(enum, PARTS.get(enum))
            key = (f"{prefix}_" + RENAMED.get(name, name.removeprefix("Num"))).replace("_", "").upper()
            expect(prefix is None or constants.get(key) == int(number), f"{enum}::{name} is {number}, not {key}")


def check_structs(section, structs):
    patterns = {match[1]: (match[2], second) for _, first, second in section.rows
                if (match := re.fullmatch(PATTERN, first)) and match[2]}
    for struct, fields in structs.items():
        if struct in ROWS:
            cells = " ".join(first for heading, first, _ in section.rows if f"`{struct}`" in heading)
            prefix = "" if struct == "Module" else f"{struct}::"
            for field in fields:
                expect(f"`{prefix}{field}`" in cells, f"{struct}::{field} has no row")
        elif struct not in NO_ITEMS:
            given, row = patterns.get(struct, ("", ""))
            check_fields(struct, given, fields, LEFT_OUT_OF_STRUCTS.get(struct, set()), row)


def main():
    hosts, folder, header = sys.argv[1:]
    enums, structs = sources(folder)
    section, constants = Section(hosts), constants_of(header)
    check_enums(section, enums, constants)
    check_structs(section, structs)
    for struct, prefix in SUMS.items():
        bits = {f"{prefix}_{name}".replace("_", ""): int(value)
                for name, value in re.findall(r"`(\w+)` (\d+)", section.part(struct))}
        expect(len(bits) == len(structs[struct]), f"the row of {struct} has {len(bits)} flags")
        for name, value in bits.items():
            expect(constants.get(name) == value, f"{name} is {value}")
    for name in PARTS.keys() | UNNUMBERED | TABLES.keys():
        expect(name in enums, f"naga_ir has no enum {name}")
    for line in wrong:
        print(f"converter_table: {line}")
    counted = sum(map(len, enums.values())) + sum(map(len, structs.values()))
    print(f"converter_table: {counted} variants and fields of structs, {len(wrong)} wrong")
    sys.exit(bool(wrong))


main()
