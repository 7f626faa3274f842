#!/usr/bin/env python3
"""Compares what says the C interface: the header with the one of its flags, `sys.rs` and the crate that it is part of,
docs/WORDS.md, and the sources in Rattle as far as they are there.

    compare_interfaces.py HEADER SYS WORDS CRATES
"""

import glob
import os
import re
import sys

RUST_TYPES = {"": "void", "u8": "uint8_t", "u32": "uint32_t", "u64": "uint64_t", "usize": "size_t",
              "NagaCheckStatus": "naga_check_status", "NagaCheckOutcome": "naga_check_outcome",
              "NagaCheckOptions": "naga_check_options",
              "NagaCheckTypeInfo": "naga_check_type_info", "NagaCheckLeaf": "naga_check_leaf",
              "NagaCheckCounts": "naga_check_counts", "NagaCheckModule": "naga_check_module"}

# How the header calls the enums of the sources in Rattle: of errors, and of what tables list by number.
ERRORS = {"InvalidHandleError": "HANDLE_ERROR", "LayoutErrorInner": "LAYOUT_ERROR", "TypeError": "TYPE_ERROR",
          "ConstExpressionError": "CONST_EXPRESSION_ERROR", "ConstantError": "CONSTANT_ERROR",
          "OverrideError": "OVERRIDE_ERROR", "ExpressionError": "EXPRESSION_ERROR", "VaryingError": "VARYING_ERROR",
          "LiteralError": "LITERAL_ERROR", "WidthError": "WIDTH_ERROR", "ComposeError": "COMPOSE_ERROR",
          "ResolveError": "RESOLVE_ERROR",
          "IndexableLengthError": "INDEXABLE_LENGTH_ERROR", "Disalignment": "DISALIGNMENT",
          "GlobalVariableError": "GLOBAL_VARIABLE_ERROR", "LocalVariableError": "LOCAL_VARIABLE_ERROR",
          "FunctionDeclarationError": "FUNCTION_DECLARATION_ERROR", "EntryPointError": "ENTRY_POINT_ERROR",
          "ImmediateError": "IMMEDIATE_ERROR"}
TABLES = {"ScalarKind": "KIND", "CooperativeRole": "ROLE", "ImageDimension": "DIMENSION",
          "SwizzleComponent": "COMPONENT", "UnaryOperator": "UNARY", "BinaryOperator": "BINARY",
          "RelationalFunction": "RELATIONAL", "MathFunction": "MATH", "SubgroupOperation": "SUBGROUP",
          "CollectiveOperation": "COLLECTIVE", "Interpolation": "INTERPOLATION", "Sampling": "SAMPLING",
          "StorageFormat": "STORAGE_FORMAT", "ShaderStage": "ENTRY_STAGE", "EarlyDepthTest": "EARLY_DEPTH_TEST",
          "ConservativeDepth": "EARLY_DEPTH_TEST", "MeshOutputTopology": "TOPOLOGY"}
# How the header calls the bits of sums, by the function of the reader that makes a set of bools.
SUMS = {"storage": "ACCESS", "decorations": "MEMORY_DECORATION", "memory": "BARRIER"}
# The enums of which docs/WORDS.md has a table, by how the header calls them.
PAGES = {"BINARY": "BinaryOperator", "MATH": "MathFunction", "BUILT_IN": "BuiltIn", "STORAGE_FORMAT": "StorageFormat"}
# How the header calls the enums of the crate of texts, and what its tables name.
TEXTS = {**{name: prefix for name, prefix in ERRORS.items() if prefix not in ("HANDLE_ERROR", "LAYOUT_ERROR")},
         "HandleError": "HANDLE_ERROR", "LayoutError": "LAYOUT_ERROR", "ModuleError": "MODULE_ERROR", "Stage": "STAGE"}
NAMES = {"ItemKinds": "ITEM_KIND", "ScalarKinds": "KIND", "Components": "COMPONENT", "Dimensions": "DIMENSION",
         "Spaces": "SPACE", "UnaryOperators": "UNARY", "BinaryOperators": "BINARY", "MathFunctions": "MATH",
         "StorageFormats": "STORAGE_FORMAT", "BuiltIns": "BUILT_IN", "Interpolations": "INTERPOLATION",
         "Samplings": "SAMPLING", "EntryStages": "ENTRY_STAGE", "Capabilities": "CAPABILITY"}
# How the header calls the sets of flags.
FLAGS = {"ValidationFlags": "VALIDATE", "Capabilities": "CAPABILITY", "TypeFlags": "TYPE",
         "ShaderStages": "SHADER_STAGE"}
# The sets of which a module in words may have all bits and no others.
SETTINGS = ("VALIDATE", "CAPABILITY")
RENAMED = {"D1": "1D", "D2": "2D", "D3": "3D", "is_volatile": "volatile"}
# What no value of the crate stands for.
UNUSED = {"NAGA_CHECK_STAGE_NONE", "NAGA_CHECK_NOT_OPEN"}

# Words of texts that no literal of the sources has: what derives write, what says of which item an error is, and what
# stands for a name that is left out or for an unknown number.
OWN_WORDS = {"Capability Capabilities(", "Shader requires capability Capabilities(", ") is required",
             "Sampled { kind", ", multi", "Depth { multi", "Storage { format", ", access", "External",
             "Handle or range", "of function", "of entry point", "The module is invalid",
             "A field can't be dynamically-sized, has type", "unknown", "Storage { access", "Type flags TypeFlags(",
             ") do not meet the required TypeFlags(", ") is not supported", "The scalar type Scalar { kind", ", width"}

differences = []


def same(what, first, second):
    """Notes what only one of two dictionaries or sets has, or has otherwise."""
    first, second = (dict.fromkeys(it) if isinstance(it, set) else it for it in (first, second))
    for name in sorted(first.keys() | second.keys(), key=str):
        if first.get(name, "absent") != second.get(name, "absent"):
            differences.append(f"{what} {name}: {first.get(name, 'absent')} and {second.get(name, 'absent')}")


def read(path):
    return open(path, encoding="utf-8").read()


def without_comments(text):
    text = re.sub(r"/\*.*?\*/", "", text, flags=re.DOTALL)
    return re.sub(r"//.*", "", text)


def header_constants(text):
    named = re.findall(r"^#define (NAGA_CHECK_\w+) (?:UINT64_C\()?(\w+)\)?$", text, re.MULTILINE)
    named += re.findall(r"\b(NAGA_CHECK_\w+) = (\d+)", text)
    return {name: int(value.rstrip("u"), 0) for name, value in named}


def sys_constants(text):
    named = re.findall(r"\b(NAGA_CHECK_\w+)(?:: u(?:32|64))? = (\w+)[,;]", text)
    return {name: int(value.replace("_", ""), 0) for name, value in named}


def header_structs(text):
    found = re.findall(r"typedef struct (\w+) \{(.*?)\} \w+;", text, re.DOTALL)
    return {name: [(ty + length, field) for ty, field, length in re.findall(r"(\w+) (\w+)(\[\d+\])?;", body)]
            for name, body in found}


def rust_type(ty):
    """The C type of a Rust type of a field, with the length of an array after it."""
    of_array = re.fullmatch(r"\[(\w+); (\d+)\]", ty)
    return f"{RUST_TYPES.get(of_array[1], of_array[1])}[{of_array[2]}]" if of_array else RUST_TYPES.get(ty, ty)


def rust_structs(text):
    found = re.findall(r"#\[repr\(C\)\]\s*(?:#\[[^\]]*\]\s*)*pub struct (\w+) \{(.*?)\n\}", text, re.DOTALL)
    return {RUST_TYPES.get(name, name): [(rust_type(ty), field.removeprefix("r#"))
                                         for field, ty in re.findall(r"pub (\S+): ([^,]+),", body)]
            for name, body in found}


def header_functions(text):
    found = re.findall(r"^(\w+) (naga_check_\w+)\((.*?)\);", text, re.MULTILINE | re.DOTALL)
    functions = {}
    for result, name, parameters in found:
        parameters = re.sub(r"\s+", " ", parameters)
        functions[name] = (result, [] if parameters == "void" else
                           [parameter.replace(" *", "* ").rsplit(" ", 1) for parameter in parameters.split(", ")])
    return functions


def c_type(ty):
    """The C type of a Rust type of a parameter."""
    if ty.startswith("*const "):
        return "const " + RUST_TYPES[ty[len("*const "):]] + "*"
    if ty.startswith("*mut "):
        return RUST_TYPES[ty[len("*mut "):]] + "*"
    return RUST_TYPES[ty]


def sys_functions(text):
    found = re.findall(r"pub (?:safe )?fn (naga_check_\w+)\((.*?)\)(?: -> (\w+))?;", text, re.DOTALL)
    return {name: (RUST_TYPES[result], [[c_type(ty), parameter.removeprefix("r#")]
                                        for parameter, ty in re.findall(r"(\S+): ([^,]+)(?:,|$)", parameters)])
            for name, parameters, result in found}


def compare_variants(constants, folder):
    """Compares the names of the crate's variants with those of the constants that are their numbers."""
    text = "".join(without_comments(read(path)) for path in sorted(glob.glob(folder + "/*.rs")) if path != sys.argv[2])
    named = re.findall(r"(\w+)(?:\s*\([^()]*\)|\s*\{[^{}]*\})?\s*=\s*sys::(NAGA_CHECK_\w+)", text)
    for variant, constant in named:
        # naga's name of a statement says more than the header's.
        name = RENAMED.get(variant, variant).upper().replace("_", "").replace("COLLECTIVEOPERATION", "OPERATION")
        if not constant.replace("_", "").endswith(name):
            differences.append(f"variant {variant}: {constant}")
    same("constant of the crate", set(constants) - UNUSED, set(re.findall(r"sys::(NAGA_CHECK_\w+)", text)))


def words_opcodes(text):
    """The opcodes of the tables, which name each one at the beginning of a row or after a comma in its first column."""
    tables = text[text.index("## Header"):text.index("## Operators and functions")]
    before, forms = tables.split("## Expressions")
    forms, after = forms.split("## Parts of a function")
    rows = re.findall(r"^\| (\d+ .*?) \|", before + after, re.MULTILINE)
    opcodes = {int(number) for row in rows for number in re.findall(r"(?:^|, )(\d+) ", row)}
    return opcodes, {int(number) for number in re.findall(r"^\| (\d+) ", forms, re.MULTILINE)}


def compare_words(constants, text):
    opcodes, forms = words_opcodes(text)
    named = {value for name, value in constants.items() if re.match(r"NAGA_CHECK_(OP|STATEMENT)_", name)}
    same("opcode", named - {64, 128}, opcodes)
    same("form", {value for name, value in constants.items() if name.startswith("NAGA_CHECK_FORM_")}, forms)
    for enum in PAGES:
        same(f"{enum} of the page", numbers_of_prefix(constants, enum), numbers_of_page(text, enum))
    header = re.search(r"`(\d+), (0x\w+), (\d+)`", text)
    ours = [2 << 8 | constants["NAGA_CHECK_OP_HEADER"]]
    ours += [constants["NAGA_CHECK_" + name] for name in ("MAGIC", "WORDS_VERSION")]
    same("header of the page", dict(enumerate(ours)),
         dict(enumerate(int(word, 0) for word in (header.groups() if header else ()))))
    limits = re.search(r"bits up to (\d+).*?\n.*? up to (\d+); naga's default is (\d+)", text)
    ours = [constants["NAGA_CHECK_" + name] for name in ("VALIDATE_ALL", "CAPABILITY_ALL", "CAPABILITY_DEFAULT")]
    same("limit of the page", dict(enumerate(ours)), dict(enumerate(map(int, limits.groups() if limits else ()))))


def numbers_of_prefix(constants, prefix):
    """The constants of a prefix, without it and without underlines."""
    start = f"NAGA_CHECK_{prefix}_"
    return {name.removeprefix(start).replace("_", ""): value for name, value in constants.items()
            if name.startswith(start)}


def numbers_of_page(text, enum):
    """The pairs of a number and a name in the table of an enum, a heading of its own."""
    heading = f"### `{PAGES[enum]}`"
    table = re.split(r"^##", text[text.index(heading) + len(heading):], flags=re.MULTILINE)[0]
    rows = re.findall(r"\| (\d+) \| `(\w+)(?: \{ (\w+: \w+) \})?` (?=\|)", table)
    return {with_bool(name, field): int(number) for number, name, field in rows}


def with_bool(variant, field):
    """The name of a variant, with that of its bool if it is true."""
    return (variant + field.removesuffix(": true") if field.endswith(": true") else variant).upper()


def compare_flags(constants, crate, source):
    """Compares the flags of the header with those of the Rust crate, and with the names and values in Rattle."""
    in_crate = re.findall(r"pub struct (\w+)\(u\d+\) \{(.*?)\n    \}", crate, re.DOTALL)
    in_rattle = re.findall(r"impl (\w+): u\d+ \{(.*?)\n    \}", source, re.DOTALL)
    in_crate, in_rattle = ({name: body for name, body in found if name in FLAGS} for found in (in_crate, in_rattle))
    same("set of flags", set(in_crate), set(FLAGS))
    same("set of flags in Rattle", set(in_rattle), set(FLAGS))
    for name, prefix in FLAGS.items():
        values = re.findall(r"const (\w+) = (\w+);", in_rattle.get(name, ""))
        values = {flag: int(value.replace("_", ""), 0) for flag, value in values}
        named = {flag: f"NAGA_CHECK_{prefix}_{flag}" for flag in values}
        same(f"{name} of the crate", dict(re.findall(r"(\w+)\s+= sys::(\w+),", in_crate.get(name, ""))), named)
        if prefix in SETTINGS:
            values["ALL"] = sum({value for value in values.values() if value.bit_count() == 1})
        default = re.search(rf"impl Default for {name} \{{.*?{name}\((\w+)\)\n", source, re.DOTALL)
        if default and int(default[1], 0) != values["ALL"]:
            values["DEFAULT"] = int(default[1], 0)
        start = f"NAGA_CHECK_{prefix}_"
        ours = {flag.removeprefix(start): value for flag, value in constants.items()
                if flag.startswith(start) and not flag.startswith(start + "ERROR_")}
        same(f"{name} of the header", ours, values)


def sources_of(crates, name):
    return without_comments("".join(read(path) for path in sorted(glob.glob(f"{crates}/{name}/src/*.rt"))))


def compare_exports(functions, structs, text):
    exported = re.findall(r'#\[unsafe\(no_mangle\)\]\s*pub extern "C" fn (\w+)', text)
    same("exported function", set(functions), set(exported))
    fields = {tuple(field for _, field in of_struct) for of_struct in structs.values()}
    for name, of_struct in rust_structs(text).items():
        if tuple(field for _, field in of_struct) not in fields:
            differences.append(f"struct {name} in Rattle: no struct of the header has its fields")


def numbers_of_errors(text):
    """The numbers that matches give the variants of errors."""
    arms = re.findall(r"(\w+)::(\w+?)_?(?:\([^()]*\)|\s*\{[^{}]*\})? => (\d+),", text)
    return {(name, variant): int(number) for name, variant, number in arms
            if name in ERRORS and variant != "OutOfMemory" and number != "0"}


def numbers_of_tables(text):
    """The places of variants in lists of them, which may begin with none and have them within calls."""
    numbers = {}
    for listed in re.findall(r"\[\s*((?:(?:None|(?:\w+\()?\w+::\w+\)?),?\s*)+)\]", text):
        variants = re.findall(r"(\w+)::(\w+)|None", listed)
        name = next(name for name, _ in variants if name)
        variants = [variant if variant[0] else (name, "None") for variant in variants]
        numbers |= {variant: at for at, variant in enumerate(variants) if variant[0] in TABLES}
    return numbers


def compare_sums(constants, text):
    """Compares the bits of the header with the lists of sets of bools, each of which is at the place of its word."""
    for function, prefix in SUMS.items():
        parameters = "".join(re.findall(rf"fn {function}\(((?:\w+: bool(?:, )?)+)\)", text))
        names = [RENAMED.get(name, name).upper() for name in re.findall(r"(\w+): bool", parameters)]
        sets = re.findall(rf"\b{function}\(((?:true|false)(?:, (?:true|false))*)\)", text)
        sums = [sum(constants.get(f"NAGA_CHECK_{prefix}_{name}", 0) for name, is_there in zip(names, given.split(", "))
                    if is_there == "true") for given in sets]
        same(f"sum of {prefix}", dict(enumerate(sums)), {at: at for at in range(1 << len(names))})


def compare_built_ins(constants, crate, source):
    """Compares the numbers of built-in values with those in Rattle, and with the constants of the crate's variants."""
    arm = r"BuiltIn::(\w+)(?: \{ (\w+: \w+) \})? => \{?\s*"
    named = {with_bool(*variant): int(number) for *variant, number in re.findall(arm + r"(\d+)", source)}
    same("built-in value", numbers_of_prefix(constants, "BUILT_IN"), named)
    named = {with_bool(*variant): constants.get(name) for *variant, name in re.findall(arm + r"sys::(\w+)", crate)}
    same("built-in value of the crate", numbers_of_prefix(constants, "BUILT_IN"), named)


def compare_numbers(constants, names, numbers):
    """Compares the constants of the header for some enums with the numbers of their variants."""
    there = {names[name] for name, _ in numbers}
    ours = {}
    for (name, variant), number in numbers.items():
        ours[(names[name] + RENAMED.get(variant, variant)).replace("_", "").upper()] = number
    # An enum's name may begin another's: the longest that fits is meant.
    by_length = sorted(list(ERRORS.values()) + list(TABLES.values()), key=len, reverse=True)
    named = {}
    for constant, value in constants.items():
        rest = constant.removeprefix("NAGA_CHECK_")
        prefix = next((prefix for prefix in by_length if rest.startswith(prefix + "_")), None)
        if prefix in there:
            named[rest.replace("_", "")] = value
    same("number", named, ours)


def compare_consts(constants, prefix, path):
    """Compares the constants of a prefix, except that of none, with all constants of a file in Rattle."""
    start = f"NAGA_CHECK_{prefix}_"
    ours = {name.removeprefix(start): value for name, value in constants.items() if name.startswith(start) and value}
    same(f"{prefix} of {os.path.basename(path)}", ours,
         {name: int(value) for name, value in re.findall(r"const (\w+): u32 = (\d+);", read(path))})


def compare_opcodes(constants, text):
    """Compares the opcodes and the numbers of forms with the constants of the reader of words."""
    ours = {name.removeprefix("NAGA_CHECK_"): value for name, value in constants.items()
            if re.match(r"NAGA_CHECK_(OP|STATEMENT|FORM)_", name)}
    named = re.findall(r"const (\w+): u8 = (\d+);", text)
    same("opcode of the reader", ours, {name: int(value) for name, value in named})


def compare_texts(constants, text):
    """Compares the numbers of the crate of texts, which count from 1 in its lists, and its tables of names."""
    numbers = {}
    for listed in re.findall(r"\[\s*((?:\w+::\w+,?\s*)+)\]", text):
        for at, (name, variant) in enumerate(re.findall(r"(\w+)::(\w+?)_?\b", listed), 1):
            numbers.setdefault(name, {})[variant.upper()] = at
    same("enum of texts", set(numbers), set(TEXTS))
    for name, prefix in TEXTS.items():
        ours = {name: value for name, value in numbers_of_prefix(constants, prefix).items() if value}
        same(f"{prefix} of texts", ours, numbers.get(name, {}))
    tables = dict(re.findall(r"Names::(\w+) => &\[(.*?)\]", text, re.DOTALL))
    for name, prefix in NAMES.items():
        rows = re.findall(r'\(\s*(\w+),\s*"(\w+)(?: \{ (\w+: \w+) \})?",?\s*\)', tables.get(name, ""))
        named = {with_bool(RENAMED.get(row, row), field).replace("_", ""): int(number, 0)
                 for number, row, field in rows}
        ours = {name: value for name, value in numbers_of_prefix(constants, prefix).items()
                if name not in ("NONE", "DEFAULT", "ALL")}
        same(f"{prefix} of names", ours, named)
    flags = re.findall(r'bit: (\w+),\s*before: (\w+),\s*name: "(\w+)"', text)
    ours = {name: value for name, value in constants.items() if re.match(r"NAGA_CHECK_TYPE_(?!ERROR_)", name)}
    same("flag of texts", ours, {f"NAGA_CHECK_TYPE_{name}": int(bit, 0) for bit, _, name in flags})
    same("flags before one", {name: value - 1 for name, value in ours.items()},
         {f"NAGA_CHECK_TYPE_{name}": int(before, 0) for _, before, name in flags})


def words_of_texts(text):
    """The words of texts: those between what they show."""
    return {words.strip(' []"\\:') for words in re.findall(r'Words\("((?:[^"\\]|\\.)*)"\)', text)}


def compare_words_of_texts(texts, others):
    """Notes words of the crate of texts that no literal of the other crates has."""
    literals = "\n".join(re.findall(r'"((?:[^"\\]|\\.)*)"', others))
    for words in sorted(words_of_texts(texts)):
        if words not in OWN_WORDS and not re.search(rf"(?<!\w){re.escape(words)}(?!\w)", literals):
            differences.append(f"words of a text: {words}")


def compare_error_names(crates):
    """Compares the names of errors, which the methods `name` are proved to return, with those of their variants."""
    named = {}
    equation = re.compile(r'^\w+_name \(?(?:\w+\.)?([\w«»\']+)[^=]*= codes "(\w+)"$', re.MULTILINE)
    for path in sorted(glob.glob(f"{crates}/*/specs/ErrorNames.antt")):
        for variant, name in equation.findall(read(path)):
            named[f"{path.split('/')[-3]} {name}"] = variant.strip("«»'").rstrip("_")
    same("name of an error", named, {key: key.split()[1] for key in named})


def compare_crates(constants, functions, structs, crates):
    """Compares with the crates in Rattle, as far as they are there."""
    compare_error_names(crates)
    exports, reader = sources_of(crates, "naga_c"), sources_of(crates, "naga_words")
    compare_flags(constants, read(os.path.dirname(sys.argv[2]) + "/flags.rs"), sources_of(crates, "naga_flags"))
    if exports:
        compare_exports(functions, structs, exports)
        compare_numbers(constants, ERRORS, numbers_of_errors(exports))
        compare_consts(constants, "ITEM_KIND", f"{crates}/naga_c/src/kinds.rt")
        compare_consts(constants, "STAGE", f"{crates}/naga_c/src/refusal.rt")
        compare_texts(constants, sources_of(crates, "naga_error_text"))
        others = "".join(read(path) for path in sorted(glob.glob(f"{crates}/naga_*/src/*.rt"))
                         if "naga_error_text" not in path and "/naga_c/" not in path)
        compare_words_of_texts(sources_of(crates, "naga_error_text"), others)
    if reader:
        compare_numbers(constants, TABLES, numbers_of_tables(reader))
        compare_sums(constants, reader)
        compare_built_ins(constants, read(os.path.dirname(sys.argv[2]) + "/built_in.rs"), sources_of(crates, "naga_ir"))
        compare_opcodes(constants, read(f"{crates}/naga_words/src/opcodes.rt"))
        named = re.findall(r"pub const (MAGIC|VERSION): u32 = (\w+);", reader)
        same("word of the header", {"MAGIC": constants["NAGA_CHECK_MAGIC"],
                                    "VERSION": constants["NAGA_CHECK_WORDS_VERSION"]},
             {name: int(value, 0) for name, value in named})
    if not exports or not reader:
        print(f"compare_interfaces: naga_c or naga_words is not in {crates}")


def main():
    header_path, sys_path, words_path, crates = sys.argv[1:]
    parts = [header_path.removesuffix(".h") + part for part in (".h", "_errors.h", "_flags.h", "_words.h")]
    header = without_comments("".join(read(part) for part in parts))
    sys_paths = [sys_path, *sorted(glob.glob(sys_path.removesuffix(".rs") + "/*.rs"))]
    rust = without_comments("".join(map(read, sys_paths)))
    constants = header_constants(header)
    same("constant", constants, sys_constants(rust))
    same("struct", header_structs(header), rust_structs(rust))
    same("function", header_functions(header), sys_functions(rust))
    compare_variants(constants, os.path.dirname(sys_path))
    compare_words(constants, read(words_path))
    compare_crates(constants, header_functions(header), header_structs(header), crates)
    for difference in differences:
        print(f"compare_interfaces: {difference}")
    print(f"compare_interfaces: {len(constants)} constants, {len(differences)} differences")
    sys.exit(bool(differences))


main()
