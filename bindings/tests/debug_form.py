"""Reads errors as the rows show them, in naga's Debug form, and says which numbers an outcome has for them."""

import re

# What an error holds, for those that hold an error.
CAUSES = {"InvalidBlendSrc": "VARYING_ERROR", "WidthError": "WIDTH_ERROR", "Literal": "LITERAL_ERROR",
          "Width": "WIDTH_ERROR", "Compose": "COMPOSE_ERROR", "Type": "RESOLVE_ERROR",
          "IndexableLength": "INDEXABLE_LENGTH_ERROR", "Argument": "VARYING_ERROR", "Result": "VARYING_ERROR",
          "Function": "FUNCTION_DECLARATION_ERROR", "LocalVariable": "LOCAL_VARIABLE_ERROR",
          "InvalidImmediateType": "IMMEDIATE_ERROR"}
# What an outcome has no room for.
LEFT_OUT = {"lhs_type", "rhs_type", "accept", "reject", "actual"}
# The enums of which an error holds a variant without fields, and how the header calls a variant otherwise.
ENUMS = "KIND DIMENSION COMPONENT UNARY BINARY MATH STORAGE_FORMAT".split()
SPACES = "Function Private WorkGroup Uniform Storage Handle Immediate TaskPayload RayPayload IncomingRayPayload".split()
RENAMED = {"D1": "1D", "D2": "2D", "D3": "3D"}
SIZES = {"Bi": 2, "Tri": 3, "Quad": 4}
# The kind of scalars and their width, by the names that errors show.
SCALARS = {"f64": ("Float", 8), "f16": ("Float", 2), "i64": ("Sint", 8), "i16": ("Sint", 2), "u64": ("Uint", 8),
           "u16": ("Uint", 2)}


class Form:
    """A variant or a struct: its name, and its fields with their names, or with their places from 0."""

    def __init__(self, name, fields):
        self.name, self.fields = name.rstrip("_"), fields

    def within(self):
        """The variant with the fields of the struct that it holds."""
        return Form(self.name, self.fields[0].fields)


def tokens_of(text):
    return re.findall(r'"(?:[^"\\]|\\.)*"|\w+|[^\s\w]', text)


def read_value(tokens):
    """The next value: a number, a handle as a number, a bool, a text in its quotes, or a form."""
    token = tokens.pop(0)
    if token == "[":
        value = read_value(tokens)
        tokens.pop(0)
        return value
    if token.isdigit():
        return int(token)
    if token[0] == '"' or token in ("true", "false"):
        return token if token[0] == '"' else token == "true"
    if token in ("Capabilities", "TypeFlags"):
        return Form(token, {0: read_flags(tokens)})
    return Form(token, read_fields(tokens))


def read_flags(tokens):
    end = tokens.index(")")
    flags = [token for token in tokens[1:end] if token != "|"]
    del tokens[:end + 1]
    return flags


def read_fields(tokens):
    fields = {}
    if not tokens or tokens[0] not in ("(", "{"):
        return fields
    named = tokens.pop(0) == "{"
    while tokens[0] not in (")", "}"):
        name = len(fields)
        if named:
            name = tokens.pop(0)
            tokens.pop(0)
        fields[name] = read_value(tokens)
        if tokens[0] == ",":
            tokens.pop(0)
    tokens.pop(0)
    return fields


def read(text):
    """The form that a text begins with."""
    return read_value(tokens_of(text))


def access_bits(access):
    return sum(bit for name, bit in (("load", 1), ("store", 2), ("atomic", 4)) if access.fields[name])


def class_numbers(header, form):
    number = header.number("CLASS", form.name)
    if form.name == "Sampled":
        return [number, header.number("KIND", form.fields["kind"].name), int(form.fields["multi"])]
    if form.name == "Depth":
        return [number, int(form.fields["multi"]), 0]
    if form.name == "Storage":
        of_format = header.number("STORAGE_FORMAT", form.fields["format"].name)
        return [number, of_format, access_bits(form.fields["access"])]
    return [number, 0, 0]


def space_numbers(header, form):
    access = form.fields.get("access")
    return [header.number("SPACE", form.name), access_bits(access) if access else 0]


def built_in_numbers(header, form):
    """The number of a built-in value, whose name has that of its bool if it is true."""
    true = "".join(name for name, value in form.fields.items() if value is True)
    return [header.number("BUILT_IN", form.name + true)]


def alignment_numbers(header, form):
    """What a layout that can't be is told with: of its address space only the number."""
    space, ty, why = form.fields.values()
    errors, values = told(header, "DISALIGNMENT", why)
    return errors, [header.number("SPACE", space.name), ty, *values]


def numbers_of(header, of, name, value):
    """The numbers that an outcome has for a field of the error of a name."""
    if name in LEFT_OUT or isinstance(value, str):
        return []
    if isinstance(value, int):
        return [int(value)]
    if value.name in ("Capabilities", "TypeFlags"):
        prefix = "CAPABILITY_" if value.name == "Capabilities" else "TYPE_"
        return [sum(header.flags[prefix + flag] for flag in value.fields[0])]
    if value.name == "Scalar":
        return [header.number("KIND", value.fields["kind"].name), value.fields["width"]]
    if value.name == "Alignment":
        return [value.fields["bytes"]]
    if name in ("interpolation", "sampling"):
        return [header.number(name, value.name)]
    if value.name == "StorageAccess":
        return [access_bits(value)]
    if name == "space" or of in ("InvalidUsage", "InvalidType", "InitializerNotAllowed") and value.name in SPACES:
        return space_numbers(header, value)
    if of in ("InvalidBuiltInStage", "InvalidBuiltInType", "DuplicateBuiltIn"):
        return built_in_numbers(header, value)
    if of in ("InvalidInputAttributeInStage", "InvalidAttributeInStage"):
        return [header.number("ENTRY_STAGE", value.name)]
    if name in ("class", "image") or value.name in ("Sampled", "Depth", "Storage", "External"):
        return class_numbers(header, value)
    if value.name in SIZES:
        return [SIZES[value.name]]
    variant = RENAMED.get(value.name, value.name)
    return [next(number for number in (header.find(enum, variant) for enum in ENUMS) if number is not None)]


def width_numbers(header, name, flag):
    """The numbers for the name of scalars and of the capability that they need."""
    kind, width = SCALARS[name.strip('"')]
    return [header.number("KIND", kind), width, header.flags["CAPABILITY_" + flag.strip('"')]]


def told(header, enum, form):
    """The numbers of an error and of the errors in it, and the values that they hold."""
    errors, values = [header.number(enum, form.name)], []
    if enum == "WIDTH_ERROR" and form.name == "MissingCapability":
        return errors, width_numbers(header, form.fields["name"], form.fields["flag"])
    if enum == "GLOBAL_VARIABLE_ERROR" and form.name == "Alignment":
        within, values = alignment_numbers(header, form)
        return errors + within, values
    for name, value in form.fields.items():
        cause = CAUSES.get(form.name, "CONST_EXPRESSION_ERROR" if name == "source" else None)
        if cause is not None and isinstance(value, Form):
            within, more = told(header, cause, value)
            errors, values = errors + within, values + more
        else:
            values += numbers_of(header, form.name, name, value)
    return errors, values
