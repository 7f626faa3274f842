#!/usr/bin/env python3
"""Writes a module of the larger text (docs/TEXT.md) as words (docs/WORDS.md): a second encoder, beside the one in Rust.

    words_of_text.py [--header] FILE      prints the words of the module in a file, a line each, without its queries and
                                          results; after the header, if that is asked for
"""

import os
import re
import sys

FLAGS_HEADER = f"{os.path.dirname(os.path.realpath(__file__))}/../c/naga_check_flags.h"
ALL_CAPABILITIES = 17592186044415
NONE = 0xFFFFFFFF
# The header, which may stand before all items: an item of the bytes of a file by which it is known, and a version.
HEADER = [2 << 8 | 15, int.from_bytes(b"NAGW", "little"), 1]
KINDS = "sint uint float bool aint afloat".split()
SPACES = "function private workgroup uniform storage handle immediate taskpayload raypayload incomingraypayload".split()
LOAD, STORE, ATOMIC = 1, 2, 4
LITERALS = "f64 f32 f16 u16 i16 u32 i32 u64 i64 bool aint afloat".split()
LITERAL_BITS = (64, 32, 16, 16, 16, 32, 32, 64, 64, 1, 64, 64)
UNARY = "negate not bitnot".split()
BINARY = "add sub mul div mod eq ne lt le gt ge and xor or land lor shl shr".split()
RELATIONAL = "all any isnan isinf".split()
MATH = """abs min max clamp saturate cos cosh sin sinh tan tanh acos asin atan atan2 asinh acosh atanh radians degrees
ceil floor round fract trunc exp exp2 log log2 pow dot cross distance length normalize faceforward reflect refract
sign fma mix step smoothstep sqrt inversesqrt transpose determinant quantizetof16 counttrailingzeros countleadingzeros
countonebits reversebits extractbits insertbits firsttrailingbit firstleadingbit pack2x16float unpack2x16float modf
frexp ldexp dot4i8packed dot4u8packed outer inverse pack4x8snorm pack4x8unorm pack2x16snorm pack2x16unorm pack4xi8
pack4xu8 pack4xi8clamp pack4xu8clamp unpack4x8snorm unpack4x8unorm unpack2x16snorm unpack2x16unorm unpack4xi8
unpack4xu8""".split()
BUILT_INS = """position position:invariant viewindex baseinstance basevertex clipdistances culldistance instanceindex
pointsize vertexindex drawindex fragdepth pointcoord frontfacing primitiveindex barycentric barycentric:perspective
sampleindex samplemask globalinvocationid localinvocationid localinvocationindex workgroupid workgroupsize
numworkgroups numsubgroups subgroupid subgroupsize subgroupinvocationid meshtasksize cullprimitive pointindex
lineindices triangleindices vertexcount vertices primitivecount primitives rayinvocationid numrayinvocations
instancecustomdata geometryindex worldrayorigin worldraydirection objectrayorigin objectraydirection raytmin
raytcurrentmax objecttoworld worldtoobject hitkind""".split()
FORMATS = """r8unorm r8snorm r8uint r8sint r16uint r16sint r16float rg8unorm rg8snorm rg8uint rg8sint r32uint r32sint
r32float rg16uint rg16sint rg16float rgba8unorm rgba8snorm rgba8uint rgba8sint bgra8unorm rgb10a2uint rgb10a2unorm
rg11b10ufloat r64uint rg32uint rg32sint rg32float rgba16uint rgba16sint rgba16float rgba32uint rgba32sint rgba32float
r16unorm r16snorm rg16unorm rg16snorm rgba16unorm rgba16snorm""".split()
INTERPOLATIONS = "perspective linear flat pervertex".split()
SAMPLINGS = "center centroid sample first either".split()
STAGES = "- vertex task mesh fragment compute raygeneration miss anyhit closesthit".split()
EARLY = "early early:greaterequal early:lessequal early:unchanged".split()
TOPOLOGIES = "points lines triangles".split()
COLLECTIVES = "reduce inclusive exclusive".split()
BARRIERS = "storage workgroup subgroup texture".split()
WORKGROUP = 2
ATOMICS = "add sub and xor or min max".split()
SUBGROUP = "all any add mul min max and or xor".split()
GATHERS = "first broadcast shuffle shuffledown shuffleup shufflexor quadbroadcast quadswap".split()
STATEMENT = {"emit": 192, "block": 193, "if": 194, "else": 195, "switch": 196, "case": 197, "loop": 198,
             "continuing": 199, "end": 200, "break": 202, "continue": 203, "return": 204, "kill": 205, "barrier": 206,
             "membarrier": 207, "store": 208, "imagestore": 209, "atomic": 210, "imageatomic": 211, "wgload": 212,
             "call": 213, "rayquery": 214, "trace": 215, "ballot": 216, "gather": 217, "collective": 218,
             "coopstore": 219}
END_LOOP = 201
FALSE, TRUE = 0, 1


class Unreadable(ValueError):
    """A line that has no words."""


def number(word, most=NONE):
    if not re.fullmatch(r"[0-9]{1,20}", word) or int(word) > most:
        raise Unreadable(word)
    return int(word)


def bits_of(word, most):
    """A number of bits, or all that there are."""
    return most if word == "all" else number(word, most)


def capabilities_of(word):
    """The bits of some capabilities: a number, all that there are, or names of the header with commas between them."""
    if word == "all" or word[:1].isdigit():
        return bits_of(word, ALL_CAPABILITIES)
    with open(FLAGS_HEADER, encoding="utf-8") as header:
        bits = dict(re.findall(r"#define NAGA_CHECK_CAPABILITY_(\w+) UINT64_C\((\w+)\)", header.read()))
    names = set(word.split(","))
    if names - bits.keys():
        raise Unreadable(word)
    return sum(int(bits[name], 16) for name in names)


def index(word):
    return number(word, NONE - 1)


def optional(word):
    return NONE if word == "-" else index(word)


def flag(word):
    return number(word, 1)


def chosen(names, word):
    if word not in names:
        raise Unreadable(word)
    return names.index(word)


def text(value):
    data = value.encode()
    padded = data + bytes(-len(data) % 4)
    return [len(data)] + [int.from_bytes(padded[at:at + 4], "little") for at in range(0, len(padded), 4)]


def scalar(kind, width):
    return [chosen(KINDS, kind), number(width, 255)]


def size(word):
    value = number(word, 4)
    if value < 2:
        raise Unreadable(word)
    return value


def access(letters):
    """The bits of the letters `lsa`, each once at most and in this order, or of `-`."""
    if not re.fullmatch("l?s?a?", letters if letters != "-" else "") or not letters:
        raise Unreadable(letters)
    return sum(bit for letter, bit in zip("lsa", (LOAD, STORE, ATOMIC)) if letter in letters)


def space(word):
    name, found, letters = word.partition(":")
    place = chosen(SPACES, name)
    if found and name != "storage":
        raise Unreadable(word)
    return [place, access(letters if found else "ls") if name == "storage" else 0]


def length(word):
    if word == "dyn":
        return [2, 0]
    if word.startswith("o"):
        return [1, index(word[1:])]
    if number(word) == 0:
        raise Unreadable(word)
    return [0, number(word)]


def location(at, *words):
    """The three words of a location: `N [interpolation] [sampling] [blend N] [perprimitive]`."""
    left = list(words)
    interpolation = 1 + INTERPOLATIONS.index(left.pop(0)) if left and left[0] in INTERPOLATIONS else 0
    sampling = 1 + SAMPLINGS.index(left.pop(0)) if left and left[0] in SAMPLINGS else 0
    form, source = 2, 0
    if left and left[0] == "blend":
        form, source, left = 3, number(left[1]), left[2:]
    per_primitive = left == ["perprimitive"]
    if left and not per_primitive:
        raise Unreadable(str(words))
    return [form | interpolation << 8 | sampling << 16 | per_primitive << 24, number(at), source]


def binding(*words):
    """The three words of a binding: no words, `builtin NAME` or `location ..`."""
    if not words:
        return [0, 0, 0]
    form, *rest = words
    if form == "builtin":
        return [1, chosen(BUILT_INS, ":".join(rest)), 0]
    if form == "location":
        return call(location, rest)
    raise Unreadable(form)


def member(word):
    place, named, name = word.partition(":@")
    ty, offset, *pieces = place.split(":")
    if pieces and re.fullmatch("[0-9]+", pieces[0]):
        if len(pieces) > 2:
            raise Unreadable(word)
        where = [1 + len(pieces), *map(number, pieces), 0][:3]
    else:
        where = binding(*pieces)
    return [*(text(name) if named else [NONE]), index(ty), number(offset), *where]


def image(dimension, arrayed, kind):
    classes = {"float": [0, 2, 0], "floatms": [0, 2, 1], "sint": [0, 0, 0], "sintms": [0, 0, 1], "uint": [0, 1, 0],
               "uintms": [0, 1, 1], "depth": [1, 0, 0], "depthms": [1, 1, 0], "storage": [2, 0, LOAD | STORE | ATOMIC],
               "external": [3, 0, 0]}
    form, found, of = kind.partition(":")
    if form == "storage" and found:
        texels, found, letters = of.partition(":")
        classes[kind] = [2, chosen(FORMATS, texels), access(letters if found else "lsa")]
    if kind not in classes:
        raise Unreadable(kind)
    return [chosen(["1", "2", "3", "cube"], dimension), flag(arrayed), *classes[kind]]


def matrix_size(word):
    if word not in ("8", "16"):
        raise Unreadable(word)
    return int(word)


def cooperative(columns, rows, kind, width, role):
    return [matrix_size(columns), matrix_size(rows), *scalar(kind, width), chosen("A B C".split(), role)]


TYPES = {
    "scalar": (16, scalar),
    "vector": (17, lambda n, k, w: [size(n), *scalar(k, w)]),
    "matrix": (18, lambda c, r, k, w: [size(c), size(r), *scalar(k, w)]),
    "coop": (19, cooperative),
    "atomic": (20, scalar),
    "pointer": (21, lambda t, s: [index(t), *space(s)]),
    "valuepointer": (22, lambda n, k, w, s: [0 if n == "0" else size(n), *scalar(k, w), *space(s)]),
    "array": (23, lambda t, z, stride: [index(t), *length(z), number(stride)]),
    "struct": (24, lambda span, *members: [number(span), *sum(map(member, members), [])]),
    "image": (25, image),
    "sampler": (26, lambda b: [flag(b)]),
    "accel": (27, lambda b: [flag(b)]),
    "rayquery": (28, lambda b: [flag(b)]),
    "bindingarray": (29, lambda t, z: [index(t), *length(z)]),
}


def literal(kind, value):
    at = chosen(LITERALS, kind)
    bits = LITERAL_BITS[at]
    signed = kind in ("i16", "i32", "i64", "aint")
    if not re.fullmatch(r"-?[0-9]{1,20}", value):
        raise Unreadable(value)
    least, most = (-(1 << bits - 1), (1 << bits - 1) - 1) if signed else (0, (1 << bits) - 1)
    if not least <= int(value) <= most:
        raise Unreadable(value)
    value = int(value) % (1 << bits)
    return [at, value & NONE, value >> 32]


def swizzle(count, vector, pattern):
    if len(pattern) != 4:
        raise Unreadable(pattern)
    return [size(count), index(vector), *(chosen("xyzw", letter) for letter in pattern)]


def level(word):
    name, *operands = word.split(":")
    at = chosen("auto zero exact bias grad".split(), name)
    if len(operands) != (0, 0, 1, 1, 2)[at]:
        raise Unreadable(word)
    return [at, *map(index, operands), 0, 0][:3]


def sample(picture, sampler, at, gathered, layer, offset, by, depth, clamp):
    component = NONE if gathered == "-" else chosen("xyzw", gathered)
    return [index(picture), index(sampler), component, index(at), optional(layer), optional(offset), *level(by),
            optional(depth), flag(clamp)]


def query(picture, word):
    name, *operands = word.split(":")
    at = chosen("size levels layers samples".split(), name)
    if at:
        return [index(picture), at, 0]
    return [index(picture), 0, index(operands[0]) if operands else NONE]


def cooperative_load(pointer, stride, *shape):
    operands = [index(pointer), index(stride)]
    if not shape:
        return operands
    if len(shape) != 3:
        raise Unreadable(" ".join(shape))
    columns, rows, role = shape
    return operands + [matrix_size(columns), matrix_size(rows), chosen("A B C".split(), role)]


FORMS = {
    "lit": (0, literal),
    "const": (1, lambda c: [index(c)]),
    "override": (2, lambda o: [index(o)]),
    "zero": (3, lambda t: [index(t)]),
    "compose": (4, lambda t, *parts: [index(t), *map(index, parts)]),
    "access": (5, lambda base, at: [index(base), index(at)]),
    "accessindex": (6, lambda base, at: [index(base), number(at)]),
    "splat": (7, lambda n, e: [size(n), index(e)]),
    "swizzle": (8, swizzle),
    "argument": (9, lambda n: [number(n)]),
    "global": (10, lambda v: [index(v)]),
    "local": (11, lambda v: [index(v)]),
    "load": (12, lambda e: [index(e)]),
    "sample": (13, sample),
    "imageload": (14, lambda i, c, a, s, l: [index(i), index(c), *map(optional, (a, s, l))]),
    "imagequery": (15, query),
    "unary": (16, lambda op, e: [chosen(UNARY, op), index(e)]),
    "binary": (17, lambda op, left, right: [chosen(BINARY, op), index(left), index(right)]),
    "select": (18, lambda c, a, r: [index(c), index(a), index(r)]),
    "derivative": (19, lambda e: [index(e)]),
    "relational": (20, lambda fun, e: [chosen(RELATIONAL, fun), index(e)]),
    "math": (21, lambda fun, e, a, b, c: [chosen(MATH, fun), index(e), *map(optional, (a, b, c))]),
    "as": (22, lambda e, k, w: [index(e), chosen(KINDS, k), NONE if w == "-" else number(w, 255)]),
    "callresult": (23, lambda f: [index(f)]),
    "atomicresult": (24, lambda t, b: [index(t), flag(b)]),
    "workgroupload": (25, lambda t: [index(t)]),
    "arraylength": (26, lambda e: [index(e)]),
    "proceedresult": (27, lambda: []),
    "getintersection": (28, lambda e, b="0": [index(e), flag(b)]),
    "vertexpositions": (29, lambda e, b="0": [index(e), flag(b)]),
    "ballotresult": (30, lambda: []),
    "subgroupresult": (31, lambda t: [index(t)]),
    "coopload": (32, cooperative_load),
    "coopmuladd": (33, lambda a, b, c: [index(a), index(b), index(c)]),
}


def atomic(word):
    name, *operands = word.split(":")
    if name == "xchg":
        return [7, NONE]
    if name == "cas":
        return [7, index(operands[0])]
    return [chosen(ATOMICS, name), 0]


def ray_step(name, *operands):
    at = chosen("init proceed generate confirm terminate".split(), name)
    if len(operands) != (2, 1, 1, 0, 0)[at]:
        raise Unreadable(name)
    return [at, *map(index, operands), 0, 0][:3]


def gather(mode, value, result):
    name, *operands = mode.split(":")
    at = chosen(GATHERS, name)
    if len(operands) != (0 if at in (0, 7) else 1):
        raise Unreadable(mode)
    return [at, *map(index, operands), 0][:2] + [index(value), index(result)]


def barrier(flags="2"):
    """The operands of a barrier: none for the workgroup alone."""
    if re.fullmatch("[0-9]+", flags):
        bits = number(flags, 15)
    else:
        bits = 0
        for name in flags.split(","):
            bits |= 1 << chosen(BARRIERS, name)
    return [] if bits == WORKGROUP else [bits]


def collective(value, result, op="add", how="reduce"):
    at = chosen(COLLECTIVES, how)
    return [chosen(SUBGROUP, op), index(value), index(result), *([at] if at else [])]


def case(value="-", falls=None):
    """The operands of a case: whether the next is executed after it, and its value, if it has one."""
    if falls not in (None, "falls"):
        raise Unreadable(falls)
    operands = [FALSE if falls is None else TRUE]
    if value == "-":
        return operands
    if value == "default":
        return operands + [0, 0]
    if not value.startswith("i"):
        return operands + [2, number(value)]
    if not re.fullmatch(r"i-?[0-9]{1,20}", value) or not -(1 << 31) <= int(value[1:]) < 1 << 31:
        raise Unreadable(value)
    return operands + [1, int(value[1:]) & NONE]


OPERANDS = {
    "barrier": barrier,
    "membarrier": barrier,
    "emit": lambda first, past: [number(first), number(past)],
    "return": lambda e: [optional(e)],
    "store": lambda p, v: [index(p), index(v)],
    "imagestore": lambda i, c, a, v: [index(i), index(c), optional(a), index(v)],
    "atomic": lambda p, fun, v, r: [index(p), *atomic(fun), index(v), optional(r)],
    "imageatomic": lambda i, c, a, fun, v: [index(i), index(c), optional(a), *atomic(fun), index(v)],
    "wgload": lambda p, r: [index(p), index(r)],
    "call": lambda f, r, *arguments: [index(f), optional(r), *map(index, arguments)],
    "rayquery": lambda q, *step: [index(q), *ray_step(*step)],
    "trace": lambda a, d, p: [index(a), index(d), index(p)],
    "ballot": lambda r, p: [index(r), optional(p)],
    "gather": gather,
    "collective": collective,
    "coopstore": lambda t, p, s: [index(t), index(p), index(s)],
}


def call(function, words):
    """Calls a function whose number of arguments is that of the words, or the words are not readable."""
    try:
        return function(*words)
    except (TypeError, IndexError) as error:
        raise Unreadable(str(words)) from error


class Writer:
    """The items of a module, line by line."""

    def __init__(self):
        self.words = []
        self.name = None
        self.counts = {}
        self.labels = {}
        self.in_function = False
        self.open = []

    def item(self, opcode, *operands):
        self.words += [len(operands) << 8 | opcode, *operands]

    def take_name(self):
        name, self.name = self.name, None
        return [NONE] if name is None else text(name)

    def count(self, kind):
        at = self.counts.get(kind, 0)
        self.counts[kind] = at + 1
        return at

    def line(self, line):
        """Adds what a line says."""
        if not line or line.startswith("#"):
            return
        label, found, rest = line.partition(": ")
        has_label = found and re.fullmatch(r"[A-Za-z_][A-Za-z0-9_]*", label)
        words = [self.resolve(word) for word in (rest if has_label else line).split(" ")]
        added = self.add(*words)
        if has_label:
            self.labels[label] = added

    def resolve(self, word):
        return re.sub(r"\$([A-Za-z_][A-Za-z0-9_]*)", lambda match: str(self.labels[match[1]]), word)

    def add(self, keyword, *words):
        """Adds what words say, and returns the index of the item that they add."""
        adders = {"f": self.expression, "g": self.global_expression, "expr": self.global_expression,
                  "s": self.statement, "type": self.type}
        if keyword in adders:
            return adders[keyword](*words)
        method = getattr(self, "line_" + keyword, None)
        if method is None:
            raise Unreadable(keyword)
        return call(method, words)

    def type(self, form, *words):
        opcode, operands = TYPES.get(form) or call(lambda: None, [form])
        self.item(opcode, *self.take_name(), *call(operands, words))
        return self.count("type")

    def form(self, base, form, *words):
        if form not in FORMS:
            raise Unreadable(form)
        at, operands = FORMS[form]
        self.item(base + at, *call(operands, words))

    def global_expression(self, *words):
        self.form(64, *words)
        return self.count("global expression")

    def expression(self, *words):
        if ":" in words:
            words = words[:words.index(":")]
        self.part()
        self.form(128, *words)
        return self.count("expression")

    def part(self):
        if not self.in_function:
            raise Unreadable("a part of no function")

    def statement(self, keyword, *words):
        self.part()
        blocks = {"block": 0, "if": 1, "switch": 1, "loop": 0}
        if keyword in blocks:
            self.item(STATEMENT[keyword], *call(lambda *e: [index(*e)] if e else [], words))
            self.open.append(keyword)
        elif keyword in ("else", "case", "continuing"):
            self.item(STATEMENT[keyword], *call(case if keyword == "case" else lambda: [], words))
            self.open[-1] = keyword
        elif keyword == "end":
            self.close(*words)
        else:
            operands = OPERANDS.get(keyword, lambda: [])
            self.item(STATEMENT[keyword], *call(operands, words))

    def close(self, break_if="-"):
        """Ends the innermost block, with the blocks that the larger text may leave out."""
        opener = self.open.pop()
        if opener == "if":
            self.item(STATEMENT["else"])
        if opener == "loop":
            self.item(STATEMENT["continuing"])
        if opener in ("loop", "continuing"):
            self.item(END_LOOP, optional(break_if))
        else:
            self.item(STATEMENT["end"])

    def end_function(self):
        while self.open:
            self.close()

    def begin(self, kind, opcode, name):
        self.end_function()
        self.item(opcode, *name)
        self.in_function = True
        self.counts["argument"] = self.counts["local"] = self.counts["expression"] = 0
        return self.count(kind)

    def line_fn(self, _stages):
        return self.begin("function", 35, self.take_name())

    def line_entry(self, stage="-", *words):
        sizes, early = (words[:3], words[3:]) if len(words) > 2 else ([], words)
        name = self.take_name()
        at = self.begin("entry point", 36, [0] if name == [NONE] else name)
        operands = [chosen(STAGES, stage), *(1 + chosen(EARLY, word) for word in early), 0][:2]
        if len(early) > 1:
            raise Unreadable(str(early))
        if any(operands):
            self.item(48, *operands)
        if any(map(number, sizes)):
            self.item(49, *map(number, sizes))
        return at

    def line_name(self, word):
        self.name = word

    def line_flags(self, bits):
        self.item(1, bits_of(bits, 63))

    def line_caps(self, bits):
        value = capabilities_of(bits)
        self.item(2, value & NONE, value >> 32)

    def line_resolved(self):
        self.item(3)

    def line_special(self, *types):
        self.item(4, *map(optional, types))

    def line_others(self, *types):
        for ty in types:
            self.item(5, index(ty))

    def line_filter(self, parent):
        self.item(6, optional(parent))
        return self.count("filter")

    def line_filterleaf(self, leaf):
        self.item(7, index(leaf))

    def line_doc(self, ty, at):
        self.item(9, index(ty), index(at))

    def line_doctype(self, at):
        self.item(8, index(at))

    def line_docfn(self, at):
        self.item(10, index(at))

    def line_docentry(self, at):
        self.item(11, index(at))

    def line_docconst(self, at):
        self.item(12, index(at))

    def line_docglobal(self, at):
        self.item(13, index(at))

    def line_const(self, ty, init):
        self.item(32, *self.take_name(), index(ty), index(init))
        return self.count("constant")

    def line_override(self, ty, init, number_or_none):
        by = NONE if number_or_none == "-" else number(number_or_none, 65535)
        self.item(33, *self.take_name(), index(ty), optional(init), by)
        return self.count("override")

    def line_global(self, where, ty, init, *words):
        operands = [*self.take_name(), *space(where), index(ty), optional(init)]
        left = list(words)
        bound = [TRUE, *map(number, left.pop(0).split(":"))] if left and ":" in left[0] else [FALSE, 0, 0]
        if len(bound) != 3 or left not in ([], ["coherent"], ["volatile"], ["coherent", "volatile"]):
            raise Unreadable(str(words))
        decorations = ("coherent" in left) | ("volatile" in left) << 1
        if bound[0] or decorations:
            self.item(50, *operands, *bound, decorations)
        else:
            self.item(34, *operands)
        return self.count("global variable")

    def line_arg(self, ty, *words):
        self.part()
        self.item(40, *self.take_name(), index(ty), *binding(*words))
        return self.count("argument")

    def line_local(self, ty, init):
        self.part()
        self.item(41, *self.take_name(), index(ty), optional(init))
        return self.count("local")

    def line_result(self, ty, *words):
        self.part()
        self.item(42, index(ty), *binding(*words))

    def line_named(self, at):
        self.part()
        self.item(43, 0, index(at))

    def line_leaf(self, leaf):
        self.part()
        self.item(44, index(leaf))

    def line_wgsizes(self, *sizes):
        self.part()
        self.item(45, *map(optional, sizes))

    def line_payload(self, variable):
        self.part()
        self.item(46, index(variable))

    def line_mesh(self, variable, vertices, primitives, most, most_primitives, *words):
        self.part()
        operands = [index(variable), index(vertices), index(primitives), optional(most), optional(most_primitives)]
        said = [chosen(TOPOLOGIES, words[0]), *map(number, words[1:])] if words else [0, 0, 0]
        if len(said) != 3:
            raise Unreadable(str(words))
        self.item(47, *operands, *(said if any(said) else []))


def words_of(lines):
    """The words of a module, or `Unreadable`."""
    writer = Writer()
    for line in lines:
        writer.line(line)
    writer.end_function()
    return writer.words


def main():
    *options, path = sys.argv[1:]
    with open(path, encoding="utf-8") as file:
        lines = [line for line in file.read().splitlines() if not line.startswith(("?", "|"))]
    for word in (HEADER if options == ["--header"] else []) + words_of(lines):
        print(word)


if __name__ == "__main__":
    main()
