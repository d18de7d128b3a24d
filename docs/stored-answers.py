#!/usr/bin/env python3
"""Turns the crate's answers, one text file for each list, into the stored answers that `replay` reads.

    python3 docs/stored-answers.py ANSWERS_DIR crates/replay/data

STORED.md says what each file holds. A list is one function here, from a line's words to a record's bytes.
"""
import pathlib
import sys

NAMED = [
    "FLOAT", "INTEGER", "NUMERIC", "ABSTRACT", "CONCRETE", "CONCRETE_INTEGER", "CONCRETE_FLOAT",
    "FLOAT_ABSTRACT_UNIMPLEMENTED", "VECN",
]
ANSWERS, DATA = map(pathlib.Path, sys.argv[1:])


def answers(name):
    """The crate's answers of one list, as the words of each line."""
    return [line.split() for line in (ANSWERS / (name + ".txt")).read_text().splitlines()]


def word(n):
    """Two bytes, the low one first."""
    return [n % 256, n // 256]


def part(content):
    """A record, or a part of one in the same form: its length, then its bytes."""
    return word(len(content)) + content


def combine(words):
    a, b, answer = map(int, words)
    return [a, b, answer, 255 if answer == 255 else 0 if answer == a else 1]


def convertible(words):
    scalar, mask = map(int, words)
    return [scalar] + word(mask)


def named_sets(words):
    name, mask = words
    return [NAMED.index(name)] + word(int(mask))


def consensus(words):
    arrow = words.index("->")
    base, count, *components = map(int, words[:arrow])
    assert count == len(components)
    kind, *value = words[arrow + 1:]
    number = {"ok": 0, "err": 12, "panic": 11}[kind]
    value = int(value[0]) if value else 0
    return agreed(base, number, value, components, giver(base, components, value) if number == 0 else (255, 255))


def agreed(base, number, value, components, by):
    kind, component = by
    return [base, number, value, kind] + word(component) + components


def giver(base, components, scalar):
    """Who gave the scalar, which the crate does not say: the base (0), or else a component (1), the first whose scalar it is."""
    if base == scalar:
        return 0, 255
    return 1, next(k for k, t in enumerate(components) if t < 156 and t % 12 == scalar)


def rule(text):
    """A rule `a.a>r`: four arguments, 255 for one that is not there, their number, and the result."""
    arguments, result = text.split(">")
    codes = [int(a) for a in arguments.split(".") if a]
    return (codes + [255] * 4)[:4] + [len(codes), int(result)]


def rules(texts):
    return [byte for text in texts if text != "-" for byte in rule(text)]


def hand_made(words):
    kind, *fields = words
    if kind == "R":
        arity, constructors, scalars, conclusion = map(int, fields)
        return [0, arity] + word(constructors) + word(scalars) + [conclusion]
    assert kind == "L" and len(rules(fields[1:])) == 6 * int(fields[0])
    return [1] + rules(fields[1:])


def steps(words):
    return [b for w in words if w != "-" for b in ([255, 255] if w == "c" else map(int, w.split(":")))]


PANICS = {"panic-empty": 1, "panic-several": 2, "panic-matrix": 13, "outside": 13}


def preferred(words):
    return [PANICS[words[0]]] if words[0] in PANICS else [0] + rule(words[0])


def types(words):
    return [4] if words == ["panic"] else [0] + [int(w) for w in words]


def handsets(words):
    fields = [field.split() for field in " ".join(words).split("|")]
    made, ops, count, listing, counts, chosen, *at_each = fields
    assert len(at_each) == 5
    refused = count == ["13"] and listing == ["-"]
    assert refused or len(rules(listing)) == 6 * int(count[0])
    answers = [
        [13] if refused else [0] + rules(listing),
        [1] if counts == ["panic"] else [0] + [int(w) for w in counts],
        preferred(chosen),
    ] + [types(words) for words in at_each]
    return [byte for content in [hand_made(made), steps(ops)] + answers for byte in part(content)]


CONSTANT, MEASURED = 0, 1


def abstract(t):
    """Whether a type's scalar is ABSTRACT_INT or ABSTRACT_FLOAT."""
    return t < 156 and t % 12 <= 1


def operands(types, marks):
    """The operands of a call in a record: their types as a part, then their marks."""
    return part(types) + marks


def constants(types):
    """The marks of operands that are all constant."""
    return [CONSTANT] * len(types)


def measured_sets(types):
    """Every choice of marks with a measured operand, none of which is abstract; the last one has all measured that may be."""
    may = [k for k, t in enumerate(types) if not abstract(t)]
    for bits in range(1, 1 << len(may)):
        chosen = [k for n, k in enumerate(may) if bits >> n & 1]
        yield [MEASURED if k in chosen else CONSTANT for k in range(len(types))]


def called(words):
    """Function, switch, operands' types, and the crate's answer: survivors' mask, index and result."""
    arrow = words.index("->")
    function, concrete, *types = map(int, words[:arrow])
    survivors, index, result = words[arrow + 1:]
    mask = sum(1 << int(k) for k in survivors.split(","))
    return function, concrete, types, list(mask.to_bytes(8, "little")) + [int(index), int(result)]


def calls(words):
    function, concrete, types, answer = called(words)
    return [function, concrete] + answer + [CONSTANT] + operands(types, constants(types))


def measured_calls():
    """The crate's answers with the concrete-only step, for calls with measured operands, which take that step: every choice of these
    with the switch off, and with it on that of all that may be measured."""
    records = []
    for function, concrete, types, answer in map(called, answers("calls")):
        choices = list(measured_sets(types)) if concrete else []
        for switch, some in ((0, choices), (1, choices[-1:])):
            records += [[function, switch] + answer + [MEASURED] + operands(types, marks) for marks in some]
    return records


def listings():
    """The crate's rules of each function, in the order of its full listing: the arguments, and the result. All of one function have as
    many arguments."""
    functions = {}
    for function, index, count, *arguments, result in (map(int, words) for words in answers("listings")):
        listed = functions.setdefault(function, [])
        listed.append((arguments, result))
        assert index == len(listed) - 1 and count == len(arguments) == len(listed[0][0])
    return functions


RULES = listings()

# The mask of the scalars that each scalar converts to.
CONVERTS = {int(scalar): int(mask) for scalar, mask in answers("convertible")}


class Refused(Exception):
    """A refusal: its number and its place."""


def taking(function, arguments):
    """The function's rules that take operands, given as pairs of type and place, each rule with its index. The operand that leaves none is
    refused: 6 if no rule that takes the operands before it has its constructor there, as none has for a type from 156 on; otherwise 16."""
    left = list(enumerate(RULES[function]))
    for k, (t, place) in enumerate(arguments):
        shaped = [(index, one) for index, one in left if one[0][k] // 12 == t // 12]
        left = [(index, one) for index, one in shaped if CONVERTS[t % 12] >> one[0][k] % 12 & 1]
        if not left:
            raise Refused(16 if shaped else 6, place)
    return left


def read(content, at, nodes, depth):
    """Reads the node of an expression at an offset, behind so many nodes and at that depth, by the documents' first pass: the offset behind
    it, and the nodes passed."""
    tag = present(content, at)
    if nodes == 64 or depth > 16:
        raise Refused(9, at)
    if tag != CALL and tag not in LEAVES:
        raise Refused(8, at)
    number = present(content, at + 1)
    if number > (78 if tag == CALL else 156):
        raise Refused(7, at + 1)
    if tag == MEASURED_LEAF and abstract(number):
        raise Refused(17, at + 1)
    if tag in LEAVES:
        return at + 2, nodes + 1
    count, end, nodes = present(content, at + 2), at + 3, nodes + 1
    for _ in range(count):
        end, nodes = read(content, end, nodes, depth + 1)
    return end, nodes


def present(content, at):
    if at >= len(content):
        raise Refused(8, at)
    return content[at]


def typed(content, at, concrete, sheet):
    """The type and the mark of a node that the first pass has read, and the offset behind it, by the documents' second pass, which adds
    the node's lines to the worksheet."""
    if content[at] in LEAVES:
        t, mark = content[at + 1], LEAVES[content[at]]
        sheet += [LEAF_LINE, t, mark, 0]
        return t, mark, at + 2
    function, count, end = content[at + 1], content[at + 2], at + 3
    arguments, mark = [], CONSTANT
    for _ in range(count):
        place = end
        t, one, end = typed(content, place, concrete, sheet)
        arguments.append((t, place))
        mark = max(mark, one)
    if count != len(RULES[function][0][0]):
        raise Refused(5, at)
    step = concrete or mark == MEASURED
    left = [(index, one) for index, one in taking(function, arguments) if not step or not any(map(abstract, one[0]))]
    index, (wanted, result) = left[0]
    for k, ((t, _), to) in enumerate(zip(arguments, wanted)):
        if t != to:
            sheet += [CONVERSION_LINE, count - 1 - k, to, 0]
    sheet += [CALL_LINE, function, index, count]
    return result, mark, end


def passed(content, concrete, size):
    """What the documents' passes, by the crate's listings and conversions, answer with a buffer of this size: number, place, type, mark and
    worksheet."""
    sheet = []
    try:
        end, _ = read(content, 0, 0, 1)
        if end < len(content):
            raise Refused(8, end)
        t, mark, _ = typed(content, 0, concrete, sheet)
        if len(sheet) > size:
            raise Refused(10, len(sheet))
    except Refused as why:
        return *why.args, 255, 255, []
    return 0, 0, t, mark, sheet


def emptied(words):
    """Function, operands' types, and the refusal: number and place. The argument must be the crate's."""
    function, *types, arrow, argument = words
    function, types = int(function), [int(w) for w in types]
    try:
        taking(function, [(t, 1 + k) for k, t in enumerate(types)])
    except Refused as why:
        number, place = why.args
    assert place == 1 + int(argument)
    return function, types, [number, place]


def refused(words):
    function, types, refusal = emptied(words)
    return [function] + refusal + operands(types, constants(types))


def measured_refused():
    """The crate's refusals with measured operands, which change none of them: for each one choice of these, the next for the next call.
    Then document 02's for the same calls where an operand is abstract: all measured, which is refused at the first of those."""
    records = []
    for n, (function, types, refusal) in enumerate(map(emptied, answers("refused"))):
        choices = list(measured_sets(types))
        if choices:
            records.append([function] + refusal + operands(types, choices[n % len(choices)]))
        if any(map(abstract, types)):
            first = [abstract(t) for t in types].index(True)
            records.append([function, 17, 1 + first] + operands(types, [MEASURED] * len(types)))
    return records + [[function] + refusal + operands(types, marks) for function, types, marks, refusal in SPOILT]


def allowed(words):
    function, index, *answer = words
    if answer != ["panic"]:
        count, arrow, *answer = answer
        assert int(count) == len(answer)
    return [int(function), int(index)] + types(answer)


def expression(content, concrete, size, answer):
    number, place, code, mark, sheet = answer
    return [concrete] + word(size) + [number] + word(place) + [code, mark] + part(content) + sheet


def hexed(text):
    return list(bytes.fromhex("" if text == "-" else text))


def answered(content, concrete, size, answer, sheet):
    """An expression, the switch, the buffer's size and the answer, from the words of a line. It must be that of the passes, but that 6 is
    16 where it is the operand's scalar that no rule takes, and that document 01 knows no tag of a measured leaf."""
    content, concrete, size = hexed(content), int(concrete), int(size)
    number, place, code = map(int, answer)
    found = passed(content, concrete, size)
    if number != 8 or content[place:place + 1] != [MEASURED_LEAF]:
        assert (6 if found[0] == 16 else found[0], found[1], found[2], found[4]) == (number, place, code, hexed(sheet))
    return content, concrete, size, found


def in_enough_room(words):
    content, concrete, arrow, *answer, sheet = words
    return answered(content, concrete, 508, answer, sheet)


def worksheets(words):
    return expression(*in_enough_room(words))


def room(words):
    content, concrete, size, arrow, *answer, sheet = words
    return expression(*answered(content, concrete, size, answer, sheet))


def leaves(content, at=0):
    """The offsets of the leaves of a well-formed expression's node, front to back, and the offset behind it."""
    if content[at] in LEAVES:
        return [at], at + 2
    found, end = [], at + 3
    for _ in range(content[at + 2]):
        more, end = leaves(content, end)
        found += more
    return found, end


def measured_calls_only(content, at=0):
    """Whether every call of a well-formed expression's node has a measured leaf under it."""
    if content[at] in LEAVES:
        return True
    end, measured = at + 3, False
    for _ in range(content[at + 2]):
        if not measured_calls_only(content, end):
            return False
        under, behind = leaves(content, end)
        measured = measured or any(content[k] == MEASURED_LEAF for k in under)
        end = behind
    return measured


def marked(content, answer, chosen):
    """A constant expression with these leaves measured, and its answer, but for what the marks do to calls. The worksheet's leaf lines
    stand in the order of the leaves."""
    number, place, code, mark, sheet = answer
    content, sheet = content[:], sheet[:]
    lines = [k for k in range(0, len(sheet), 4) if sheet[k] == LEAF_LINE]
    for n, at in enumerate(leaves(content)[0]):
        if at in chosen:
            content[at] = MEASURED_LEAF
            if sheet:
                sheet[lines[n] + 2] = MEASURED
    return content, (number, place, code, mark if number else MEASURED, sheet)


def measured_worksheets():
    """The crate's answers for well-formed expressions of constants, with measured leaves: some, the next choice for the next expression.
    The marks change nothing else of an answer, with the switch on because every call takes the concrete-only step anyhow, and with it off
    where that step leaves the crate's rule, as the passes must find. An answer with the switch on is also that of the expression with the
    switch off and all leaves measured that may be, if no call is without one. Then document 02's for a measured leaf that is abstract: the
    first such leaf, or the last, with all the others constant."""
    records = []
    for n, (content, concrete, size, answer) in enumerate(map(in_enough_room, answers("worksheets"))):
        if answer[0] in (7, 8, 9, 17):
            continue
        found, _ = leaves(content)
        if any(content[k] == MEASURED_LEAF for k in found):
            continue
        may = [k for k in found if not abstract(content[k + 1])]
        may_not = [k for k in found if abstract(content[k + 1])]
        asked = []
        if may:
            some = [k for j, k in enumerate(may) if j % 3 == n % 3] or may[:1]
            asked.append((concrete, *marked(content, answer, some)))
        if may and concrete and measured_calls_only(marked(content, answer, may)[0]):
            asked.append((0, *marked(content, answer, may)))
        if may_not:
            at = may_not[-(n % 2)]
            told, _ = marked(content, answer, [at])
            asked.append((concrete, told, (17, at + 1, 255, 255, [])))
        for switch, told, expected in asked:
            assert passed(told, switch, size) == expected
            records.append(expression(told, switch, size, expected))
    return records


# Document 01's limits of a List, not the crate's: the number of the answer, and the rules.
SOME = "8>8"
FULL = "155.155.155.155>180"
FIVE = "8.8.8.8.8>8"
BOUNDARY = [
    (0, []),
    (0, [FULL]),
    (0, [SOME] * 62 + [FULL]),
    (0, [FULL] * 63),
    (3, [SOME] * 64),
    (3, [FULL] * 70),
    (7, [SOME] * 62 + ["156>8"]),
    (7, [SOME] * 62 + ["8.8.8.156>8"]),
    (7, [SOME] * 62 + ["8>181"]),
    (7, ["156>8"] + [SOME] * 63),
    (7, [SOME] * 62 + ["8>181", SOME]),
    (3, [FIVE]),
    (3, [SOME] * 62 + [FIVE]),
    (3, [FIVE] * 64),
    (7, ["8.8.8.156.8>8"]),
    (7, ["8.8.8.8.8>181"]),
]


def boundary(number, texts):
    return [number] + rules(texts)


# Document 01's limits of an expression and its error that looks right, with document 02's number for that, and document 02's measured
# leaves, not the crate's: the expression, the buffer's size, number, place and type, the mark, and the worksheet.
ABS, CLAMP, SIN, POW, DISTANCE, INSERT_BITS = 0, 4, 5, 32, 66, 78
ABSTRACT_INT, ABSTRACT_FLOAT, I32, U32, F32, F16, VEC2_ABSTRACT_INT, VEC2_F32 = 0, 1, 2, 5, 8, 9, 12, 20

# The tags of nodes, and of leaves the marks.
CONSTANT_LEAF, CALL, MEASURED_LEAF = 0, 1, 2
LEAVES = {CONSTANT_LEAF: CONSTANT, MEASURED_LEAF: MEASURED}

# The kinds of a worksheet's lines.
LEAF_LINE, CALL_LINE, CONVERSION_LINE = 0, 1, 2


def leaf(t):
    return [CONSTANT_LEAF, t]


def reading(t):
    return [MEASURED_LEAF, t]


def call(function, *arguments):
    return [CALL, function, len(arguments)] + sum(arguments, [])


def abs_of(n):
    """F32 under n calls of Abs, with its worksheet."""
    return [1, ABS, 1] * n + leaf(F32), [0, F32, 0, 0] + [1, ABS, 8, 1] * n


def clamps(n):
    """F32 under n calls of Clamp, as flat as may be, with its worksheet. It has 1 + 3 x n nodes."""
    if n == 0:
        return leaf(F32), [0, F32, 0, 0]
    inner = [clamps((n - 1 + k) // 3) for k in range(3)]
    return call(CLAMP, *[one for one, _ in inner]), sum([sheet for _, sheet in inner], []) + [1, CLAMP, 8, 3]


NODES_64, NODES_64_SHEET = clamps(21)
NODES_65 = call(ABS, NODES_64)
DEPTH_16, DEPTH_16_SHEET = abs_of(15)
DEPTH_17, _ = abs_of(16)
BITS = call(INSERT_BITS, leaf(I32), leaf(I32), leaf(U32), leaf(U32))
BITS_SHEET = [0, I32, 0, 0] * 2 + [0, U32, 0, 0] * 2 + [1, INSERT_BITS, 0, 4]
SAMPLE = call(CLAMP, leaf(0), leaf(U32), leaf(0))
SAMPLE_SHEET = [0, 0, 0, 0, 0, 5, 0, 0, 0, 0, 0, 0, 2, 2, 5, 0, 2, 0, 5, 0, 1, 4, 5, 3]
READ_CLAMP = call(CLAMP, reading(F32), leaf(ABSTRACT_INT), leaf(ABSTRACT_FLOAT))
READ_CLAMP_SHEET = [0, F32, 1, 0] + [0, ABSTRACT_INT, 0, 0] + [0, ABSTRACT_FLOAT, 0, 0]
READ_CLAMP_SHEET += [2, 1, F32, 0] + [2, 0, F32, 0] + [1, CLAMP, 8, 3]
ABSTRACTS = call(DISTANCE, leaf(ABSTRACT_FLOAT), leaf(ABSTRACT_FLOAT))
ABSTRACTS_SHEET = [0, ABSTRACT_FLOAT, 0, 0] * 2 + [2, 1, F32, 0] + [2, 0, F32, 0] + [1, DISTANCE, 0, 2]
LIMITS = [
    ([], 508, (8, 0, 255), []),
    (leaf(156), 508, (0, 0, 156), [0, 156, 0, 0]),
    (leaf(157), 508, (7, 1, 255), []),
    (BITS, 508, (0, 0, I32), BITS_SHEET),
    (call(78), 508, (5, 0, 255), []),
    (call(79), 508, (7, 1, 255), []),
    (NODES_64, 508, (0, 0, F32), NODES_64_SHEET),
    (NODES_65, 508, (9, len(NODES_65) - 2, 255), []),
    (call(ABS, *[leaf(F32)] * 63), 508, (5, 0, 255), []),
    (call(ABS, *[leaf(F32)] * 64), 508, (9, 129, 255), []),
    (DEPTH_16, 508, (0, 0, F32), DEPTH_16_SHEET),
    (DEPTH_17, 508, (9, 48, 255), []),
    (leaf(156), 4, (0, 0, 156), [0, 156, 0, 0]),
    (leaf(156), 3, (10, 4, 255), []),
    (SAMPLE, 24, (0, 0, U32), SAMPLE_SHEET),
    (SAMPLE, 23, (10, 24, 255), []),
    (NODES_64, 256, (0, 0, F32), NODES_64_SHEET),
    (NODES_64, 255, (10, 256, 255), []),
    (NODES_64, 0, (10, 256, 255), []),
    (call(POW, ABSTRACTS, leaf(F16)), 508, (16, 10, 255), []),
]
MEASURED_LIMITS = [
    (reading(F32), 508, (0, 0, F32), [0, F32, 1, 0]),
    (reading(156), 508, (0, 0, 156), [0, 156, 1, 0]),
    (reading(156), 3, (10, 4, 255), []),
    (reading(157), 508, (7, 1, 255), []),
    ([MEASURED_LEAF], 508, (8, 1, 255), []),
    ([3, F32], 508, (8, 0, 255), []),
    (reading(ABSTRACT_INT), 508, (17, 1, 255), []),
    (reading(ABSTRACT_FLOAT), 0, (17, 1, 255), []),
    (reading(VEC2_ABSTRACT_INT) + [0], 508, (17, 1, 255), []),
    (reading(F32) + [0], 508, (8, 2, 255), []),
    (call(SIN, reading(F32), reading(ABSTRACT_FLOAT)), 508, (17, 6, 255), []),
    (call(SIN, leaf(157), reading(ABSTRACT_FLOAT)), 508, (7, 4, 255), []),
    (call(SIN, reading(U32)), 508, (16, 3, 255), []),
    (call(SIN, reading(156)), 508, (6, 3, 255), []),
    (READ_CLAMP, 508, (0, 0, F32), READ_CLAMP_SHEET),
    (READ_CLAMP, 24, (0, 0, F32), READ_CLAMP_SHEET),
    (READ_CLAMP, 23, (10, 24, 255), []),
    (call(POW, ABSTRACTS, reading(F32)), 508, (0, 0, F32), ABSTRACTS_SHEET + [0, F32, 1, 0] + [1, POW, 1, 2]),
    ([1, ABS, 1] * 15 + reading(F32), 508, (0, 0, F32), [0, F32, 1, 0] + [1, ABS, 8, 1] * 15),
    ([1, ABS, 1] * 15 + reading(ABSTRACT_INT), 508, (17, 46, 255), []),
    ([1, ABS, 1] * 16 + reading(ABSTRACT_INT), 508, (9, 48, 255), []),
]


def limit(mark, content, size, answer, sheet):
    expected = (*answer, 255 if answer[0] else mark, sheet)
    assert passed(content, 0, size) == expected
    return expression(content, 0, size, expected)


# Document 02's request (v), not the crate's answers: a function, the types and the marks of its operands, and the refusal.
SPOILT = [
    (79, [F32], [MEASURED], [7, 0]),
    (79, [ABSTRACT_INT], [], [7, 0]),
    (SIN, [F32], [], [8, 0]),
    (SIN, [], [MEASURED], [8, 0]),
    (POW, [181, ABSTRACT_INT], [MEASURED], [8, 1]),
    (POW, [181], [2, 2], [8, 1]),
    (POW, [F32, F32, F32], [MEASURED, MEASURED], [8, 2]),
    (SIN, [F32], [2], [7, 1]),
    (SIN, [F32], [255], [7, 1]),
    (SIN, [181], [MEASURED], [7, 1]),
    (POW, [F32, ABSTRACT_INT], [MEASURED, 2], [7, 2]),
    (POW, [F32, 255], [MEASURED, MEASURED], [7, 2]),
    (POW, [ABSTRACT_INT, 181], [MEASURED, CONSTANT], [17, 1]),
    (POW, [ABSTRACT_INT, F32], [MEASURED, 2], [17, 1]),
    (POW, [181, ABSTRACT_INT], [CONSTANT, MEASURED], [7, 1]),
    (POW, [F32, ABSTRACT_INT], [2, MEASURED], [7, 1]),
    (SIN, [ABSTRACT_FLOAT], [MEASURED], [17, 1]),
    (SIN, [VEC2_ABSTRACT_INT], [MEASURED], [17, 1]),
    (SIN, [F32, ABSTRACT_INT], [CONSTANT, MEASURED], [17, 2]),
    (POW, [F32, ABSTRACT_FLOAT], [CONSTANT, MEASURED], [17, 2]),
    (SIN, [], [], [5, 0]),
    (SIN, [F32, ABSTRACT_INT], [MEASURED, CONSTANT], [5, 0]),
    (SIN, [156], [MEASURED], [6, 1]),
    (SIN, [180], [MEASURED], [6, 1]),
    (SIN, [U32], [MEASURED], [16, 1]),
    (POW, [F32, F16], [CONSTANT, MEASURED], [16, 2]),
    (POW, [F32, VEC2_F32], [MEASURED, CONSTANT], [6, 2]),
]


# Document 02's request (ii), not the crate's answers: a base or none, components, the scalar, and who gave it.
NO_BASE = 255
BY_BASE = (0, 255)
GIVERS = [
    (NO_BASE, [U32], U32, (1, 0)),
    (NO_BASE, [ABSTRACT_INT, ABSTRACT_INT], ABSTRACT_INT, (1, 0)),
    (NO_BASE, [U32, ABSTRACT_INT, U32], U32, (1, 0)),
    (NO_BASE, [ABSTRACT_INT, U32, ABSTRACT_INT, U32], U32, (1, 1)),
    (NO_BASE, [ABSTRACT_INT, ABSTRACT_FLOAT, VEC2_F32, F32], F32, (1, 2)),
    (ABSTRACT_INT, [], ABSTRACT_INT, BY_BASE),
    (ABSTRACT_INT, [ABSTRACT_INT], ABSTRACT_INT, BY_BASE),
    (U32, [ABSTRACT_INT, U32], U32, BY_BASE),
    (ABSTRACT_INT, [ABSTRACT_INT, U32, U32], U32, (1, 1)),
    (ABSTRACT_INT, [ABSTRACT_FLOAT, F16, ABSTRACT_FLOAT], F16, (1, 1)),
    (NO_BASE, [ABSTRACT_INT] * 255 + [U32], U32, (1, 255)),
    (NO_BASE, [ABSTRACT_INT] * 256 + [U32, U32], U32, (1, 256)),
    (ABSTRACT_INT, [ABSTRACT_INT] * 256 + [U32], U32, (1, 256)),
    (NO_BASE, [ABSTRACT_INT] * 65000 + [U32], U32, (1, 65000)),
]


def given(base, components, scalar, by):
    return agreed(base, 0, scalar, components, by)


# A record for each line of the crate's answers.
LISTS = [combine, convertible, named_sets, consensus, handsets, calls, refused, allowed, worksheets, room]

# All records of a list, from the crate's answers of another.
MEASURED_LISTS = [measured_calls, measured_refused, measured_worksheets]


def store(name, records):
    stored = bytes(byte for record in records for byte in part(record))
    assert len(stored) < 262144, name
    (DATA / name).write_bytes(stored)


def main():
    for make in LISTS:
        name = make.__name__
        store(name, [make(words) for words in answers(name)])
    for make in MEASURED_LISTS:
        store(make.__name__, make())
    store("boundary", [boundary(*line) for line in BOUNDARY])
    store("limits", [limit(CONSTANT, *line) for line in LIMITS] + [limit(MEASURED, *line) for line in MEASURED_LIMITS])
    store("givers", [given(*line) for line in GIVERS])


main()
