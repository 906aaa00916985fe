"""The process of each kind as a term, read line by line from the table of kinds in docs/LANGUAGE.md.

A term is a tuple:

    ("ask", port, value), ("got", port, slot), ("take", port, slot), ("reply", port, value)     a move
    ("seq", term, ..), ("par", term, ..), ("choice", term, ..), ("forever", term)
    ("if", condition, term, term), ("while", guard, slot, term)
    ("set", slot, value)                                            a part of the move that reaches it

A port is a name, as "out", or "out.3" for the third of an array. Slots, values and conditions are texts of Promela. A slot that
nobody reads any more is set to 0, so that there are few states; a fourth item of an "ask" is such a slot.
"""
from netlist import sorted_parameters

# The ports of each kind in the table's order: a name, with [] an array; s, u, l: sync, push, pull; P passive, A active.
ROWS = {
    "Loop": "activate:sP activateOut:sA",
    "Sequence": "activate:sP out[]:sA",
    "SequenceOptimised": "activate:sP out[]:sA",
    "Concur": "activate:sP out[]:sA",
    "Fork": "inp:sP out[]:sA",
    "WireFork": "inp:sP out[]:sA",
    "ForkPush": "inp:uP out[]:uA",
    "While": "activate:sP guard:lA activateOut:sA",
    "Case": "inp:uP out[]:sA",
    "CaseFetch": "out:lP index:lA inp[]:lA",
    "Fetch": "activate:sP inp:lA out:uA",
    "Variable": "write:uP read[]:lP",
    "FalseVariable": "write:uP signal:sA read[]:lP",
    "Constant": "out:lP",
    "UnaryFunc": "out:lP inp:lA",
    "BinaryFunc": "out:lP inpA:lA inpB:lA",
    "BinaryFuncConstR": "out:lP inp:lA",
    "Slice": "out:lP inp:lA",
    "Combine": "out:lP ls:lA ms:lA",
    "CombineEqual": "out:lP inp[]:lA",
    "Adapt": "out:lP inp:lA",
    "Split": "inp:uP ls:uA ms:uA",
    "Call": "inp[]:sP out:sA",
    "CallMux": "inp[]:uP out:uA",
    "CallDemux": "inp[]:lP out:lA",
    "Passivator": "inp[]:sP",
    "PassivatorPush": "out[]:lP inp:uP",
    "Synch": "inp[]:sP out:sA",
    "SynchPull": "out[]:lP inp:lA",
    "DecisionWait": "activate:sP inp[]:sP out[]:sA",
    "Arbiter": "inpA:sP inpB:sP outA:sA outB:sA",
    "Bar": "guard:lP activate:sP inp[]:lA out[]:sA",
    "Halt": "inp:sP",
    "HaltPush": "inp:uP",
    "Continue": "inp:sP",
    "ContinuePush": "inp:uP",
}
# The kinds that serve one of several callers at a time, and whose callers may not meet.
MIXERS = ["Call", "CallMux", "CallDemux"]
COMPARISONS = {
    "Equals": "==",
    "NotEquals": "!=",
    "LessThan": "<",
    "GreaterThan": ">",
    "LessOrEquals": "<=",
    "GreaterOrEquals": ">=",
}
OTHER_OPERATIONS = {"Add": "+", "Subtract": "-", "And": "&", "Or": "|", "Xor": "^"}
NOTHING = ("seq",)


class Component:
    """A component while its process is written."""

    def __init__(self, kind, parameters, entries, channels, slot):
        self.kind, self.channels, self.slot = kind, channels, slot
        self.numbers, self.flags, self.texts = sorted_parameters(parameters)
        self.ports, self.sizes = bind(kind, entries, channels)
        self.x, self.y = slot("x"), slot("y")

    def width(self, port):
        return self.channels[self.ports[port]][1]

    def flag(self, at):
        return len(self.flags) >= at and self.flags[at - 1]

    def extended(self, slot, port, at):
        """The value of a slot, extended by the sign that flag `at` says."""
        return extended(slot, self.width(port), self.flag(at))


def bind(kind, entries, channels):
    """The channel of each port by its name, in the order of the ports, and the sizes of arrays."""
    singles = [it for it in entries if not isinstance(it, list)]
    arrays = [it for it in entries if isinstance(it, list)]
    pulls = [at for at, it in enumerate(singles) if channels[it][0] == "pull"]
    if kind == "While":
        guard = singles.pop(pulls[0] if pulls else 1)
        singles.insert(1, guard)
    if kind == "Bar":
        guard = singles.pop(pulls[0] if pulls else 0)
        singles.insert(0, guard)
    ports, sizes = {}, {}
    for word in ROWS[kind].split():
        name = word.split(":")[0]
        if name.endswith("[]"):
            members, name = arrays.pop(0), name[:-2]
            sizes[name] = len(members)
            ports |= {f"{name}.{at}": it for at, it in enumerate(members, 1)}
        else:
            ports[name] = singles.pop(0)
    assert not singles and not arrays
    return ports, sizes


# ---- values ------------------------------------------------------------------------------------------------------------------


def mask(width):
    """All ones of a width. Promela's numbers have 32 bits and a sign: of values of 32 bits it has the pattern."""
    return (1 << width) - 1 if width < 32 else -1


def pattern(value):
    return value - (1 << 32) if value >= 1 << 31 else value


def extended(slot, width, sign):
    return f"SX({slot},{width})" if sign and width < 32 else f"({slot})"


def binary(operation, a, b, width):
    if operation in COMPARISONS:
        return f"(({a}) {COMPARISONS[operation]} ({b}) -> 1 : 0)"
    if operation == "ReverseSubtract":
        a, b, operation = b, a, "Subtract"
    return f"((({a}) {OTHER_OPERATIONS[operation]} ({b})) & {mask(width)})"


def conditions(text, slot, width):
    """For each set of a specification the condition that a slot's value lies in it."""
    greatest = (1 << width) - 1
    found = []
    for one in text.split(";"):
        ranges = [(int(low), int(high or low)) for low, _, high in (it.partition("..") for it in one.split(","))]
        inside = [f"({slot} >= {low} && {slot} <= {min(high, greatest)})" for low, high in ranges if low <= greatest]
        found.append("(" + " || ".join(inside or ["false"]) + ")")
    return found


# ---- pieces of terms ---------------------------------------------------------------------------------------------------------


def call(port):
    return ("seq", ("ask", port, None), ("got", port, None))


def push(port, value):
    return ("seq", ("ask", port, value), ("got", port, None))


def pass_on(port, slot):
    """Pushes a slot's value, which is of no use any more."""
    return ("seq", ("ask", port, slot, slot), ("got", port, None))


def pull(port, slot):
    return ("seq", ("ask", port, None), ("got", port, slot))


def enclose(port, *body, taken=None, value=None):
    """The body within a handshake at a passive port: the request's value goes to a slot, and the reply has a value."""
    return ("seq", ("take", port, taken), *body, ("reply", port, value))


def clear(*slots):
    return ("seq", *(("set", it, "0") for it in slots))


def forever(*body):
    return ("forever", body[0] if len(body) == 1 else ("seq", *body))


def members(port, count):
    return [f"{port}.{at}" for at in range(1, count + 1)]


def side_by_side(port, count, piece):
    return ("par", *map(piece, members(port, count)))


def one_of(port, count, piece):
    return ("choice", *map(piece, members(port, count)))


def in_order(port, count, piece):
    return [piece(it) for it in members(port, count)]


def first_of(cases, terms, otherwise):
    for case, term in reversed(list(zip(cases, terms))):
        otherwise = ("if", case, term, otherwise)
    return otherwise


def take(port):
    return ("take", port, None)


def reply(value=None):
    return lambda port: ("reply", port, value)


# ---- control -----------------------------------------------------------------------------------------------------------------


def loop(_):
    return ("seq", take("activate"), forever(call("activateOut")))


def sequence(it):
    return forever(enclose("activate", *in_order("out", it.sizes["out"], call)))


def concur(it):
    return forever(enclose("activate", side_by_side("out", it.sizes["out"], call)))


def fork(it):
    return forever(enclose("inp", side_by_side("out", it.sizes["out"], call)))


def wire_fork(it):
    return ("seq", take("inp"), side_by_side("out", it.sizes["out"], call))


def fork_push(it):
    return forever(enclose("inp", side_by_side("out", it.sizes["out"], lambda port: push(port, it.x)), clear(it.x), taken=it.x))


def while_(it):
    return forever(enclose("activate", ("while", "guard", it.x, call("activateOut"))))


def case(it):
    arms = in_order("out", it.sizes["out"], lambda port: ("seq", clear(it.x), call(port)))
    cases = conditions(it.texts[0], it.x, it.width("inp"))
    return forever(enclose("inp", first_of(cases, arms, clear(it.x)), taken=it.x))


def case_fetch(it):
    def arm(port):
        return ("seq", clear(it.x), pull(port, it.y), ("reply", "out", it.y), clear(it.y))

    cases = conditions(it.texts[0], it.x, it.width("index"))
    chosen = first_of(cases, in_order("inp", it.sizes["inp"], arm), ("seq", clear(it.x), ("reply", "out", "0")))
    return forever(take("out"), pull("index", it.x), chosen)


def halt(_):
    return ("seq", take("inp"))


def continue_(_):
    return forever(enclose("inp"))


# ---- data and functions ------------------------------------------------------------------------------------------------------


def fetch(it):
    return forever(enclose("activate", pull("inp", it.x), pass_on("out", it.x)))


def variable(it, *before_reply):
    cell = it.slot("cell")
    reads = [forever(enclose(port, value=cell)) for port in members("read", it.sizes["read"])]
    return ("par", forever(enclose("write", *before_reply, taken=cell)), *reads)


def false_variable(it):
    return variable(it, call("signal"))


def constant(it):
    return forever(enclose("out", value=str(pattern(it.numbers[1] % (1 << it.width("out"))))))


def unary(it):
    value = it.extended(it.x, "inp", 1)
    negative = f"(0 - {value})" if it.texts[0] == "Negate" else f"(0 - {value} - 1)"
    return forever(enclose("out", pull("inp", it.x), value=f"({negative} & {mask(it.width('out'))})"), clear(it.x))


def binary_func(it):
    value = binary(it.texts[0], it.extended(it.x, "inpA", 2), it.extended(it.y, "inpB", 3), it.width("out"))
    both = ("par", pull("inpA", it.x), pull("inpB", it.y))
    return forever(enclose("out", both, value=value), clear(it.x, it.y))


def binary_func_const_r(it):
    width, out = it.numbers[2], it.width("out")
    y = it.numbers[3] % (1 << width)
    if it.flag(3) and y >= 1 << (width - 1):
        y -= 1 << width
    # (a comparison with what is out of Promela's numbers is the same with what is out of reach)
    far = 1 << 24
    y = max(-far, min(far, y)) if it.texts[0] in COMPARISONS else pattern(y % (1 << out))
    value = binary(it.texts[0], it.extended(it.x, "inp", 2), str(y), out)
    return forever(enclose("out", pull("inp", it.x), value=value), clear(it.x))


def slice_(it):
    value = f"(({it.x} >> {it.numbers[2]}) & {mask(it.width('out'))})"
    return forever(enclose("out", pull("inp", it.x), value=value), clear(it.x))


def combine(it):
    both = ("par", pull("ls", it.x), pull("ms", it.y))
    return forever(enclose("out", both, value=f"({it.x} + ({it.y} << {it.width('ls')}))"), clear(it.x, it.y))


def combine_equal(it):
    slots = {port: it.slot(port.replace(".", "_")) for port in members("inp", it.sizes["inp"])}
    value = " + ".join(f"({slot} << {at * it.width('inp.1')})" for at, slot in enumerate(slots.values()))
    pulled = side_by_side("inp", len(slots), lambda port: pull(port, slots[port]))
    return forever(enclose("out", pulled, value=f"({value})"), clear(*slots.values()))


def adapt(it):
    value = f"({it.extended(it.x, 'inp', 2)} & {mask(it.width('out'))})"
    return forever(enclose("out", pull("inp", it.x), value=value), clear(it.x))


def split(it):
    low = it.width("ls")
    high = f"(({it.x} >> {low}) & {mask(it.width('ms'))})"
    both = ("par", push("ls", f"({it.x} & {mask(low)})"), push("ms", high))
    return forever(enclose("inp", both, clear(it.x), taken=it.x))


# ---- mixers and joins --------------------------------------------------------------------------------------------------------


def call_(it):
    return forever(one_of("inp", it.sizes["inp"], lambda port: enclose(port, call("out"))))


def call_mux(it):
    return forever(one_of("inp", it.sizes["inp"], lambda port: enclose(port, pass_on("out", it.x), taken=it.x)))


def call_demux(it):
    def arm(port):
        return ("seq", enclose(port, pull("out", it.x), value=it.x), clear(it.x))

    return forever(one_of("inp", it.sizes["inp"], arm))


def passivator(it):
    count = it.sizes["inp"]
    return forever(side_by_side("inp", count, take), side_by_side("inp", count, reply()))


def passivator_push(it):
    outs = members("out", it.sizes["out"])
    taken = ("par", *map(take, outs), ("take", "inp", it.x))
    return forever(taken, ("par", *map(reply(it.x), outs), ("reply", "inp", None)), clear(it.x))


def synch(it):
    count = it.sizes["inp"]
    return forever(side_by_side("inp", count, take), call("out"), side_by_side("inp", count, reply()))


def synch_pull(it):
    count = it.sizes["out"]
    return forever(side_by_side("out", count, take), pull("inp", it.x), side_by_side("out", count, reply(it.x)), clear(it.x))


def decision_wait(it):
    def arm(port):
        both = ("par", ("reply", port, None), ("reply", "activate", None))
        return ("seq", take(port), call(port.replace("inp", "out")), both)

    return forever(take("activate"), one_of("inp", it.sizes["inp"], arm))


def arbiter(_):
    return forever(("choice", enclose("inpA", call("outA")), enclose("inpB", call("outB"))))


def bar(it):
    bits = {port: it.slot(port.replace(".", "_")) for port in members("inp", it.sizes["inp"])}
    some = " || ".join(f"{bit} == 1" for bit in bits.values())
    pulled = side_by_side("inp", len(bits), lambda port: pull(port, bits[port]))
    guard = forever(enclose("guard", pulled, value=f"(({some}) -> 1 : 0)"))
    chosen = first_of([f"({bit} == 1)" for bit in bits.values()], in_order("out", len(bits), call), NOTHING)
    return ("par", guard, forever(enclose("activate", chosen)))


PROCESSES = {
    "Loop": loop,
    "Sequence": sequence,
    "SequenceOptimised": sequence,
    "Concur": concur,
    "Fork": fork,
    "WireFork": wire_fork,
    "ForkPush": fork_push,
    "While": while_,
    "Case": case,
    "CaseFetch": case_fetch,
    "Fetch": fetch,
    "Variable": variable,
    "FalseVariable": false_variable,
    "Constant": constant,
    "UnaryFunc": unary,
    "BinaryFunc": binary_func,
    "BinaryFuncConstR": binary_func_const_r,
    "Slice": slice_,
    "Combine": combine,
    "CombineEqual": combine_equal,
    "Adapt": adapt,
    "Split": split,
    "Call": call_,
    "CallMux": call_mux,
    "CallDemux": call_demux,
    "Passivator": passivator,
    "PassivatorPush": passivator_push,
    "Synch": synch,
    "SynchPull": synch_pull,
    "DecisionWait": decision_wait,
    "Arbiter": arbiter,
    "Bar": bar,
    "Halt": halt,
    "HaltPush": halt,
    "Continue": continue_,
    "ContinuePush": continue_,
}


def term(component):
    """The process of a component."""
    return PROCESSES[component.kind](component)
