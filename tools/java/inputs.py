"""Random inputs of mh by a seed: a manifest, scripts, class files and a plan that mh accepts.

Every kind of leaf, script line, literal and static argument is among them. Scripts are well typed but for some lines that are made
without a look at types, most of which are refused when the script runs, and some sites name what is not there or what mh leaves out.
Other sites are string concatenations of random recipes, a fifth of which have something wrong. Some static arguments are dynamic
constants, which may have others among their own.
"""
import random
import struct
from typing import NamedTuple

OBJECT, NUMBER, STRING = "java/lang/Object", "java/lang/Number", "java/lang/String"
WRAPPERS = {
    "Z": "java/lang/Boolean", "B": "java/lang/Byte", "C": "java/lang/Character", "S": "java/lang/Short", "I": "java/lang/Integer",
    "J": "java/lang/Long",
}
SMALL = ("B", "C", "S")
# The letter of a literal of a primitive type; of a boxed one it is the capital.
MARKS = {"Z": "z", "B": "b", "C": "c", "S": "h", "I": "i", "J": "j"}
# The primitive types that each widens to (JLS SE 17, 5.1.2).
WIDER = {"Z": "", "B": "SIJ", "C": "IJ", "S": "IJ", "I": "J", "J": ""}
THROWABLE, ERROR = "java/lang/Throwable", "java/lang/Error"
RUNTIME = "java/lang/RuntimeException"

# The built-in classes, each with its superclass.
BUILT_IN = {
    OBJECT: None, NUMBER: OBJECT, WRAPPERS["I"]: NUMBER, WRAPPERS["J"]: NUMBER, WRAPPERS["B"]: NUMBER, WRAPPERS["S"]: NUMBER,
    WRAPPERS["Z"]: OBJECT, WRAPPERS["C"]: OBJECT, STRING: OBJECT, THROWABLE: OBJECT, "java/lang/Exception": THROWABLE,
    RUNTIME: "java/lang/Exception", ERROR: THROWABLE, "java/lang/LinkageError": ERROR,
    "java/lang/BootstrapMethodError": "java/lang/LinkageError", "java/lang/NoClassDefFoundError": "java/lang/LinkageError",
    "java/lang/IncompatibleClassChangeError": "java/lang/LinkageError",
    "java/lang/NoSuchMethodError": "java/lang/IncompatibleClassChangeError", "java/lang/VirtualMachineError": ERROR,
    "java/lang/InternalError": "java/lang/VirtualMachineError", "java/lang/invoke/WrongMethodTypeException": RUNTIME,
    "java/lang/ClassCastException": RUNTIME, "java/lang/NullPointerException": RUNTIME,
    "java/lang/IllegalArgumentException": RUNTIME, "java/lang/ArithmeticException": RUNTIME,
    "java/lang/UnsupportedOperationException": RUNTIME, "java/lang/invoke/StringConcatException": "java/lang/Exception",
    "java/lang/StackOverflowError": "java/lang/VirtualMachineError",
}
# Of these a virtual machine makes no subclass.
FINAL = {STRING, *WRAPPERS.values()}
BOOTSTRAP = ("(Ljava/lang/invoke/MethodHandles$Lookup;Ljava/lang/String;Ljava/lang/invoke/MethodType;)"
             "Ljava/lang/invoke/CallSite;")
# The descriptor of the bootstrap methods of dynamic constants.
OF_CONSTANT = "(Ljava/lang/invoke/MethodHandles$Lookup;Ljava/lang/String;Ljava/lang/Class;)Ljava/lang/Object;"
# The bootstrap method that is built in, and the most slots of its sites.
FACTORY = "java/lang/invoke/StringConcatFactory"
JOINS = ("(Ljava/lang/invoke/MethodHandles$Lookup;Ljava/lang/String;Ljava/lang/invoke/MethodType;Ljava/lang/String;"
         "[Ljava/lang/Object;)Ljava/lang/invoke/CallSite;")
CONCATENATES = (6, FACTORY, "makeConcatWithConstants", JOINS)
MOST_CONCAT_SLOTS = 200
# In a recipe, the next argument and the next constant.
ARGUMENT, CONSTANT = "\x01", "\x02"
MOST_SLOTS = 254
# OpenJDK takes no more slots in some cleanups, switches and loops, and refuses others that are wider.
MOST_ENDED_SLOTS = 250
# A script has at most 64 lines, and ends a few after this many.
SOME_LINES = 45
# The least and the greatest number of each type but boolean (JLS SE 17, 4.2.1).
BOUNDS = {
    "B": (-128, 127), "C": (0, 65535), "S": (-32768, 32767), "I": (-2147483648, 2147483647),
    "J": (-9223372036854775808, 9223372036854775807),
}
SMALL_NUMBERS = [0, 1, -1, 2, 7]
# The bounds of all types, and the numbers next to them.
NEAR_BOUNDS = sorted({number + more for bounds in BOUNDS.values() for number in bounds for more in (-1, 0, 1)})
# The oldest and the newest class files that are read.
MAJORS = 45, 65
CHARACTERS = "abcxyz09 ,\n\\'\"#:;[]é\u0000\u20ac\U0001f600"


# What is no type of a dynamic constant: types that mh lacks, texts that are no type, and an unknown class.
ODD_TYPES = ["F", "D", "[[I", "[F", "V", "(I)I", "", "II", "x", "Lno/Such;"]


class TooWide(Exception):
    """A line that would name a type of more slots than a descriptor may have."""


class Type(NamedTuple):
    """A method type: the descriptors of its parameters, and of its return, which may be V."""

    params: tuple
    ret: str

    def __str__(self):
        return f"({''.join(self.params)}){self.ret}"


class Leaf(NamedTuple):
    """A leaf: its type has the receiver first, its reference has not."""

    is_static: bool
    owner: str
    reference: str
    type: Type


class Site(NamedTuple):
    """What an invokedynamic instruction names; the type as a text, and as what mh reads, if it can."""

    handle: tuple
    name: str
    descriptor: str
    type: object
    arguments: list


class Dynamic:
    """What a dynamic constant names (JVMS SE 17, 4.4.10); its static arguments may name it, so they can be put in later."""

    def __init__(self, handle, name, descriptor, arguments=()):
        self.handle, self.name, self.descriptor = handle, name, descriptor
        self.arguments = list(arguments)


def of_class(name):
    return f"L{name};"


def name_of(descriptor):
    return descriptor[1:-1]


def is_class(descriptor):
    return descriptor[0] == "L"


def takes_array(descriptor):
    return descriptor[0] == "[" or descriptor == of_class(OBJECT)


def is_primitive(descriptor):
    return descriptor in WRAPPERS


def narrower(primitive):
    """A primitive type and those that widen to it."""
    return [it for it in WRAPPERS if it == primitive or primitive in WIDER[it]]


def boxed(primitive):
    return of_class(WRAPPERS[primitive])


def is_small(descriptor):
    """Whether it is byte, short or char, or an array of it."""
    return descriptor.lstrip("[") in SMALL


def is_small_literal(literal):
    """Whether it is a byte, a short or a char, boxed or not, or an array that has one or may have one."""
    if literal[:2] != "a:":
        return literal[:2].lower() in ("b:", "c:", "h:")
    component, _, items = literal[2:-1].partition("[")
    return component in SMALL or any(map(is_small_literal, items.split(",")))


def slots(params):
    return sum(2 if it == "J" else 1 for it in params)


def escaped(text):
    known = {" ": "\\s", ",": "\\c", "\n": "\\n", "\\": "\\\\"}
    return "".join(known.get(c) or (c if "!" <= c <= "~" else f"\\u{{{ord(c):x}}}") for c in text)


class World:
    """Classes, leaves and literals of an input."""

    def __init__(self, rng):
        self.rng = rng
        self.parents = dict(BUILT_IN)
        self.lines = []
        self.leaves = []
        # (the dynamic constants that static arguments may be)
        self.constants = []
        for number in range(rng.randint(2, 5)):
            self.declare(f"demo/{rng.choice('ABC')}{number}")
        self.classes = list(self.parents)
        self.declared = [it for it in self.classes if it not in BUILT_IN]

    def chance(self, share):
        return self.rng.random() < share

    def declare(self, name):
        common = [OBJECT, OBJECT, NUMBER, RUNTIME, ERROR, "java/lang/LinkageError", "java/lang/IllegalArgumentException"]
        parents = [it for it in self.parents if it not in FINAL]
        declared = [it for it in parents if it not in BUILT_IN]
        parent = self.rng.choice(declared if declared and self.chance(0.4) else common if self.chance(0.8) else parents)
        self.parents[name] = parent
        self.lines.append(f"class {name} {parent}")

    def is_below(self, name, other):
        while name and name != other:
            name = self.parents[name]
        return name == other

    def below(self, other):
        """The classes at or below a class."""
        return [it for it in self.classes if self.is_below(it, other)]

    def type_is_below(self, one, other):
        if one == other:
            return True
        if one[0] == "[" and other[0] == "[":
            return is_class(one[1:]) and is_class(other[1:]) and self.is_below(name_of(one[1:]), name_of(other[1:]))
        if is_class(other) and one[0] in "L[":
            return name_of(other) == OBJECT or is_class(one) and self.is_below(name_of(one), name_of(other))
        return False

    # Types.

    def any_type(self):
        roll = self.rng.random()
        if roll < 0.5:
            return self.rng.choice("ZBCSIIIIJJ")
        if roll < 0.62:
            return of_class(STRING)
        if roll < 0.72:
            return of_class(OBJECT)
        if roll < 0.92:
            return of_class(self.any_class())
        return "[" + (self.rng.choice("ZBCSIJ") if self.chance(0.5) else of_class(self.any_class()))

    def any_class(self):
        roll = self.rng.random()
        if roll < 0.4:
            return self.rng.choice(self.declared)
        if roll < 0.7:
            return self.rng.choice([OBJECT, NUMBER, STRING, *WRAPPERS.values()])
        return self.rng.choice(self.classes)

    def any_return(self):
        return "V" if self.chance(0.15) else self.any_type()

    def any_params(self, most=4):
        return tuple(self.any_type() for _ in range(self.rng.randint(0, most)))

    def source_of(self, wanted):
        """A type that may be converted to the wanted one, mostly."""
        if self.chance(0.35):
            return wanted
        if self.chance(0.02):
            return self.any_type()
        if is_primitive(wanted):
            if self.chance(0.02):
                return boxed(self.rng.choice(list(WRAPPERS)))
            some = self.rng.choice(narrower(wanted))
            return self.rng.choice([of_class(OBJECT), of_class(self.parents[WRAPPERS[wanted]]), boxed(wanted), some, boxed(some)])
        below = [p for p, wrapper in WRAPPERS.items() if is_class(wanted) and self.is_below(wrapper, name_of(wanted))]
        return self.rng.choice(below) if below and self.chance(0.3) else self.reference()

    def target_of(self, given):
        """A type that a result may be converted to, mostly."""
        if self.chance(0.35):
            return given
        if given == "V" or self.chance(0.04):
            return self.any_return()
        if is_primitive(given):
            above = [it for it in (OBJECT, NUMBER, WRAPPERS[given]) if self.is_below(WRAPPERS[given], it)]
            return self.rng.choice([of_class(it) for it in above] + list(WIDER[given]))
        if is_class(given):
            unboxed = [p for p, wrapper in WRAPPERS.items() if self.is_below(wrapper, name_of(given))]
            unboxed += [wider for p in unboxed for wider in WIDER[p]]
            return self.rng.choice(unboxed) if unboxed and self.chance(0.4) else self.reference()
        return self.reference()

    def reference(self):
        while True:
            found = self.any_type()
            if not is_primitive(found):
                return found

    def asked(self, given):
        """A type by which a handle of the given type may be called or used, mostly."""
        params = tuple(self.source_of(it) for it in given.params)
        if self.chance(0.02):
            params = params[1:] if params else (self.any_type(),)
        if slots(params) > MOST_SLOTS + 1:
            params = given.params
        return Type(params, self.target_of(given.ret))

    def asked_explicitly(self, given):
        """A type to which a handle of the given type may be converted explicitly, mostly: any primitive type becomes any other."""
        asked = self.asked(given)
        return Type(tuple(self.other_primitive(it) for it in asked.params), self.other_primitive(asked.ret))

    def other_primitive(self, type):
        return self.rng.choice("ZBCSIJ") if is_primitive(type) and self.chance(0.6) else type

    # Literals.

    def text(self):
        if self.chance(0.02):
            return "x" * self.rng.choice([1021, 1022, 1023, 4095, 4096])
        return "".join(self.rng.choice(CHARACTERS) for _ in range(self.rng.randint(0, 6)))

    def number(self, primitive):
        if primitive == "Z":
            return self.rng.choice(["true", "false"])
        least, most = BOUNDS[primitive]
        known = self.rng.choice([[least, most], SMALL_NUMBERS, NEAR_BOUNDS])
        fitting = [it for it in known if least <= it <= most]
        return str(self.rng.choice(fitting) if self.chance(0.6) else self.rng.randint(least, most))

    def literal(self, wanted, hint=None):
        """A literal of a type; mostly of the hinted one too, if it can be."""
        if hint and not is_primitive(wanted) and self.chance(0.75):
            if is_primitive(hint):
                hint = boxed(self.rng.choice(narrower(hint)) if self.chance(0.3) else hint)
            if self.type_is_below(hint, wanted):
                return self.literal(hint)
        if is_primitive(wanted):
            return f"{MARKS[wanted]}:{self.number(wanted)}"
        if self.chance(0.1):
            return "null"
        return self.array(wanted[1:]) if wanted[0] == "[" else self.object(name_of(wanted))

    def object(self, name, arrays=True):
        below = self.below(name)
        if name == OBJECT and self.chance(0.6):
            below = [OBJECT, STRING, *WRAPPERS.values(), *self.declared]
        found = self.rng.choice(below)
        for primitive, wrapper in WRAPPERS.items():
            if wrapper == found:
                return f"{MARKS[primitive].upper()}:{self.number(primitive)}"
        if found == STRING:
            return f"s:{escaped(self.text())}"
        if self.is_below(found, THROWABLE):
            return f"x:{found}"
        if found == OBJECT and arrays and self.chance(0.4):
            return self.array(self.rng.choice([*WRAPPERS, of_class(OBJECT), of_class(STRING)]))
        return f"o:{found}#{self.rng.choice([0, 1, 2, 4294967295])}"

    def array(self, component, count=None):
        if is_class(component) and self.chance(0.4):
            component = of_class(self.rng.choice(self.below(name_of(component))))
        count = self.rng.randint(0, 3) if count is None else count
        return f"a:{component}[{','.join(self.item(component) for _ in range(count))}]"

    def item(self, component):
        if is_primitive(component):
            return self.literal(component)
        return "null" if self.chance(0.1) else self.object(name_of(component), arrays=False)

    def arguments(self, params, hints=()):
        hints = hints if len(hints) == len(params) else [None] * len(params)
        return [self.literal(it, hint) for it, hint in zip(params, hints)]

    # Leaves.

    def kinds(self, type):
        """The kinds that have a type, but for `throw`."""
        params, ret = type
        string = of_class(STRING)
        fixed = {
            (("I", "I"), "I"): ["iadd", "isub", "imul", "idiv", "idiv"], (("J", "J"), "J"): ["ladd"] * 2,
            (("I", "I"), "Z"): ["ieq", "ilt"], (("Z",), "Z"): ["not"] * 2, ((string, string), string): ["concat"] * 3,
            ((string,), "I"): ["length"] * 3,
        }
        kinds = list(fixed.get((params, ret), []))
        kinds += ["same"] if params == (ret,) else []
        kinds += ["first"] if len(params) > 1 and params[0] == ret else []
        kinds += ["pick"] if len(params) == 3 and params[0] == "Z" and params[1:] == (ret, ret) else []
        kinds += ["tick"] if ret == "I" else []
        return kinds + (["note"] if ret == "V" else [])

    def leaf(self, type):
        """A leaf of a type, which is registered."""
        kinds = self.kinds(type)
        kind = self.rng.choice(kinds) if kinds and not self.chance(0.08) else f"throw:{self.rng.choice(self.below(THROWABLE))}"
        is_static = not (type.params and is_class(type.params[0]) and self.chance(0.4))
        owner = self.rng.choice(self.declared if self.chance(0.9) else self.classes) if is_static else name_of(type.params[0])
        descriptor = Type(type.params if is_static else type.params[1:], type.ret)
        name = f"{kind.partition(':')[0]}{len(self.leaves)}"
        self.lines.append(f"{'static' if is_static else 'virtual'} {owner} {name} {descriptor} {kind}")
        self.leaves.append(Leaf(is_static, owner, f"{owner}.{name}:{descriptor}", type))
        return self.leaves[-1]

    def any_leaf(self):
        string = of_class(STRING)
        some = self.any_type()
        return self.leaf(self.rng.choice([
            Type(("I", "I"), "I"), Type(("J", "J"), "J"), Type(("I", "I"), "Z"), Type(("Z",), "Z"), Type((string, string), string),
            Type((string,), "I"), Type((some,), some), Type((some, *self.any_params(2), "I"), some), Type(("Z", some, some), some),
            Type(self.any_params(), "I"), Type(self.any_params(), "V"), Type(self.any_params(), self.any_return()),
        ]))


class Script:
    """A script that is written line by line, with the types of its registers."""

    def __init__(self, world, name):
        self.world, self.rng, self.name = world, world.rng, name
        self.lines = []
        self.handles = {}
        self.values = ["name"]
        self.arguments = []
        self.used = 0

    def chance(self, share):
        return self.rng.random() < share

    def fresh(self, words, type):
        """Assigns a register that is not used yet."""
        self.used += 1
        return self.assign(f"r{self.used}", words, type)

    def let(self, words, type):
        """Assigns a register; sometimes one that was assigned before."""
        known = [it for it in self.handles if it[0] == "r"]
        return self.assign(self.rng.choice(known), words, type) if known and self.chance(0.1) else self.fresh(words, type)

    def assign(self, register, words, type):
        if slots(type.params) > MOST_SLOTS + 1:
            raise TooWide
        self.lines.append(f"let {register} {words}")
        self.handles.pop(register, None)
        self.handles[register] = type
        return register

    def argument(self, sort, constant):
        """A static argument that every site of the script has; a value may be another one at each site."""
        self.arguments.append((sort, constant))
        return f"a{len(self.arguments) - 1}"

    # Handles.

    def leaf(self, type=None):
        if type and slots(type.params) > MOST_SLOTS:
            raise TooWide
        leaf = self.world.leaf(type) if type else self.world.any_leaf()
        if self.chance(0.12):
            register = self.argument("handle", ("handle", 6 if leaf.is_static else 5, *split_reference(leaf.reference)))
            self.handles[register] = leaf.type
            return register
        return self.fresh(f"leaf {leaf.reference}", leaf.type)

    def handle(self, type):
        """A register with a handle of a type."""
        held = [register for register, it in self.handles.items() if it == type]
        if held and self.chance(0.4):
            return self.rng.choice(held)
        if self.world.kinds(type) or type.ret == "V" or self.chance(0.1):
            return self.leaf(type)
        register = self.constant(type.ret)
        return self.fresh(f"drop {register} 0 {''.join(type.params)}", type) if type.params else register

    def constant(self, ret):
        return self.fresh(f"constant {self.type_operand(ret)} {self.value(ret)}", Type((), ret))

    def type_operand(self, descriptor):
        if descriptor[0] in "L[" and self.chance(0.15):
            return self.argument("class", ("class", name_of(descriptor) if is_class(descriptor) else descriptor))
        return descriptor

    def method_type(self, type):
        return self.argument("type", ("type", str(type))) if self.chance(0.15) else str(type)

    def value(self, wanted):
        """A value that fits a type, if one can be written."""
        world = self.world
        if wanted == "J" and self.chance(0.2):
            self.lines.append("let n serial")
            return "n"
        if wanted in ("I", "J", boxed("I"), boxed("J"), of_class(STRING)) and self.chance(0.3) or wanted in SMALL and self.chance(0.03):
            sort = {"I": "int", "J": "long"}.get(wanted) or ("text" if wanted == of_class(STRING) else "int")
            return self.argument("value", (sort, None))
        if wanted == of_class(STRING) and self.chance(0.2):
            return "name"
        if is_primitive(wanted):
            primitive = self.rng.choice(narrower(wanted)) if self.chance(0.3) else wanted
            return f"{MARKS[primitive].upper()}:{world.number(primitive)}"
        tries = [world.literal(wanted) for _ in range(6)]
        fitting = [it for it in tries if it == "null" or it[0] in "ZBCHIJs"]
        return fitting[0] if fitting else "null"

    def any_handle(self):
        if not self.handles or self.chance(0.15):
            self.leaf()
        names = list(self.handles)
        return self.rng.choice(names[-3:] if self.chance(0.7) else names)

    def position(self, params):
        return self.rng.randrange(len(params)) if params else None

    # Lines, each of which gives a handle of a type that is known.

    def bind(self, h, type):
        p = self.position(type.params)
        if p is None:
            return
        self.let(f"bind {h} {p} {self.value(type.params[p])}", Type(type.params[:p] + type.params[p + 1:], type.ret))

    def drop(self, h, type):
        p, more = self.rng.randint(0, len(type.params)), self.world.any_params(2) or ("J",)
        self.let(f"drop {h} {p} {''.join(more)}", Type(type.params[:p] + more + type.params[p:], type.ret))

    def permute(self, h, type):
        params = list(type.params) + list(self.world.any_params(2))
        if len(set(type.params)) < len(type.params) and self.chance(0.5):
            params = sorted(set(params))
        self.rng.shuffle(params)
        order = [self.rng.choice([j for j, it in enumerate(params) if it == wanted]) for wanted in type.params]
        new = Type(tuple(params), type.ret)
        self.let(f"permute {h} {self.method_type(new)} {','.join(map(str, order)) or '-'}", new)

    def filter(self, h, type):
        p = self.position(type.params)
        if p is None:
            return
        param = type.params[p] if self.chance(0.5) else self.world.any_type()
        f = self.handle(Type((param,), type.params[p]))
        self.let(f"filter {h} {p} {f}", Type(type.params[:p] + (param,) + type.params[p + 1:], type.ret))

    def filterret(self, h, type):
        ret = type.ret if self.chance(0.5) else self.world.any_return()
        f = self.handle(Type(() if type.ret == "V" else (type.ret,), ret))
        self.let(f"filterret {h} {f}", Type(type.params, ret))

    def fold(self, h, type):
        void = self.chance(0.3)
        p = self.rng.randint(0, len(type.params)) if void else self.position(type.params)
        if p is None:
            return
        new = type.params if void else type.params[:p] + type.params[p + 1:]
        count = self.rng.randint(0, len(new) - p)
        c = self.handle(Type(new[p:p + count], "V" if void else type.params[p]))
        self.let(f"fold {h} {p} {c}", Type(new, type.ret))

    def collect(self, h, type):
        void = self.chance(0.3)
        p = self.rng.randint(0, len(type.params)) if void else self.position(type.params)
        if p is None:
            return
        params = self.world.any_params(2)
        f = self.handle(Type(params, "V" if void else type.params[p]))
        new = type.params[:p] + params + type.params[p + (0 if void else 1):]
        self.let(f"collect {h} {p} {f}", Type(new, type.ret))

    def spread(self, h, type):
        n = self.rng.randint(0, len(type.params))
        component = type.params[-1] if n and self.chance(0.7) else self.rng.choice([*"BCSIJ", of_class(OBJECT)])
        if component[0] == "[":
            component = of_class(OBJECT)
        params = type.params[:len(type.params) - n] + ("[" + component,)
        self.let(f"spread {h} {self.type_operand('[' + component)} {n}", Type(params, type.ret))

    def gather(self, h, type):
        able = [it for it, held in self.handles.items() if held.params and takes_array(held.params[-1])]
        h = self.rng.choice(able) if able else self.leaf(Type((*self.world.any_params(2), "[" + self.rng.choice("ZBCSIJ")), "I"))
        type = self.handles[h]
        array = type.params[-1]
        if array == of_class(OBJECT):
            array = "[" + self.rng.choice([*WRAPPERS, of_class(OBJECT), of_class(STRING)])
        n = self.rng.randint(0, 3)
        self.let(f"gather {h} {array} {n}", Type(type.params[:-1] + (array[1:],) * n, type.ret))

    def astype(self, h, type):
        new = self.world.asked(type)
        self.let(f"astype {h} {self.method_type(new)}", new)

    def explicit(self, h, type):
        new = self.world.asked_explicitly(type)
        self.let(f"explicit {h} {self.method_type(new)}", new)

    def guard(self, h, type):
        test = self.handle(Type(type.params[:self.rng.randint(0, len(type.params))], "Z"))
        self.let(f"guard {test} {h} {self.handle(type)}", type)

    def catch(self, h, type):
        world = self.world
        name = self.rng.choice(world.below(self.rng.choice([THROWABLE, RUNTIME, ERROR])))
        above = [it for it in world.classes if world.is_below(name, it)]
        params = type.params[:self.rng.randint(0, len(type.params))]
        handler = self.handle(Type((of_class(self.rng.choice(above)), *params), type.ret))
        self.let(f"catch {h} {name} {handler}", type)

    def tryfinally(self, h, type):
        if slots(type.params) > MOST_ENDED_SLOTS:
            return
        first = THROWABLE if self.chance(0.95) else self.rng.choice([OBJECT, *self.world.below(THROWABLE)])
        result = () if type.ret == "V" else (type.ret,)
        params = type.params[:self.rng.randint(0, len(type.params))]
        cleanup = self.handle(Type((of_class(first), *result, *params), type.ret))
        self.let(f"tryfinally {h} {cleanup}", type)

    def switch(self, h, type):
        if slots(type.params) > MOST_ENDED_SLOTS:
            return
        new = Type(("I", *type.params[1:]), type.ret)
        fallback, cases = self.handle(new), [self.handle(new) for _ in range(self.rng.randint(1, 3))]
        while len(cases) < 16 and self.chance(0.3):
            cases.append(self.rng.choice(cases))
        self.let(f"switch {fallback} {' '.join(cases)}", new)

    def counted(self, h, type):
        turns, params = self.turns(), self.world.any_params(2)
        iterations = turns if not params or self.chance(0.5) else self.fresh(f"drop {turns} 0 {params[0]}", Type(params[:1], "I"))
        init = self.handle(Type(params[:self.rng.randint(0, len(params))], type.ret))
        carried = () if type.ret == "V" else (type.ret,)
        body = self.handle(Type((*carried, "I", *params), type.ret))
        self.let(f"counted {iterations} {init} {body}", Type(params, type.ret))

    def turns(self):
        """A handle that gives a number of turns; mostly a few."""
        if self.chance(0.1):
            return self.handle(Type((), "I"))
        count = self.rng.choice([-1, 63, 64, 65]) if self.chance(0.1) else self.rng.randint(0, 4)
        return self.fresh(f"constant I I:{count}", Type((), "I"))

    def throw(self, h, type):
        name = self.rng.choice(self.world.below(THROWABLE))
        ret = type.ret if self.chance(0.5) else self.world.any_return()
        self.let(f"throw {ret} {name}", Type((of_class(name),), ret))

    def identity(self, h, type):
        some = self.world.any_type()
        self.let(f"identity {self.type_operand(some)}", Type((some,), some))

    def constant_line(self, h, type):
        self.constant(self.world.any_type())

    def double(self, h, type):
        """A tree that grows to about the limit of nodes."""
        grown = self.handle(Type(("I",), "I"))
        for _ in range(self.rng.randint(6, 8)):
            grown = self.fresh(f"filterret {grown} {grown}", Type(("I",), "I"))

    def widen(self, h, type):
        """Parameters up to the limit of slots, or one more."""
        room = MOST_SLOTS - slots(type.params)
        if room < 10 or len(type.params) > 20:
            return
        more = ("J",) * (room // 2) if self.chance(0.5) else ("I",) * room
        more += ("I",) if self.chance(0.2) else ()
        self.let(f"drop {h} {self.rng.randint(0, len(type.params))} {''.join(more)}", Type(more + type.params, type.ret))

    # Lines that are made without a look at types.

    def wild(self):
        rng, world = self.rng, self.world
        h, f, g = self.any_handle(), self.any_handle(), self.any_handle()
        p = rng.choice([0, 1, 2, 3, 255])
        name = rng.choice([*world.classes, "no/Such"])
        some = rng.choice([world.any_type(), "V", "F", "D", "[[I", of_class("no/Such"), "a0"])
        value = rng.choice(["null", "I:1", "J:2", "Z:true", "B:-128", "C:65535", "H:-32768", "s:x", "name", "a0", "a7"])
        type = rng.choice([str(Type(world.any_params(), world.any_return())), "type", "a0", "a3", "(D)V"])
        words = rng.choice([
            f"leaf {world.declared[0]}.absent:()V", "leaf no/Such.f:()V",
            f"constant {some} {value}", f"identity {some}", f"throw {some} {name}", f"bind {h} {p} {value}",
            f"drop {h} {p} {world.any_type()}", f"permute {h} {type} {rng.choice(['-', '0', '1,0', '0,0', '0,1,2'])}",
            f"filter {h} {p} {f}", f"filterret {h} {f}", f"fold {h} {p} {f}", f"collect {h} {p} {f}",
            f"spread {h} {some} {p}", f"gather {h} {some} {p}", f"astype {h} {type}", f"explicit {h} {type}", f"guard {h} {f} {g}",
            f"catch {h} {name} {f}", f"tryfinally {h} {f}", f"switch {h} {f}", f"switch {h} {f} {g}", f"counted {h} {f} {g}",
            f"bind a0 {p} {value}", "RAISE", "FAILMOD",
        ])
        if words == "FAILMOD":
            k = rng.randint(1, 3)
            self.lines.append(f"failmod {k} {rng.randrange(k)}")
        elif words != "RAISE":
            self.lines.append(f"let wild {words}")

    def line(self, lines):
        """One of these lines, and those that it needs; none where it would name too wide a type."""
        before = list(self.lines), dict(self.handles), list(self.arguments)
        try:
            h = self.any_handle()
            self.rng.choice(lines)(h, self.handles[h])
        except TooWide:
            self.lines, self.handles, self.arguments = before

    def write(self):
        lines = [self.bind, self.drop, self.permute, self.filter, self.filterret, self.fold, self.collect, self.spread, self.gather,
                 self.astype, self.explicit, self.guard, self.catch, self.tryfinally, self.switch, self.counted, self.throw, self.identity,
                 self.constant_line]
        for _ in range(self.rng.randint(1, 25 if self.chance(0.05) else 9)):
            self.line(lines)
            if self.chance(0.05):
                self.wild()
            if len(self.lines) > SOME_LINES:
                break
        if self.chance(0.02):
            self.line([self.double, self.widen])
            if len(self.lines) < SOME_LINES:
                self.line(lines)
        return self.end()

    def end(self):
        """The last lines; the type that a site of the script has."""
        register = list(self.handles)[-1] if self.chance(0.8) else self.any_handle()
        type = self.handles[register]
        if self.chance(0.06):
            words = "raise", self.rng.choice([*self.world.below(THROWABLE), OBJECT, "no/Such"]), f"s:{escaped(self.world.text()[:9])}"
            self.lines.append(" ".join(words))
        elif self.chance(0.25):
            type = self.world.asked(type)
            self.lines += [f"let end astype {register} type", "return end"]
        else:
            self.lines.append(f"return {register}")
        return type if not self.chance(0.03) else Type(self.world.any_params(), self.world.any_return())

    def has_serial(self):
        """Whether what it does depends on the number of the attempt."""
        return any(line.startswith(("let n serial", "failmod")) for line in self.lines)

    def text(self):
        return "\n".join([f"script demo/Boot {self.name} {BOOTSTRAP}", *self.lines, "end", ""])


class ConstScript:
    """A script that gives a dynamic constant its value, which mostly has the constant's type."""

    def __init__(self, world, name, descriptor, count):
        self.world, self.rng, self.name, self.descriptor = world, world.rng, name, descriptor
        self.lines = []
        self.registers = ["name", *(f"a{number}" for number in range(count))]
        if self.chance(0.12):
            self.lines.append("let n serial")
            self.registers.append("n")
        if self.chance(0.05):
            modulus = self.rng.randint(1, 3)
            self.lines.append(f"failmod {modulus} {self.rng.randrange(modulus)}")
        if self.chance(0.04):
            self.lines.append(f"let h leaf {self.rng.choice(world.leaves).reference}")
        self.lines.append(self.end())

    def chance(self, share):
        return self.rng.random() < share

    def end(self):
        if self.chance(0.1):
            name = self.rng.choice([*self.world.below(THROWABLE), OBJECT, "no/Such"])
            return f"raise {name} s:{escaped(self.world.text()[:9])}"
        if self.lines and self.lines[-1].startswith("let h") and self.chance(0.5):
            return "return h"
        if self.chance(0.4):
            return f"value {self.rng.choice(self.registers)}"
        return f"value {self.literal()}"

    def literal(self):
        """A number in its box, a text or null."""
        if self.chance(0.05):
            return self.rng.choice(["null", "a9", "s:x", "I:1", "J:2", "Z:true", "B:-128", "C:65535", "H:-32768"])
        if is_primitive(self.descriptor):
            primitive = self.rng.choice(narrower(self.descriptor))
            return f"{MARKS[primitive].upper()}:{self.world.number(primitive)}"
        wanted = of_class(OBJECT) if self.descriptor in ODD_TYPES else self.descriptor
        fitting = [it for it in (self.world.literal(wanted) for _ in range(6)) if it[0] in "ZBCHIJs"]
        return fitting[0] if fitting else "null"

    def has_serial(self):
        return any(line.startswith(("let n serial", "failmod")) for line in self.lines)

    def text(self):
        return "\n".join([f"script demo/Boot {self.name} {OF_CONSTANT}", *self.lines, "end", ""])


def split_reference(reference):
    owner, _, rest = reference.partition(".")
    name, _, descriptor = rest.partition(":")
    return owner, name, descriptor


def modified_utf8(text):
    """A text of a class file (JVMS SE 17, 4.4.7); it may have halves of surrogate pairs."""
    units = text.encode("utf-16-be", "surrogatepass")
    found = b""
    for (unit,) in struct.iter_unpack(">H", units):
        if 0 < unit < 0x80:
            found += bytes([unit])
        elif unit < 0x800:
            found += bytes([0xC0 | unit >> 6, 0x80 | unit & 0x3F])
        else:
            found += bytes([0xE0 | unit >> 12, 0x80 | unit >> 6 & 0x3F, 0x80 | unit & 0x3F])
    return found


class Concatenation:
    """A call site of StringConcatFactory.makeConcatWithConstants; a fifth of them is refused, mostly."""

    def __init__(self, world):
        self.world, self.rng = world, world.rng
        self.params = world.any_params(6)
        self.ret = of_class(STRING if self.chance(0.9) else OBJECT)
        if self.chance(0.04):
            self.widen(MOST_CONCAT_SLOTS)
        self.constants = [self.constant() for _ in range(self.rng.randint(0, 2))]
        self.recipe = self.made_recipe()
        self.rest = [self.recipe_constant(), *self.constants]
        if self.chance(0.2):
            for _ in range(self.rng.randint(1, 2)):
                self.spoil()

    def chance(self, share):
        return self.rng.random() < share

    def text(self):
        """Characters without the tags, which stand for themselves."""
        return "".join(self.rng.choice(CHARACTERS) for _ in range(self.rng.randint(0, 4)))

    def constant(self):
        if self.world.constants and self.chance(0.2):
            return "dynamic", self.rng.choice(self.world.constants)
        sort = self.rng.choice(["int", "long", "text", "text"])
        if sort == "text":
            more = "x" * 4090 if self.chance(0.05) else self.rng.choice(["", ARGUMENT, CONSTANT])
            return sort, self.text() + more
        return sort, int(self.world.number("I" if sort == "int" else "J"))

    def made_recipe(self):
        tags = [ARGUMENT] * len(self.params) + [CONSTANT] * len(self.constants)
        self.rng.shuffle(tags)
        return self.text() + "".join(tag + (self.text() if self.chance(0.4) else "") for tag in tags)

    def recipe_constant(self):
        return "text", self.recipe

    def widen(self, wanted):
        """Takes just so many slots."""
        room = wanted - slots(self.params)
        more = ("J",) * (room // 2) if self.chance(0.5) else ()
        self.params += more + ("I",) * (room - slots(more))

    def spoil(self):
        """Makes one thing wrong, as far as another one does not set it right again."""
        odd = self.rng.choice(["none", "sort", "slots", "argument", "return", "constant", "class", "text"])
        if odd == "none":
            self.rest = []
        elif odd == "sort":
            self.rest[:1] = [self.rng.choice([("int", 1), ("long", 2), ("class", STRING), ("type", "()V")])]
        elif odd == "slots":
            self.widen(MOST_CONCAT_SLOTS + self.rng.randint(0, 1))
        elif odd == "return":
            self.ret = self.rng.choice(["V", "I", "[C", of_class(self.world.any_class())])
        elif odd in ("argument", "constant"):
            tag = ARGUMENT if odd == "argument" else CONSTANT
            self.recipe = self.recipe.replace(tag, "", 1) if self.chance(0.5) else self.recipe + tag
            self.rest[:1] = [self.recipe_constant()]
        elif odd == "class":
            self.rest[1:2] = [self.rng.choice([("class", self.world.any_class()), ("class", "[I"), ("type", "()V")])]
        else:
            self.rest[:1] = [("text", self.rng.choice(["\ud800", "x" * 4096, "x" * 4097]))]

    def site(self):
        type = Type(self.params, self.ret)
        return Site(CONCATENATES, self.rng.choice(["join", "makeConcatWithConstants"]), str(type), type, self.rest)


# A script of the bootstrap method that is built in, which no site runs.
UNREACHED = f"script {FACTORY} makeConcatWithConstants {JOINS}\nraise {ERROR} s:unreached\nend\n"


class ClassFile:
    """A class file with call sites (JVMS SE 17, chapter 4)."""

    def __init__(self, name, major=61):
        self.entries, self.count, self.known, self.dynamics = b"", 1, {}, {}
        self.name, self.major, self.bootstraps, self.code = name, major, [], b""

    def entry(self, bytes, size=1):
        if bytes not in self.known:
            self.known[bytes] = self.count
            self.entries, self.count = self.entries + bytes, self.count + size
        return self.known[bytes]

    def utf8(self, text):
        spelled = modified_utf8(text)
        return self.entry(b"\x01" + struct.pack(">H", len(spelled)) + spelled)

    def names(self, tag, *indexes):
        return self.entry(struct.pack(f">B{len(indexes)}H", tag, *indexes))

    def class_named(self, name):
        return self.names(7, self.utf8(name))

    def handle(self, kind, owner, name, descriptor):
        tag = 9 if kind < 5 else 11 if kind == 9 else 10
        method = self.names(tag, self.class_named(owner), self.names(12, self.utf8(name), self.utf8(descriptor)))
        return self.entry(struct.pack(">BBH", 15, kind, method))

    def constant(self, sort, *parts):
        if sort == "int":
            return self.entry(struct.pack(">Bi", 3, *parts))
        if sort == "long":
            return self.entry(struct.pack(">Bq", 5, *parts), 2)
        if sort == "float":
            return self.entry(struct.pack(">Bf", 4, *parts))
        if sort == "double":
            return self.entry(struct.pack(">Bd", 6, *parts), 2)
        if sort == "handle":
            return self.handle(*parts)
        if sort == "dynamic":
            return self.dynamic(*parts)
        return self.names({"text": 8, "class": 7, "type": 16}[sort], self.utf8(*parts))

    def bootstrap(self, handle, arguments):
        """A bootstrap method with its static arguments."""
        indexes = [self.handle(*handle), len(arguments), *(self.constant(*it) for it in arguments)]
        return struct.pack(f">{len(indexes)}H", *indexes)

    def dynamic(self, constant):
        """A dynamic constant. Its entry stands before those of its static arguments, among which it may be itself."""
        if constant not in self.dynamics:
            at = len(self.bootstraps)
            self.bootstraps.append(b"")
            self.dynamics[constant] = self.names(17, at, self.names(12, self.utf8(constant.name), self.utf8(constant.descriptor)))
            self.bootstraps[at] = self.bootstrap(constant.handle, constant.arguments)
        return self.dynamics[constant]

    def add(self, site):
        self.bootstraps.append(self.bootstrap(site.handle, site.arguments))
        call = self.names(18, len(self.bootstraps) - 1, self.names(12, self.utf8(site.name), self.utf8(site.descriptor)))
        self.code += b"\xba" + struct.pack(">HH", call, 0)

    def pad(self):
        """A switch between call sites, whose length depends on its place (JVMS SE 17, 6.5)."""
        padding = b"\x00" * ((-len(self.code) - 1) % 4)
        self.code += b"\xaa" + padding + struct.pack(">5i", 0, 1, 2, 0, 0) + b"\xc4\x84" + struct.pack(">Hh", 300, -1)

    def bytes(self):
        code = self.code + b"\xb1"
        fixed = [self.utf8(it) for it in ("run", "()V", "Code", "BootstrapMethods")]
        this, parent = self.class_named(self.name), self.class_named(OBJECT)
        method = struct.pack(">HHHH", 9, fixed[0], fixed[1], 1)
        method += struct.pack(">HIHHI", fixed[2], 12 + len(code), 2, 0, len(code)) + code + struct.pack(">HH", 0, 0)
        bootstraps = struct.pack(">H", len(self.bootstraps)) + b"".join(self.bootstraps)
        rest = struct.pack(">6H", 0x21, this, parent, 0, 0, 1) + method
        rest += struct.pack(">HHI", 1, fixed[3], len(bootstraps)) + bootstraps
        return struct.pack(">IHHH", 0xCAFEBABE, 0, self.major, self.count) + self.entries + rest


class Input:
    """One random input: the texts of its files by their names, the class files last; and how many of its calls have a byte, short or char.

    Such a call has one of these types, or an array of it, in its type or its leaf's, or such a value as an argument, boxed or not."""

    def __init__(self, seed, size=1):
        self.small_calls = 0
        self.rng = random.Random(seed)
        self.world = World(self.rng)
        scripts = [Script(self.world, f"link{number}") for number in range(size * self.rng.randint(1, 3))]
        types = [it.write() for it in scripts]
        if self.chance(0.6):
            scripts += self.make_constants(self.rng.randint(1, 6))
        # (which thread comes first shows only where a script looks at the number of the attempt)
        self.most_threads = 1 if any(it.has_serial() for it in scripts) else 3
        self.sites = [self.site(script, type) for script, type in zip(scripts, types) for _ in range(self.rng.randint(1, 2))]
        self.sites += [self.concatenation() for _ in range(self.rng.randint(0, 2 * size))]
        self.rng.shuffle(self.sites)
        for _ in range(self.rng.randint(0, 3)):
            self.world.any_leaf()
        plan = self.plan(size)
        self.files = {
            "leaves.txt": "\n".join([*self.world.lines, ""]).encode(),
            "scripts.txt": "\n".join([*(it.text() for it in scripts), *([UNREACHED] if self.chance(0.1) else [])]).encode(),
            "plan.txt": "\n".join([*plan, ""]).encode(),
            **self.class_files(),
        }

    def chance(self, share):
        return self.rng.random() < share

    def make_constants(self, count):
        """Makes dynamic constants, which may have earlier ones as static arguments, and their scripts."""
        scripts, constants = [], self.world.constants
        for number in range(count):
            descriptor = self.constant_type()
            arguments = [self.constant_argument() for _ in range(self.rng.randint(0, 2))]
            scripts.append(ConstScript(self.world, f"give{number}", descriptor, len(arguments)))
            constant = Dynamic((6, "demo/Boot", f"give{number}", OF_CONSTANT), self.rng.choice("cd"), descriptor, arguments)
            constants.append(self.faulty_constant(constant) if self.chance(0.06) else constant)
        if self.chance(0.08):
            # (often a ring, of one constant or of several)
            self.rng.choice(constants).arguments.append(("dynamic", self.rng.choice(constants)))
        if self.chance(0.05):
            self.make_chain(self.rng.randint(61, 65))
        return scripts

    def make_chain(self, length):
        """Makes constants each of which has the one before as static argument; each gives what the first one gives."""
        chain = [self.rng.choice(self.world.constants)]
        for _ in range(length):
            first = chain[0]
            chain.append(Dynamic(first.handle, "e", first.descriptor, [*first.arguments, ("dynamic", chain[-1])]))
        self.world.constants += 2 * chain[-2:]

    def constant_type(self):
        if self.chance(0.04):
            return self.rng.choice(ODD_TYPES)
        some = self.rng.choice(["I", "J", of_class(STRING), of_class(OBJECT)])
        return some if self.chance(0.6) else self.world.any_type()

    def constant_argument(self):
        """A static argument of a dynamic constant."""
        if self.chance(0.03):
            return self.wild_argument()
        if self.world.constants and self.chance(0.6):
            return "dynamic", self.rng.choice(self.world.constants)
        sort = self.rng.choice(["int", "long", "text"])
        return sort, self.world.text() if sort == "text" else int(self.world.number("I" if sort == "int" else "J"))

    def faulty_constant(self, constant):
        """A constant that names something that is not there, or that mh leaves out."""
        kind, owner, name, descriptor = constant.handle
        odd = self.rng.choice(["kind", "owner", "name", "surrogate"])
        if odd == "surrogate":
            constant.name = self.rng.choice(["\udc00", "n" * 4097])
        else:
            constant.handle = {
                "kind": (self.rng.choice([5, 7, 8, 9, 1]), owner, name, descriptor), "owner": (6, "no/Such", name, descriptor),
                "name": (6, owner, name + "x", descriptor),
            }[odd]
        return constant

    def class_files(self):
        """The sites in one or two files."""
        cut = self.rng.randint(0, len(self.sites)) if self.chance(0.3) else len(self.sites)
        files = {}
        for number, sites in enumerate((self.sites[:cut], self.sites[cut:])):
            if sites or number == 0:
                file = ClassFile(f"demo/Main{number}", self.rng.randint(*MAJORS))
                for site in sites:
                    file.add(site)
                    if self.chance(0.2):
                        file.pad()
                files[f"Main{number}.class"] = file.bytes()
        return files

    def site(self, script, type):
        arguments = [self.static_argument(sort, constant) for sort, constant in script.arguments]
        if self.world.constants and self.chance(0.3):
            arguments.insert(self.rng.choice([0, len(arguments)]), ("dynamic", self.rng.choice(self.world.constants)))
        site = Site((6, "demo/Boot", script.name, BOOTSTRAP), self.rng.choice(["f", "apply", "n\u00e9e"]), str(type), type, arguments)
        return self.faulty(site) if self.chance(0.08) else site

    def concatenation(self):
        site = Concatenation(self.world).site()
        return self.faulty(site) if self.chance(0.05) else site

    def static_argument(self, sort, constant):
        world = self.world
        if self.chance(0.02):
            return self.wild_argument()
        if sort != "value":
            return constant
        if world.constants and self.chance(0.6):
            return "dynamic", self.constant_of(constant[0])
        if constant[0] == "text":
            return "text", world.text()
        sort = self.rng.choice(["int", "long"]) if self.chance(0.05) else constant[0]
        return sort, int(world.number("I" if sort == "int" else "J"))

    def constant_of(self, sort):
        """A dynamic constant; mostly one of the type that a number or a text is boxed to, if there is one."""
        descriptors = {"int": "I", "long": "IJ", "text": of_class(STRING)}[sort]
        fitting = [it for it in self.world.constants if it.descriptor in descriptors and it.descriptor]
        return self.rng.choice(fitting if fitting and self.chance(0.9) else self.world.constants)

    def wild_argument(self):
        leaf = self.rng.choice(self.world.leaves)
        owner, name, descriptor = split_reference(leaf.reference)
        return self.rng.choice([
            ("int", 1), ("long", 2), ("text", "x"), ("text", "\ud800"), ("text", "x" * 4097), ("float", 1.5), ("double", 2.5),
            ("class", "no/Such"), ("class", "[I"), ("class", "[[I"), ("class", "[F"), ("class", "I"), ("class", "[Lno/Such;"),
            ("class", self.world.any_class()), ("type", "()V"), ("type", "(F)V"), ("type", "(Lno/Such;)V"), ("type", "([[J)I"),
            ("handle", 6, "no/Such", "f", "()V"), ("handle", 6, owner, name + "x", descriptor), ("handle", 6, owner, name, descriptor),
            ("handle", 5, owner, name, descriptor), ("handle", 7, owner, name, descriptor), ("handle", 2, owner, name, "I"),
        ])

    def faulty(self, site):
        """A site that names something that is not there, or that mh leaves out."""
        kind, owner, name, descriptor = site.handle
        odd = self.rng.choice(["kind", "owner", "class", "name", "type", "left out", "surrogate", "more"])
        if odd == "type":
            return site._replace(descriptor=f"(I{of_class('no/Such')})V", type=None)
        if odd == "left out":
            return site._replace(descriptor=self.rng.choice(["(F)V", "(I)D", "([[I)V"]), type=None)
        if odd == "surrogate":
            return site._replace(name=self.rng.choice(["\udc00", "n" * 4097]))
        if odd == "more":
            return site._replace(arguments=[self.wild_argument() for _ in range(self.rng.randint(1, 3))])
        handle = {
            "kind": (self.rng.choice([5, 7, 8, 9, 1]), owner, name, descriptor), "owner": (6, "no/Such", name, descriptor),
            "class": (6, self.world.declared[0], name, descriptor), "name": (6, owner, name + "x", descriptor),
        }[odd]
        return site._replace(handle=handle)

    # The plan.

    def plan(self, size):
        lines = []
        for _ in range(self.rng.randint(1, self.most_threads)):
            lines.append("thread")
            lines += [self.call() for _ in range(size * self.rng.randint(4, 8))]
        lines += [self.site_call(number) for number in range(len(self.sites)) if self.chance(0.8)]
        return lines

    def call(self):
        if self.chance(0.6):
            return self.site_call(self.rng.randrange(len(self.sites)))
        leaf = self.rng.choice(self.world.leaves)
        if self.chance(0.3):
            type = leaf.type if self.chance(0.85) else self.world.asked(leaf.type)
            return self.leaf_call("exact", leaf, type, self.world.arguments(type.params))
        type = self.world.asked(leaf.type)
        return self.leaf_call("generic", leaf, type, self.world.arguments(type.params, leaf.type.params))

    def leaf_call(self, way, leaf, type, arguments):
        self.count([leaf.type, type], arguments)
        return " ".join([way, f"leaf:{leaf.reference}", str(type), *arguments])

    def count(self, types, arguments):
        """Counts a call if it has a byte, short or char."""
        has_type = any(is_small(it) for type in types for it in (*type.params, type.ret))
        self.small_calls += has_type or any(map(is_small_literal, arguments))

    def site_call(self, number):
        site = self.sites[number]
        arguments = self.world.arguments(site.type.params) if site.type else []
        self.count([site.type] if site.type else [], arguments)
        return " ".join(["indy", str(number), *arguments])
