"""Makes programs, inputs and consoles from a random generator, for `.ci/fuzz`.

A program is made from tables of templates: a hole such as `{int}` is filled by an expression of that type, `{int:var}` by a variable
of it, and `{block}` by statements. Each body is done only while `fuel` is left, so that a run ends within some thousand steps.
Most programs come to their end, and some meet a fault. What stands inside of a construct is indented deeper than its first and its
last line, and each statement has lines of its own, so that a failing program is made small by leaving out lines.
"""

DECLARATIONS = """\
const most = 9; mark = 'm';
type
  colour = (red, green, blue);
  small = 1..9;
  row = array [1..5] of integer;
  table = array [colour, 1..2] of integer;
  letters = packed array [1..4] of char;
  signs = array [0..5] of char;
  bag = set of 0..20;
  hues = set of colour;
  link = ^node;
  node =
    record
      key: integer;
      seen: bag;
      next: link
    end;
  shape =
    record
      title: char;
      case kind: colour of
        red: (width, height: integer);
        green: (side: small; word: letters);
        blue: (inner: record depth: integer; tint: hues end)
    end;
  loose = record case Boolean of false: (whole: integer); true: (sign: char; shade: colour) end;
"""

# What a type is called in the tables, and in the program.
TYPES = {
    "int": "integer", "bool": "Boolean", "char": "char", "colour": "colour", "small": "small", "row": "row", "table": "table",
    "letters": "letters", "signs": "signs", "bag": "bag", "hues": "hues", "link": "link", "shape": "shape", "loose": "loose",
}  # fmt: skip
RESULTS = ("int", "bool", "char", "colour", "link")

# The schemas of conformant parameters, with holes for their bounds, and what can be given for them: a variable, a row of one, and by
# value a string too. The names of a section are given what is of one line here.
SCHEMAS = {
    "ints": "array [{low}..{high}: integer] of integer",
    "grid": "array [{low}..{high}: colour; {least}..{most}: integer] of integer",
    "chars": "array [{low}..{high}: integer] of char",
    "text": "packed array [{low}..{high}: integer] of char",
}  # fmt: skip
GIVEN = {
    "ints": ["{row:var}", "{row:var}", "{table:var}[{colour}]", "{grid:var}[{colour}]", "{ints:var}"],
    "grid": ["{table:var}", "{table:var}", "{grid:var}"],
    "chars": ["{signs:var}", "{signs:var}", "{chars:var}"],
    "text": ["{letters:var}", "{letters:var}", "{text:var}"],
}  # fmt: skip
STRINGS = ["'no'", "'word'", "'longer'"]

# The expressions of each type: those that end it, and those with further expressions in them.
LEAVES = {
    "int": [
        "0", "1", "2", "7", "most", "{int:var}", "{int:var}", "{int:counter}", "{small:var}", "{row:var}[{index}]",
        "{ints:low}", "{ints:high}", "{ints:item}", "{grid:item}", "{grid:most}", "{text:high}",
    ],
    "bool": ["true", "false", "{bool:var}", "eof", "odd({int:var})"],
    "char": ["'a'", "'z'", "' '", "''''", "mark", "{char:var}", "{char:var}", "{letters:var}[2]", "{signs:var}[0]", "{chars:item}", "{text:item}"],
    "colour": ["red", "green", "blue", "{colour:var}", "{grid:low}", "{grid:high}"],
    "small": ["1", "5", "9", "{small:var}"],
    "letters": ["'abcd'", "'a''b '", "{letters:var}"],
    "bag": ["[]", "[1, 3..5]", "[most]", "{bag:var}"],
    "hues": ["[]", "[red]", "[green..blue]", "{hues:var}"],
    "link": ["nil", "{link:var}", "{link:var}"],
    "row": ["{row:var}"], "table": ["{table:var}"], "signs": ["{signs:var}"], "shape": ["{shape:var}"], "loose": ["{loose:var}"],
}  # fmt: skip
BRANCHES = {
    "int": [
        "({int}) + ({int})", "({int}) - ({int})", "({int}) * 3", "({int}) div 4", "({int}) mod 6", "(-({int}))", "abs({int})",
        "sqr(({int}) mod 10)", "ord({char})", "ord({colour})", "ord({bool})", "succ({int})", "{table:var}[{colour}, 1]", "{int:call}", "{int:call}",
    ],
    "bool": [
        "({int}) < ({int})", "({int}) = ({int})", "({char}) <> ({char})", "({colour}) >= ({colour})", "({bool}) and ({bool})",
        "({bool}) or ({bool})", "not ({bool})", "({int}) mod 9 in ({bag})", "({colour}) in ({hues})", "({bag}) <= ({bag})",
        "({hues}) = ({hues})", "({letters}) < ({letters})", "({link}) = ({link})", "({link:var}) <> nil", "odd({int})", "{bool:call}",
    ],
    "char": ["chr(32 + abs({int}) mod 90)", "{letters:var}[{corner}]", "{signs:var}[{corner}]", "{char:call}"],
    "colour": ["{colour:call}", "{colour:call}", "succ(pred(blue))", "{colour:var}", "{colour:var}", "succ({colour})"],
    "small": ["1 + abs({int}) mod 9"],
    "letters": ["{letters:var}"],
    "bag": ["({bag}) + ({bag})", "({bag}) - ({bag})", "({bag}) * ({bag})", "[abs({int}) mod 21]", "[2..{small}]"],
    "hues": ["({hues}) + ({hues})", "({hues}) - [{colour}]", "({hues}) * ({hues})"],
    "link": ["{link:call}"],
}  # fmt: skip

# The statements, each with how often it is taken. A line is a line of the program.
STATEMENTS = [
    (8, "{int:target} := {int};"),
    (2, "{bool:target} := {bool};"),
    (3, "{char:target} := {char};"),
    (2, "{colour:target} := {colour};"),
    (2, "{small:target} := {small};"),
    (2, "{bag:target} := {bag};"),
    (2, "{hues:target} := {hues};"),
    (2, "{letters:target} := {letters};"),
    (1, "{row:target} := {row};"),
    (1, "{table:target} := {table};"),
    (1, "{shape:target} := {shape};"),
    (1, "{link:target} := {link};"),
    (3, "{row:target}[{index}] := {int};"),
    (2, "{table:target}[{colour}, 2] := {int};"),
    (1, "{letters:target}[{corner}] := {char};"),
    (4, "{ints:item} := {int};"),
    (3, "{grid:item} := {int};"),
    (3, "{chars:item} := {char};"),
    (3, "{text:item} := {char};"),
    (1, "{ints:same}[{int}] := {int};"),
    (1, "write({grid:item}, ' ', {text:item});"),
    (1, "if {ints:low} = 1 then\n{more}{ints:item} := {ints:high};\n{less}"),
    (2, "{section}"),
    (1, "{signs:target}[{corner}] := {char};"),
    (2, "pack({signs:var}, {corner} mod 3, {letters:target});"),
    (2, "unpack({letters:var}, {signs:target}, {corner} mod 3);"),
    (3, "{shape:target}.kind := {colour};"),
    (2, "if {shape:same}.kind = red then\n{more}{shape:same}.width := {int};\n{less}"),
    (2, "with {shape:target} do\nbegin\n{more}kind := blue;\ninner.depth := {int};\ninner.tint := {hues};\n{less}end;"),
    (1, "with {shape:target}, {loose:target} do\nbegin\n{more}title := {char};\nwhole := {int};\nkind := green;\nside := {small};\n{less}end;"),
    (1, "{loose:target}.sign := {char};"),
    (2, "new({link:same});\n{link:same}^.key := {int};\n{link:same}^.seen := {bag};\n{link:same}^.next := {link:var};"),
    (3, "if {link:same} <> nil then\nwith {link:same}^ do\nbegin\n{more}key := key + {int};\nnext := nil;\n{less}end;"),
    (2, "if {link:same} <> nil then\nbegin\n{more}{int:target} := {link:same}^.key;\n{link:target} := {link:same}^.next;\n{less}end;"),
    (1, "if {link:same} <> nil then\nbegin\n{more}dispose({link:same});\n{link:same} := nil;\n{less}end;"),
    (2, "write({int}, ' ', {char});"),
    (1, "writeln('so: ', {bool}: 6, {letters});"),
    (1, "writeln(output, {int}: 5);"),
    (1, "page;"),
    (2, "if not eof then\n{more}read({char:target});\n{less}"),
    (1, "if not eof then\n{more}readln;\n{less}"),
    (1, "if not eof then\n{more}read(input, {int:target});\n{less}"),
    (1, "if not eof then\n{more}{bool:target} := eoln;\n{less}"),
    (4, "if {bool} then\nbegin\n{block}end;"),
    (3, "if {bool} then\nbegin\n{block}end\nelse\nbegin\n{block}end;"),
    (2, "case {colour} of\n{more}red, blue:\nbegin\n{block}end;\ngreen:\nbegin\n{block}end\n{less}end;"),
    (1, "case abs({int}) mod 4 of\n{more}0, 2:\nbegin\n{block}end;\n1, 3:\nbegin\n{block}end;\n{less}end;"),
    (2, "while (fuel > 0) and ({bool}) do\nbegin\n{more}fuel := fuel - 1;\n{less}{block}end;"),
    (1, "repeat\n{more}fuel := fuel - 1;\n{less}{block}until (fuel <= 0) or ({bool});"),
    (1, "begin\n{block}end;"),
    (3, "{for}"),
    (12, "{call}"),
    (5, "{goto}"),
]  # fmt: skip

# What a variable holds at first; a few are left without a value.
FIRST = {
    "int": "{v} := 3;", "bool": "{v} := false;", "char": "{v} := 'q';", "colour": "{v} := green;", "small": "{v} := 4;", "bag": "{v} := [2, 7];",
    "hues": "{v} := [red];", "letters": "{v} := 'wxyz';", "link": "{v} := nil;", "loose": "{v}.whole := 8;",
    "row": "for i := 1 to 5 do\n  {v}[i] := i * i;", "signs": "for i := 0 to 5 do\n  {v}[i] := chr(97 + i);",
    "table": "for i := 1 to 2 do\nbegin\n  {v}[red, i] := i;\n  {v}[green, i] := 0;\n  {v}[blue, i] := -i\nend;",
    "shape": "{v}.title := 't';\n{v}.kind := red;\n{v}.width := 2;\n{v}.height := 5;",
}  # fmt: skip

DEEPEST = 3  # statements inside of one another; routines too


class Routine:
    """A routine: its name, its parameters as (way, name, type), where way is `value`, `var` or `routine`, and its result or None."""

    def __init__(self, name, parameters=(), result=None):
        self.name, self.parameters, self.result = name, list(parameters), result

    def heading(self):
        listed = "; ".join(formal_text(*it) for it in self.parameters)
        word, end = ("function", f": {TYPES[self.result]}") if self.result else ("procedure", "")
        return f"{word} {self.name}{f'({listed})' if listed else ''}{end}"

    def signature(self):
        return [(way, kind) for way, _, kind in self.parameters], self.result


def formal_text(way, name, kind):
    if way == "routine":
        return Routine(name, kind.parameters, kind.result).heading()
    return f"{'var ' if way == 'var' else ''}{name}: {SCHEMAS[kind].format(**bounds_of(name)) if kind in SCHEMAS else TYPES[kind]}"


def bounds_of(name):
    """The names of the bounds of a section, by its first name."""
    first = name.split(",")[0]
    return {it: first + it for it in ("low", "high", "least", "most")}


# The forms that routine parameters have.
ACT = Routine("act", [("value", "n", "int")])
MAP = Routine("map", [("value", "n", "int")], "int")
ADD = Routine("add", [("var", "n", "ints")], "int")
SAY = Routine("say", [("value", "n", "text")])


class Scope:
    """What a block declares: its variables as (name, type), the counters of its for statements, its routines and its labels."""

    def __init__(self):
        self.variables, self.counters, self.routines, self.labels = [], [], [], []
        self.counting, self.sections = [], []


class Maker:
    """Makes one program."""

    def __init__(self, random):
        self.random = random
        self.scopes = []
        self.lines = []
        self.indent = 0
        self.count = 0
        self.same = {}
        self.bounds = {}  # of each conformant parameter

    # ---- text

    def put(self, text):
        for line in text.split("\n"):
            self.lines.append("  " * self.indent + line if line else "")

    def fresh(self, letter):
        self.count += 1
        return f"{letter}{self.count}"

    def chance(self, share):
        return self.random.random() < share

    # ---- variables and expressions

    def variables(self, kind):
        return [name for scope in self.scopes for name, it in scope.variables if it == kind]

    def variable(self, kind):
        """A variable of this type; the program has one of each."""
        return self.random.choice(self.variables(kind))

    def counter(self):
        """A counter that is counting, or a number."""
        counting = self.scopes[-1].counting
        return self.random.choice(counting) if counting else str(self.random.randint(1, 5))

    def index(self, depth):
        """Mostly within 1..5."""
        if self.chance(0.02):
            return "6"
        return self.random.choice([str(self.random.randint(1, 5)), f"1 + abs({self.expression('int', depth)}) mod 5"])

    def expression(self, kind, depth):
        is_leaf = depth <= 0 or kind not in BRANCHES or self.chance(0.4)
        return self.filled(self.random.choice(self.fillable((LEAVES if is_leaf else BRANCHES)[kind])), depth - 1)

    def fillable(self, templates):
        """Those without a conformant parameter of a kind of which none is there."""
        missing = [f"{{{kind}:" for kind in SCHEMAS if not self.variables(kind)]
        return [it for it in templates if not any(front in it for front in missing)]

    def item(self, name, depth):
        """A component of a conformant parameter, mostly within its bounds."""
        bounds = self.bounds[name]
        places = [bounds["low"], bounds["high"]]
        if self.kind_of(name) == "grid":
            return f"{name}[{self.random.choice([*places, self.expression('colour', 0)])}, {self.random.choice([bounds['least'], bounds['most']])}]"
        within = f"{places[0]} + abs({self.expression('int', depth - 1)}) mod ({places[1]} - {places[0]} + 1)"
        return f"{name}[{self.random.choice([*places, within, within, '1'])}]"

    def kind_of(self, name):
        return next(kind for scope in self.scopes for it, kind in scope.variables if it == name)

    def filled(self, template, depth):
        """The template with its holes filled, for an expression or one line."""
        parts = template.replace("}", "{").split("{")
        return "".join(self.hole(it, depth) if at % 2 else it for at, it in enumerate(parts))

    def hole(self, name, depth):
        kind, _, way = name.partition(":")
        if kind == "index":
            return self.index(depth)
        if kind == "corner":
            return str(self.random.randint(1, 4))
        if way == "counter":
            return self.counter()
        if way == "call":
            return self.function_call(kind, depth)
        if way == "same":
            return self.same.setdefault(kind, self.variable(kind))
        if way == "item":
            return self.item(self.variable(kind), depth)
        if kind in SCHEMAS and way in ("low", "high", "least", "most"):
            return self.bounds[self.variable(kind)][way]
        return self.variable(kind) if way else self.expression(kind, depth)

    # ---- calls

    def routines(self, result):
        """Those with this result that can be called here."""
        known = [it for scope in self.scopes for it in scope.routines]
        return [it for it in known if it.result == result and all(self.can_be_given(*formal) for formal in it.parameters)]

    def fitting(self, formal):
        """The routines that can be given for this one."""
        known = [it for scope in self.scopes for it in scope.routines]
        return [it.name for it in known if it.signature() == formal.signature()]

    def can_be_given(self, way, _, kind):
        return way != "routine" or bool(self.fitting(kind))

    def call(self, routine, depth):
        given = [", ".join(self.actuals(*it, depth)) for it in routine.parameters]
        return routine.name + (f"({', '.join(given)})" if given else "")

    def actuals(self, way, name, kind, depth):
        """What is given for the names of one section, which are several only where it is conformant."""
        if kind not in SCHEMAS or way == "routine":
            return [self.actual(way, name, kind, depth)]
        template = self.random.choice(self.fillable(GIVEN[kind]))
        if way == "value" and kind == "text" and self.chance(0.4):
            template = self.random.choice(STRINGS)
        if not template.startswith(("{row", "{table", "{signs", "{letters")):
            template = self.filled(template, 0)  # one and the same for all names
        return [self.filled(template, 0) for _ in name.split(", ")]

    def actual(self, way, _, kind, depth):
        if way == "routine":
            return self.random.choice(self.fitting(kind))
        return self.variable(kind) if way == "var" else self.expression(kind, depth)

    def function_call(self, kind, depth):
        known = self.routines(kind)
        return self.call(self.random.choice(known), depth) if known else self.expression(kind, 0)

    # ---- statements

    def statement(self, depth):
        templates = self.fillable([it for _, it in STATEMENTS])
        weights = [weight for weight, it in STATEMENTS if it in templates]
        template = self.random.choices(templates, weights)[0]
        if depth <= 0 and ("{block}" in template or template == "{for}"):
            template = "{int:target} := {int};"
        self.same = {}
        self.write(template, depth)

    def write(self, template, depth):
        for line in template.split("\n"):
            self.write_line(line, depth)

    def write_line(self, line, depth):
        """A line of a template: holes at its front move the margin or stand for lines."""
        if line.startswith("{more}"):
            self.indent += 1
            line = line.removeprefix("{more}")
        elif line.startswith("{less}"):
            self.indent -= 1
            line = line.removeprefix("{less}")
        if line.startswith("{block}"):
            self.block_of_statements(self.random.randint(1, 3), depth - 1)
            line = line.removeprefix("{block}")
        if line in SPECIAL:
            SPECIAL[line](self, depth)
        elif line:
            self.put(self.filled(line, 2))

    def block_of_statements(self, count, depth):
        kept = self.same
        self.indent += 1
        for _ in range(count):
            self.statement(depth)
        self.indent -= 1
        self.same = kept

    def for_statement(self, depth):
        scope = self.scopes[-1]
        free = [it for it in scope.counters if it not in scope.counting]
        if not free:
            return
        counter = free[0]
        bounds = self.random.choice(["1 to 3", "2 to 5", "4 downto 1", "5 to 4"])
        self.put(f"for {counter} := {bounds} do")
        self.put("begin")
        scope.counting.append(counter)
        self.block_of_statements(self.random.randint(1, 2), depth - 1)
        scope.counting.pop()
        self.put("end;")

    def call_statement(self, depth):
        known = self.routines(None)
        if known:
            self.put(f"{self.call(self.random.choice(known), 2)};")

    def section_statement(self, depth):
        """Whole arrays, or rows, of one section; or a loop over all of an array."""
        pairs = [it for scope in self.scopes for it in scope.sections if len(it) == 2]
        if pairs and self.chance(0.7):
            to, of = self.random.sample(self.random.choice(pairs), 2)
            bounds = self.bounds[to]
            is_row = self.kind_of(to) == "grid" and self.chance(0.5)
            self.put(f"{to}[{bounds['low']}] := {of}[{bounds['high']}];" if is_row else f"{to} := {of};")
        elif self.variables("ints") and self.scopes[-1].counters:
            self.all_of(self.variable("ints"), depth)

    def all_of(self, name, depth):
        scope = self.scopes[-1]
        free = [it for it in scope.counters if it not in scope.counting]
        if free:
            bounds = self.bounds[name]
            self.put(f"for {free[0]} := {bounds['low']} to {bounds['high']} do")
            scope.counting.append(free[0])
            self.put(f"  {name}[{free[0]}] := {self.expression('int', 1)};")
            scope.counting.pop()

    def goto_statement(self, depth):
        labels = [label for scope in self.scopes for label in scope.labels]
        if labels:
            self.put("if fuel > 0 then\nbegin")
            self.put(f"  fuel := fuel - 1;\n  goto {self.random.choice(labels)}\nend;")

    # ---- blocks

    def declare(self, kinds, letter):
        """The variables of a block, a line each."""
        scope = self.scopes[-1]
        declared = [(self.fresh(letter), kind) for kind in kinds]
        scope.variables += declared
        for name, kind in declared:
            self.put(f"  {name}: {TYPES[kind]};")
        return declared

    def first_values(self, declared):
        for name, kind in declared:
            if not self.chance(0.01):
                self.put(FIRST[kind].replace("{v}", name))

    def body(self, routine, declared, count):
        """The statement part: first values, the work while fuel is left, and the result."""
        self.put("begin")
        self.indent += 1
        self.first_values(declared)
        labels = self.scopes[-1].labels
        front = f"{labels[0]}: " if labels else ""
        self.put(f"{front}if fuel > 0 then\nbegin\n  fuel := fuel - 1;")
        self.indent += 1
        for _ in range(2 if self.chance(0.5) else 0 if routine else 4):
            self.call_statement(2)
        self.indent -= 1
        self.block_of_statements(count, DEEPEST)
        self.put("end;")
        for label in labels[1:]:
            self.put(f"{label}: fuel := fuel - 1;")
        if routine and routine.result:
            # No call here: this is done even where no fuel is left.
            self.put(f"{routine.name} := {self.expression(routine.result, 0)};")
        self.indent -= 1
        self.put("end")

    def routine(self, level, routine=None):
        """A routine with all that stands in it. Its own name can be called in its body."""
        routine = routine or self.new_routine()
        self.scopes[-1].routines.append(routine)
        self.put(f"{routine.heading()};")
        self.block(level, routine)
        self.lines[-1] += ";"

    def new_routine(self):
        result = self.random.choice([None, None, None, *RESULTS])
        parameters = [self.new_parameter() for _ in range(self.random.choice([0, 1, 1, 2, 3]))]
        return Routine(self.fresh("f" if result else "p"), parameters, result)

    def new_parameter(self):
        way = self.random.choice(["value", "value", "var", "var", "routine"])
        if way == "routine":
            return way, self.fresh("r"), self.random.choice([ACT, MAP, ADD, SAY])
        if self.chance(0.4):
            return way, ", ".join(self.fresh("c") for _ in range(self.random.choice([1, 1, 2]))), self.random.choice(list(SCHEMAS))
        return way, self.fresh("a"), self.random.choice(list(TYPES))

    def block(self, level, routine):
        """A routine's block: its parameters are among its variables."""
        scope = Scope()
        self.scopes.append(scope)
        for way, name, kind in routine.parameters:
            if way == "routine":
                scope.routines.append(Routine(name, kind.parameters, kind.result))
            else:
                names = name.split(", ")
                scope.variables += [(it, kind) for it in names]
                if kind in SCHEMAS:
                    scope.sections.append(names)
                    self.bounds.update((it, bounds_of(name)) for it in names)
        self.declare_labels(level)
        self.put("var")
        self.put("  i, j: integer;")
        scope.counters = ["i", "j"]
        declared = self.declare(self.random.choices(list(TYPES), k=self.random.randint(0, 2)), "v")
        self.inner_routines(level)
        self.body(routine, declared, self.random.randint(1, 4))
        self.scopes.pop()

    def declare_labels(self, level):
        if self.chance(0.7):
            self.scopes[-1].labels = [str(10 * level + 1), str(10 * level + 2)]
            self.put(f"label {', '.join(self.scopes[-1].labels)};")

    def inner_routines(self, level):
        if level < DEEPEST and self.chance(0.3):
            self.indent += 1
            for _ in range(self.random.randint(1, 2)):
                self.routine(level + 1)
            self.indent -= 1

    def program(self):
        self.scopes = [Scope()]
        self.put("program made(input, output);")
        self.declare_labels(0)
        self.lines += DECLARATIONS.splitlines()
        self.put("var\n  fuel, i, j: integer;")
        self.scopes[-1].counters = ["i", "j"]
        declared = self.declare(list(TYPES), "g")
        is_late = self.chance(0.4)
        late = Routine("late", [("value", "n", "int"), ("var", "back", "int")])
        if is_late:
            self.scopes[-1].routines.append(late)
            self.put(f"{late.heading()};\nforward;")
        self.routine(1, Routine("step", ACT.parameters))
        self.routine(1, Routine("twice", MAP.parameters, "int"))
        self.routine(1, Routine("sum", ADD.parameters, "int"))
        self.routine(1, Routine("tell", SAY.parameters))
        for _ in range(self.random.randint(1, 5)):
            self.routine(1)
        if is_late:
            self.put("procedure late;")
            self.block(1, late)
            self.lines[-1] += ";"
        self.main(declared)
        return "\n".join(self.lines) + ".\n"

    def main(self, declared):
        at = len(self.lines)
        self.body(None, declared, self.random.randint(4, 9))
        fuel = self.random.choice([5, 10, 20, 40, 80])
        self.lines[at] += f"\n  fuel := {fuel};"


SPECIAL = {
    "{for}": Maker.for_statement, "{call}": Maker.call_statement, "{goto}": Maker.goto_statement, "{section}": Maker.section_statement,
}  # fmt: skip


def program(random):
    """The text of a program that breaks no rule."""
    return Maker(random).program()


def program_input(random):
    """Lines with words and numbers, or nothing."""
    pieces = ["12", "-3", " 7 ", "abc", "x", "\t4", "+5", "", "2147483648", "\xe9", "\r"]
    lines = ["".join(random.choices(pieces, k=random.randint(0, 4))) for _ in range(random.randint(0, 5))]
    return random.choice(["\n", "\r\n"]).join(lines) + random.choice(["", "\n"])
