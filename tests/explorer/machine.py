"""Writes the session machine of crates/file_protocol in C, from the equations of specs/Sessions.antt.

The contracts of `Session::call`, `next` and `asked` say that these functions are `call_of`, `after_answer` and
`after_request`. So what is explored is the machine that is proved. An equation has patterns of one constructor, and a
right side of calls, constructors, `cond`, `==` and numerals; anything else is an error.
"""
import re

WORDS = re.compile(r"==|[()]|[\w.]+")


def clauses(text):
    """The equations of each definition, in their order, as (name, patterns, right side)."""
    found = {}
    for block in re.split(r"\n\s*\n", text):
        lines = [line for line in block.split("\n") if line.strip() and not line.startswith("--")]
        if not lines or not lines[0].startswith("abbrev pub"):
            continue
        name = lines[0].split()[2]
        joined = []
        for line in lines[1:]:
            if line.startswith(name + " ") or line.startswith(name + "="):
                joined.append(line)
            elif joined:
                joined[-1] += " " + line.strip()
        found[name] = [tuple(part.strip() for part in line.split(" = ", 1)) for line in joined]
    return found


def constructors(text):
    """The number of each constructor in its type, by its name in the specs."""
    numbers, counts = {}, {}
    for kind, names in re.findall(r"^use \S+\.(\w+)\.TheVariants\.\{(.*)\}$", text, re.M):
        for name in names.split(", "):
            name = name.split(" as ")[-1]
            numbers[name] = (kind, counts.setdefault(kind, 0))
            counts[kind] += 1
    return numbers


class Reader:
    """Reads a term of the specs, and returns it as an expression of C."""

    def __init__(self, text, numbers, functions, variables):
        self.words = WORDS.findall(text)
        self.numbers, self.functions, self.variables = numbers, functions, variables

    def atom(self):
        word = self.words.pop(0)
        if word == "(":
            made = self.term()
            if self.words.pop(0) != ")":
                raise ValueError("a bracket is missing")
            return made
        if word in ("true", "false"):
            return f"number({int(word == 'true')})"
        if word.isdigit():
            return f"number({word})"
        if word in self.variables:
            return self.variables[word]
        if word in self.numbers:
            return f"made({self.numbers[word][1]}, zero, zero, zero, zero)"
        raise ValueError(f"{word} is not known")

    def term(self):
        word = self.words[0]
        if word == "cond" or word in self.functions or word in self.numbers:
            self.words.pop(0)
            arguments = []
            while self.words and self.words[0] not in (")", "=="):
                arguments.append(self.atom())
            if word == "cond":
                made = "({0}.kind ? {1} : {2})".format(*arguments)
            elif word in self.functions:
                made = f"{word}({', '.join(arguments)})"
            else:
                made = f"made({self.numbers[word][1]}, {', '.join((arguments + ['zero'] * 4)[:4])})"
        else:
            made = self.atom()
        if self.words and self.words[0] == "==":
            self.words.pop(0)
            made = f"number({made}.kind == {self.atom()}.kind)"
        return made


def written(name, equations, numbers, functions):
    """A definition as a function of C."""
    count = None
    lines = []
    for left, right in equations:
        patterns = re.findall(r"\([^()]*\)|\S+", left)[1:]
        count = len(patterns)
        conditions, variables = [], {}
        for index, pattern in enumerate(patterns):
            words = pattern.strip("()").split()
            if words[0] in numbers:
                conditions.append(f"p{index}.kind == {numbers[words[0]][1]}")
                for place, word in enumerate(words[1:]):
                    variables[word] = f"number(p{index}.part[{place}])"
            elif words[0] in ("true", "false"):
                conditions.append(f"p{index}.kind == {int(words[0] == 'true')}")
            else:
                variables[words[0]] = f"p{index}"
        reader = Reader(right, numbers, functions, variables)
        made = reader.term()
        if reader.words:
            raise ValueError(f"{name}: {' '.join(reader.words)} is left")
        lines.append(f"    if ({' && '.join(conditions) or '1'}) return {made};")
    parameters = ", ".join(f"struct value p{index}" for index in range(count))
    return f"static struct value {name}({parameters}) {{\n" + "\n".join(lines) + "\n    abort();\n}\n"


def constant(name):
    word = re.sub(r"(?<!^)(?=[A-Z])", "_", name).upper()
    return "FILE_" if word == "FILE" else word


def machine(text):
    """The whole machine in C: the names of its constructors, and a function for each definition."""
    numbers, found = constructors(text), clauses(text)
    lines = [f"enum {{ {constant(name)} = {number} }};" for name, (_, number) in numbers.items()]
    states = [name for name, (kind, _) in numbers.items() if kind == "Session"]
    calls = [name for name, (kind, _) in numbers.items() if kind == "Call"]
    lines += ["static const char *const state_names[] = { " + ", ".join(f'"{name}"' for name in states) + " };"]
    lines += ["static const char *const call_names[] = { " + ", ".join(f'"{name}"' for name in calls) + " };"]
    lines += [written(name, equations, numbers, found) for name, equations in found.items()]
    return "\n".join(lines)
