"""Runs the examples in the docstrings and comments of the package: those of doctest, the program of the package, and
each call with its arguments, such as vector("queue", "i64"). It works in a folder of its own."""
import ast
import doctest
import glob
import io
import os
import re
import sys
import tempfile
import textwrap
import tokenize

import zaluxhoni

wrong = 0


def fails(where, what):
    global wrong
    wrong += 1
    print(f"docstrings.py: WRONG {where}: {what}")


def texts_in(path):
    """The docstrings and comments of a module, each with its line."""
    with open(path, encoding="utf-8") as file:
        source = file.read()
    for node in ast.walk(ast.parse(source)):
        if isinstance(node, (ast.Module, ast.ClassDef, ast.FunctionDef)) and ast.get_docstring(node):
            yield getattr(node, "lineno", 1), ast.get_docstring(node)
    for token in tokenize.generate_tokens(io.StringIO(source).readline):
        if token.type == tokenize.COMMENT:
            yield token.start[0], token.string[1:]


def calls_in(text):
    """The calls in a text that have literals as arguments, and one at least."""
    for match in re.finditer(r"(?<![\w.`])[a-z_]+\(", text):
        for end in (place.end() for place in re.finditer(r"\)", text[match.start():])):
            call = text[match.start():][:end]
            try:
                parsed = ast.parse(call, mode="eval").body
                literals = [ast.literal_eval(each) for each in parsed.args]
            except (SyntaxError, ValueError):
                continue
            if literals:
                yield parsed.func.id, call
            break


def programs_in(text):
    """The indented programs of a text, which import the package."""
    for block in re.findall(r"(?:^    .*\n|^\n)+", text + "\n", flags=re.MULTILINE):
        if "import zaluxhoni" in block and ">>>" not in block:
            yield textwrap.dedent(block)


examples = calls = programs = 0
runner, parser = doctest.DocTestRunner(), doctest.DocTestParser()
os.chdir(tempfile.mkdtemp())
for path in sorted(glob.glob(os.path.join(os.path.dirname(zaluxhoni.__file__), "*.py"))):
    for line, text in texts_in(path):
        where = f"{os.path.basename(path)}, line {line}"
        test = parser.get_doctest(text, {}, where, path, line)
        examples += len(test.examples)
        wrong += runner.run(test).failed
        with zaluxhoni.create(65536) as segment:
            for name, call in [] if test.examples else calls_in(text):
                calls += 1
                of = zaluxhoni if name in ("unique", "handle") else segment
                try:
                    eval(call, {"__builtins__": {}, name: getattr(of, name)})
                except Exception as error:
                    fails(where, f"{call}: {type(error).__name__}: {error}")
        for program in programs_in(text):
            programs += 1
            exec(program, {})
            with zaluxhoni.open("shop.seg", "r") as shop:
                if len(shop) == 0:
                    fails(where, "the program saved nothing")
if examples < 3 or calls < 12 or programs < 1:
    fails("the package", "examples are missed")
print(f"docstrings.py: {examples} examples, {calls} calls, {programs} programs, {wrong} wrong")
sys.exit(wrong != 0)
