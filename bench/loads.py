"""Defines the loads: each generator writes a load of some size into a folder, and returns how many items or bytes the load has."""
import collections.abc
import functools
import itertools
import os
import typing

# A generator: a load of this size, or of this kind, is written into the folder.
Maker = collections.abc.Callable[[str, typing.Any], int]


def write(folder: str, path: str, text: str) -> int:
    """Writes a file below the folder, and gives its length."""
    whole = os.path.join(folder, path)
    os.makedirs(os.path.dirname(whole), exist_ok=True)
    with open(whole, "w", encoding="utf-8") as file:
        return file.write(text)


# Definition files of about so many bytes, each as the file 'source.build'.


def repeated(text: str) -> Maker:
    """Returns a generator of definition files with this text again and again."""
    return lambda folder, size: write(folder, "source.build", text * (size // len(text)))


statements = repeated("x = 1\n")
sums = repeated("x = 1" + " + 1" * 200_000 + "\n")
lists = repeated("x = [" + "'item', " * 60_000 + "]\n")
chains = repeated("if a == 1\n  x = 1\n" + "elif a == 2\n  x = 2\n" * 20_000 + "endif\n")
dense_statements = repeated("x=1\n")
dense_lists = repeated("x=[" + "1," * 60_000 + "]\n")

# A template of about so many bytes in lines of 100, with two names between '@' a line, one for each 50 bytes, as the file 't.in'.

NAMES = {f"NAME_{i}": f"value-{i}" for i in range(10)}


def template(folder: str, size: int) -> int:
    names, lines = size // 50, []
    for i in range(size // 100):
        text = f"#define SETTING_{i:07} "
        while names > 0 and text.count("@") < 4:
            text += f'"@NAME_{names % 10}@" '
            names -= 1
        lines.append(text.ljust(99, ".") + "\n")
    return write(folder, "t.in", "".join(lines))


def configured(folder: str, size: int) -> int:
    """Writes a project whose `configure_file` writes that template, each of its names from a dictionary."""
    entries = ", ".join(f"'{name}': '{value}'" for name, value in NAMES.items())
    write(folder, "meson.build", f"project('p','c')\nconfigure_file(input: 't.in', output: 't.out', configuration: {{{entries}}})\n")
    return template(folder, size)


def headers(folder: str, count: int) -> int:
    """Writes a project with so many headers by `configure_file`, each of a template of 20 lines; its option `value` is in all of them."""
    write(folder, "meson.options", "option('value', type: 'string')\n")
    write(folder, "h.in", "".join(f'#define SETTING_{i} "@value@"\n' for i in range(20)))
    lines = ["project('p','c')", "c = configuration_data({'value': get_option('value')})", f"foreach i : range({count})"]
    lines += ["  configure_file(input: 'h.in', output: f'h@i@.h', configuration: c)", "endforeach"]
    write(folder, "meson.build", "\n".join(lines) + "\n")
    return count


# Projects of a whole run, with so many items.


def assignments(folder: str, count: int) -> int:
    """Writes the smallest project, with so many assignments between its two calls."""
    write(folder, "main.c", "int main(void) { return 0; }\n")
    write(folder, "meson.build", f"project('p','c')\n{assigned(count)}executable('prog','main.c')\n")
    return count


def assigned(count: int) -> str:
    return "".join(f"name_{i % 1000} = 'text {i}'\n" for i in range(count))


# A loop walks at most so many numbers, so a greater one is repeated.
MOST_WALKED = 60_000


def walks(count: int) -> list[int]:
    """Returns how many each of the loops walks that together have so many rounds."""
    times, left = divmod(count, MOST_WALKED)
    return [MOST_WALKED] * times + [left] * (left > 0)


def looped(count: int, body: str) -> str:
    return "".join(f"foreach i : range({walked})\n{body}endforeach\n" for walked in walks(count))


WORDS = ", ".join(f"'word{i}'" for i in range(10))
TABLE = ", ".join(f"'word{i}': {i}" for i in range(0, 20, 2))
ROUNDS_BEGIN = f"words = [{WORDS}]\ntable = {{{TABLE}}}\ne = ''\nn = 0\n"

OPERATIONS = """\
  a = words[i % 10]
  b = '@0@-@1@'.format(i, a)
  c = 'x,y,z'.split(',')
  d = table.has_key(a)
  if i == 0
    e = 'first'
  elif i % 2 == 0
    e = 'even'
  endif
  g = 'one two'.replace('two', a)
  n += 1
  h = f'file_@i@.c'
  k = 'folder' / h
  m = i < 100 and d
"""

OPERATIONS_A_ROUND = 10


def rounds(folder: str, count: int) -> int:
    """Writes rounds of a loop with ten operations each; one item is an operation."""
    write(folder, "meson.build", f"project('p','c')\n{ROUNDS_BEGIN}{looped(count, OPERATIONS)}")
    return count * OPERATIONS_A_ROUND


ADDITIONS_BEGIN = "n = 0\n"
ADDITION = "  n = n + i * 2 - 1\n"


def additions(folder: str, count: int) -> int:
    """Writes rounds of a loop with one sum each."""
    write(folder, "meson.build", f"project('p','c')\n{ADDITIONS_BEGIN}{looped(count, ADDITION)}")
    return count


def growing(begin: str, step: str) -> Maker:
    """Returns a generator of loops that put something more to a value in each round."""

    def make(folder: str, count: int) -> int:
        body = f"  x += {step}\n"
        write(folder, "meson.build", f"project('p','c')\nx = {begin}\n{looped(count, body)}")
        return count

    return make


growing_list = growing("[]", "'item'")
growing_text = growing("''", "'.'")
growing_dictionary = growing("{}", "{f'key_@i@': i}")
growing_table = growing("{}", "{'k' + i.to_string(): i}")


def bare_names(folder: str, size: int) -> int:
    """Writes about so many bytes of a variable's name, alone on each line."""
    begin = "project('p','c')\na = 1\n"
    return write(folder, "meson.build", begin + "a\n" * ((size - len(begin)) // 2))


def entered(statements: str, *sources: str) -> Maker:
    """Returns a generator of so many folders, each entered once, with these statements, in which {0} is its number; the root is one of
    them."""

    def make(folder: str, count: int) -> int:
        write(folder, "meson.build", "project('p','c')\n" + "".join(f"subdir('d{i}')\n" for i in range(count - 1)))
        for i in range(count - 1):
            write(folder, f"d{i}/meson.build", statements.format(i))
            for name in sources:
                write(folder, f"d{i}/{name}", "")
        return count

    return make


folders = entered("name_{0} = 'text'\n")
folders_of_programs = entered("name_{0} = 'text'\nexecutable('p{0}', 'm.c', c_args: '-DNAME=' + name_{0})\n", "m.c")


# Projects of many targets.

SOURCES_A_PROGRAM = 10
SOURCES_A_FOLDER = 200


def sources_and_programs(folder: str, count: int, keywords: str = "") -> str:
    """Returns so many sources, and the lines of their programs, ten sources for each, with these keywords, in which {0} is a program's
    number."""
    for i in range(count):
        write(folder, f"s{i}.c", "")
    named = [f"'s{i}.c'" for i in range(count)]
    line = "executable('p{0}', {1}" + keywords + ")\n"
    return "".join(line.format(i, ", ".join(named[i : i + SOURCES_A_PROGRAM])) for i in range(0, count, SOURCES_A_PROGRAM))


def programs(folder: str, count: int) -> int:
    """Writes so many sources, ten for each program."""
    write(folder, "meson.build", "project('p','c')\n" + sources_and_programs(folder, count))
    return count


def programs_in_folders(folder: str, count: int, begin: str = "", keywords: str = "") -> int:
    """Writes so many sources, ten for each program and twenty programs in each folder; with something at the beginning, and keywords
    for each."""
    numbers = range(count // SOURCES_A_FOLDER)
    write(folder, "meson.build", f"project('p','c')\n{begin}" + "".join(f"subdir('d{i}')\n" for i in numbers))
    for i in numbers:
        inner = os.path.join(folder, f"d{i}")
        write(inner, "meson.build", sources_and_programs(inner, SOURCES_A_FOLDER, keywords))
    return count


def programs_with_arguments(folder: str, count: int) -> int:
    """Writes the same, with a folder of headers and two arguments of the compiler for each program."""
    os.mkdir(os.path.join(folder, "include"))
    begin = "headers = include_directories('include')\n"
    return programs_in_folders(folder, count, begin, """, include_directories: headers, c_args: ['-DNUMBER={0}', '-DNAME="x"']""")


def one_program(folder: str, count: int) -> int:
    """Writes one program of so many sources."""
    for i in range(count):
        write(folder, f"s{i}.c", "")
    write(folder, "meson.build", "project('p','c')\nexecutable('p',\n" + "".join(f"  's{i}.c',\n" for i in range(count)) + ")\n")
    return count


def chain(folder: str, count: int) -> int:
    """Writes so many static libraries, each over the one before, and a program over the last."""
    write(folder, "x.c", "")
    lines = "".join(f"l = static_library('l{i}', 'x.c', link_with: l)\n" for i in range(count))
    write(folder, "meson.build", f"project('p','c')\nl = []\n{lines}executable('p', 'x.c', link_with: l)\n")
    return count


def ladder(folder: str, count: int) -> int:
    """Writes so many static libraries, each over the two before, and a program over the last two."""
    write(folder, "x.c", "")
    step = "a = b\nb = c\n"
    lines = "".join(f"c = static_library('l{i}', 'x.c', link_with: [a, b])\n{step}" for i in range(count))
    write(folder, "meson.build", f"project('p','c')\na = []\nb = []\n{lines}executable('p', 'x.c', link_with: [a, b])\n")
    return count


def custom_targets(folder: str, count: int) -> int:
    """Writes so many custom targets, each with an input of its own, and with the output of the one before in its command."""
    line = "g = custom_target('g{0}', input: 'g{0}.in', output: 'g{0}.out', command: ['gen', '@INPUT@', '@OUTPUT@', g])\n"
    for i in range(count):
        write(folder, f"g{i}.in", "")
    write(folder, "meson.build", "project('p','c')\ng = []\n" + "".join(line.format(i) for i in range(count)))
    return count


def one_input(folder: str, count: int) -> int:
    """Writes so many custom targets of one file of the tree, but each tenth of the one before."""
    words = "command: ['cp', '@INPUT@', '@OUTPUT@'], build_by_default: true"
    line = f"c{{0}} = custom_target('c{{0}}', input: {{1}}, output: 'out{{0}}.txt', {words})\n"
    write(folder, "in.txt", "")
    inputs = (f"c{i - 1}" if i and i % 10 == 0 else "'in.txt'" for i in range(count))
    write(folder, "meson.build", "project('p','c')\n" + "".join(line.format(i, given) for i, given in enumerate(inputs)))
    return count


# Keys of 32 characters: plain ones, and ones that collide in the hash that tables take by themselves (`FoldHasher`). It reads 16 bytes
# at a time; after a prefix whose state is itself a text, that text makes the product zero, and the last eight bytes change nothing.

LETTERS = "ABCDEFGHIJKLMNOPQRSTUVWXYZabcdefghijklmnopqrstuvwxyz0123456789_"


def folded(a: int, b: int) -> int:
    product = a * b
    return (product ^ (product >> 64)) & (2**64 - 1)


@functools.cache
def colliding_prefix() -> str:
    letters = LETTERS.encode()
    for i in itertools.count():
        prefix = f"prefix_{i:09}".encode()
        first, second = (int.from_bytes(prefix[at : at + 8], "little") for at in (0, 8))
        state = folded(first ^ ((0x243F_6A88_85A3_08D3 + 32) % 2**64), second ^ 0x9E37_79B9_7F4A_7C15).to_bytes(8, "little")
        if all(byte in letters for byte in state):
            return (prefix + state).decode()


def keys(kind: str, count: int) -> list[str]:
    """Returns so many names of 32 characters, of the kind 'plain' or 'colliding'."""
    prefix = colliding_prefix() if kind == "colliding" else "prefix_of_a_plain_name__"
    return [f"{prefix}{i:08}" for i in range(count)]


HOSTILE_KEYS = 60_000


def hostile_names(folder: str, kind: str) -> int:
    """Writes assignments to so many names."""
    lines = "".join(f"{name} = 1\n" for name in keys(kind, HOSTILE_KEYS))
    write(folder, "meson.build", f"project('p','c')\n{lines}")
    return HOSTILE_KEYS


def hostile_dictionary(folder: str, kind: str) -> int:
    """Writes a dictionary with so many keys."""
    entries = ", ".join(f"'{key}': 1" for key in keys(kind, HOSTILE_KEYS))
    write(folder, "meson.build", f"project('p','c')\nd = {{{entries}}}\n")
    return HOSTILE_KEYS


def hostile_options(folder: str, kind: str) -> int:
    """Writes an option file with so many options."""
    write(folder, "meson.options", "".join(f"option('{key}', type: 'boolean')\n" for key in keys(kind, HOSTILE_KEYS)))
    write(folder, "meson.build", "project('p','c')\n")
    return HOSTILE_KEYS


def hostile_outputs(folder: str, kind: str) -> int:
    """Writes a custom target with so many outputs."""
    names = ", ".join(f"'{name}'" for name in keys(kind, HOSTILE_KEYS))
    write(folder, "meson.build", f"project('p','c')\ncustom_target('t', output: [{names}], command: ['gen'])\n")
    return HOSTILE_KEYS


def hostile_paths(folder: str, kind: str) -> int:
    """Writes so many files of the tree that are looked at."""
    for name in keys(kind, HOSTILE_KEYS):
        write(folder, name, "")
    names = ", ".join(f"'{name}'" for name in keys(kind, HOSTILE_KEYS))
    write(folder, "meson.build", f"project('p','c')\nf = files({names})\n")
    return HOSTILE_KEYS


def hostile_sections(folder: str, kind: str) -> int:
    """Writes a machine file with so many values in a section that names what programs are called."""
    lines = "".join(f"{name} = 'x'\n" for name in keys(kind, HOSTILE_KEYS))
    write(folder, "machine.ini", f"[binaries]\n{lines}")
    write(folder, "meson.build", "project('p','c')\n")
    return HOSTILE_KEYS
