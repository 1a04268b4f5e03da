#!/usr/bin/env python3
"""Compares the headers of the libraries for C with what repeats them by hand, and names each difference.

    tools/abi.py

The headers are embed/sm_embed.h, embed/sm_node.h and embed/sm_status.h. Each function is compared parameter by parameter (a
number or a pointer, to what, and its width) with the sources of the library and with the tables of the packages for Python and
Rust. The page may export what a header has, and its calls have to fit. Structs, statuses, numbers of faults and the texts of
faults are compared too. It is silent, with status 0, if nothing differs.
"""
import ctypes
import os
import re
import sys

from man3 import FUNCTION, HEADERS, blocks_of, declared
from version import TOP, read

EMBED = os.path.join(TOP, "embed")
sys.path[:0] = [EMBED, os.path.join(EMBED, "python"), os.path.join(EMBED, "page")]
import example  # noqa: E402
import make_page  # noqa: E402
from vamuretu import _clock, _combining, _faults, _headers, _jobs, _libraries, _nodes  # noqa: E402

# The types of parameters in C, each with those of Python that are passed for it.
OF_PYTHON = {
    "uint32_t": ctypes.c_uint32,
    "uint64_t": ctypes.c_uint64,
    "int64_t": ctypes.c_int64,
    "size_t": ctypes.c_size_t,
    "const uint8_t *": ctypes.c_char_p,
    "uint8_t *": ctypes.c_char_p,
    "size_t *": ctypes.POINTER(ctypes.c_size_t),
    "uint32_t *": ctypes.POINTER(ctypes.c_uint32),
    "int64_t *": ctypes.POINTER(ctypes.c_int64),
    "sm_answer *": ctypes.POINTER(ctypes.c_void_p),
    "sm_node *": ctypes.c_void_p,
}
# The structs of Python, by the names in C that their comments have.
STRUCTS = {it.__doc__.strip("`."): it for it in vars(_libraries).values() if ctypes.Structure in getattr(it, "__bases__", ())}
for name, struct in STRUCTS.items():
    OF_PYTHON[f"{name} *"] = OF_PYTHON[f"const {name} *"] = ctypes.POINTER(struct)
# What Rust calls the numbers of C, and the struct that has a shorter name there.
OF_RUST = {"u8": "uint8_t", "u32": "uint32_t", "u64": "uint64_t", "i64": "int64_t", "usize": "size_t", "Fact": "sm_fact"}
# The statuses and other numbers that the packages and the page repeat, by their names in the headers.
PYTHON_NUMBERS = {
    _jobs: {"YES": "SM_OK", "NO": "SM_NO", "MISUSE": "SM_MISUSE", "FAULT": "SM_FAULT", "MEMORY": "SM_MEMORY",
            "NOBODY": "SM_NOBODY", "OTHER_RUN": "SM_OTHER", "TEXT": "SM_TEXT", "JSON": "SM_JSON",
            "RUN_ID_BYTES": "SM_RUN_ID_BYTES", "RUNS_MOST": "SM_RUNS_MOST"},
    _headers: {"DONE": "SM_OK", "MISUSE": "SM_MISUSE", "BAD": "SM_FAULT", "REFUSED": "SM_MEMORY",
               "ROOT_BYTES": "SM_ROOT_BYTES"},
    _libraries: {"SHORT": "SM_LENGTH", "VERSION_NUMBER": "SM_VERSION_NUMBER"},
    _nodes: {"NO_ORDER": "SM_NO_ORDER", "GENERALS": "SM_GENERALS_MOST"},
    _clock: {"NO": "SM_NO", "NO_RUN": "SM_NO_RUN"},
    _combining.Combination: {"MEDIAN": "SM_MEDIAN", "MAJORITY": "SM_MAJORITY", "ALL": "SM_ALL"},
}
RUST_NUMBERS = {"OK": "SM_OK", "NO": "SM_NO", "FAULT": "SM_FAULT", "MEMORY": "SM_MEMORY", "SHORT": "SM_LENGTH",
                "NOBODY": "SM_NOBODY", "OTHER": "SM_OTHER", "TEXT": "SM_TEXT", "JSON": "SM_JSON",
                "NO_ORDER": "SM_NO_ORDER", "NO_RUN": "SM_NO_RUN", "MEDIAN": "SM_MEDIAN",
                "MAJORITY": "SM_MAJORITY", "ALL": "SM_ALL", "VERSION_NUMBER": "SM_VERSION_NUMBER", "FACT_RUN": "SM_FACT_RUN",
                "FACT_STATUS": "SM_FACT_STATUS", "FACT_DECISION": "SM_FACT_DECISION",
                "FACT_FINDING": "SM_FACT_FINDING", "FACT_CONVICTION": "SM_FACT_CONVICTION",
                "FACT_ACROSS": "SM_FACT_ACROSS", "FACT_EQUAL_ROOTS": "SM_FACT_EQUAL_ROOTS",
                "FACT_SHOWN": "SM_FACT_SHOWN", "FACT_RECEIPT": "SM_FACT_RECEIPT",
                "VERDICT_AGREED": "SM_VERDICT_AGREED", "VERDICT_EXPLAINED": "SM_VERDICT_EXPLAINED",
                "VERDICT_NO": "SM_VERDICT_NO"}
PAGE_NUMBERS = {"YES": "SM_OK", "NO": "SM_NO", "MISUSE": "SM_MISUSE", "FAULT": "SM_FAULT", "MEMORY": "SM_MEMORY",
                "OTHER": "SM_OTHER", "ID_BYTES": "SM_RUN_ID_BYTES", "ROOT_BYTES": "SM_ROOT_BYTES", "TEXT_FORM": "SM_TEXT",
                "JSON_FORM": "SM_JSON", "FACT_RUN": "SM_FACT_RUN", "FACT_FINDING": "SM_FACT_FINDING",
                "FACT_CONVICTION": "SM_FACT_CONVICTION", "FACT_ACROSS": "SM_FACT_ACROSS"}
# What a call of the page for an answer takes: a general perhaps, inputs, options perhaps, and the answer.
INPUT = ["const uint8_t *", "size_t"]
OPTIONS = ["const sm_options *"]


def without_comments(text):
    return re.sub(r"/\*.*?\*/|//[^\n]*", "", text, flags=re.DOTALL)


def parts_of(text):
    """The parts of a list between its commas, but for commas in brackets."""
    return [part.strip() for part in re.split(r",(?![^\[]*\])", text) if part.strip()]


def functions_of_header(name):
    """Each function of a header: its parameters as names with types, and what it returns."""
    found = {}
    for block in blocks_of(read(os.path.join(EMBED, f"{name}.h")))[1]:
        said = declared(block)
        function = FUNCTION.search(said)
        if function:
            inside = said[function.end() : said.rindex(")")]
            given = [] if inside == "void" else list(map(parameter_of_c, parts_of(inside)))
            found[function[1]] = given, said.split()[0]
    return found


def parameter_of_c(text):
    """The name and the type of a parameter. An array is a pointer."""
    said, name, array = re.fullmatch(r"(.*?[ *])(\w+)(\[\d+\])?", " ".join(text.split())).groups()
    return name, said.strip() + (" *" if array else "")


def structs_of_c(text):
    """The fields of each struct, as names with types."""
    found = {}
    for inside, name in re.findall(r"typedef struct \{(.*?)\} (\w+);", without_comments(text), re.DOTALL):
        rows = [re.fullmatch(r"((?:const )?\w+) (\*?)(.*)", row.strip()).groups() for row in inside.split(";") if row.strip()]
        fields = [(said + (" *" if star else ""), *re.fullmatch(r"\s*(\w+)(.*)", it).groups()) for said, star, names in rows for it in names.split(",")]
        found[name] = [(it, said + array) for said, it, array in fields]
    return found


def numbers_of_c(text):
    """The numbers that a header names."""
    found = {}
    for inside in re.findall(r"\benum(?: \w+)? \{(.*?)\};", without_comments(text), re.DOTALL):
        last = -1
        for part in parts_of(inside):
            name, _, value = map(str.strip, part.partition("="))
            found[name] = last = int(value) if value else last + 1
    return found | {name: 2**32 - 1 for name in re.findall(r"^#define (SM_\w+) UINT32_MAX$", text, re.MULTILINE)}


def in_c(name):
    """A name of Rust as C has it: that of a number, or of a struct, as sm_node of SmNode."""
    return OF_RUST.get(name) or re.sub(r"(?<=[a-z])(?=[A-Z])", "_", name).lower()


def type_of_rust(text):
    """The type of C that one of Rust stands for."""
    array = re.fullmatch(r"\[(\w+); (\d+)\]", text)
    if array:
        return f"{in_c(array[1])}[{array[2]}]"
    pointer, name = re.fullmatch(r"(\*const |\*mut )?(\w+)", text).groups()
    of_c = in_c(name)
    return {None: of_c, "*mut ": f"{of_c} *", "*const ": f"const {of_c} *"}[pointer]


def functions_of_rust(text):
    """Each function that Rust declares, in the form of those of a header."""
    inside = re.search(r'extern "C" \{(.*?)\n\}', without_comments(text), re.DOTALL)[1]
    found = {}
    for name, given, returned in re.findall(r"pub fn (\w+)\((.*?)\)( -> u32)?;", inside, re.DOTALL):
        rows = [part.split(": ") for part in parts_of(given)]
        found[name] = [(it, type_of_rust(said)) for it, said in rows], "uint32_t" if returned else "void"
    return found


def types_of_source(text):
    """The types of C that a parameter of an exported function stands for: a slice is a pointer and a length."""
    plain = re.sub(r"'\w+ |<'\w+>", "", text)
    mutable, slices, name = re.fullmatch(r"&(mut )?(\[*)(\w+)(?:; \w+)?\]*(?:; \d+)?\]?", plain).groups()
    pointer = f"{'' if mutable else 'const '}{in_c(name)} *"
    is_slice = slices == "[[" or slices == "[" and ";" not in text
    return [pointer, "size_t"] if is_slice else [pointer]


def functions_of_source(text):
    """Each exported function of the sources of a library: the types of its parameters, and what it returns."""
    found = {}
    exported = re.findall(r'pub extern "C" fn (\w+)\((.*?)\)( -> u32)?\s', without_comments(text), re.DOTALL)
    for name, given, returned in exported:
        said = [part.split(": ", 1)[1] for part in parts_of(given)]
        types = [[OF_RUST[it]] if it in OF_RUST else types_of_source(it) for it in said if it != "Global"]
        found[name] = sum(types, []), "uint32_t" if returned else "void"
    return found


def differs(what, name, here, there):
    """The line of a difference, or nothing."""
    return [] if here == there else [f"{what}: {name} is {here}, and {there} in the header"]


def differ(what, here, there):
    """The lines of the differences between two tables by names."""
    names = [*there, *(it for it in here if it not in there)]
    return [line for it in names for line in differs(what, it, here.get(it), there.get(it))]


def types_of(functions, name):
    """The types of a function's parameters, and what it returns."""
    given, returned = functions[name]
    return [said for _, said in given], returned


def wrong_with_source(crate, functions):
    """How the sources of a library differ from its header."""
    where, told = f"crates/{crate}/src/lib.rt", functions_of_source(read(os.path.join(TOP, "crates", crate, "src", "lib.rt")))
    wrong = [f"{where}: {name} stands there or in the header alone" for name in sorted(set(told) ^ set(functions))]
    for name in sorted(set(told) & set(functions)):
        wrong += differs(where, name, told[name], types_of(functions, name))
    return wrong


def wrong_with_python(library, functions):
    """How the table of Python differs from a header."""
    where, told = "embed/python/vamuretu/_libraries.py", _libraries._ENDS[library]
    wrong = [f"{where}: {name} stands there or in {library}.h alone" for name in sorted(set(told) ^ set(functions))]
    for name in sorted(set(told) & set(functions)):
        types, returned = types_of(functions, name)
        wrong += differs(where, name, told[name], [OF_PYTHON.get(it, it) for it in types])
        wrong += differs(where, f"whether {name} returns nothing", name in _libraries._ENDLESS, returned == "void")
    return wrong


def wrong_with_rust(text, functions):
    """How the declarations of Rust, which may be of some functions alone, differ from the headers."""
    where, told = "embed/rust/src/raw.rs", functions_of_rust(text)
    wrong = [f"{where}: no header has {name}" for name in sorted(set(told) - set(functions))]
    for name in sorted(set(told) & set(functions)):
        wrong += differs(where, name, told[name], functions[name])
    return wrong


def list_in(script, name):
    """The texts of a list of the page's script."""
    return re.findall(r'"(\w+)"', re.search(rf"const {name} = \[(.*?)\]", script)[1])


def wrong_with_page(script, functions, structs):
    """How what the page exports, how it calls it, and what it reads of a fact, differs from the headers."""
    where, own = "embed/page/make_page.py", read(os.path.join(EMBED, "page", "heap_wasm.c"))
    known = {*functions, *re.findall(r"^[\w ]+[ *](\w+)\(.*\) \{", own, re.MULTILINE)}
    wrong = [f"{where}: {name} is exported, and no header has it" for name in make_page.EXPORTS if name not in known]
    where, with_options = "embed/page/judging.js", list_in(script, "WITH_OPTIONS")
    wanted = [name for name, (given, _) in functions.items() if "const sm_options *" in [said for _, said in given]]
    wrong += differs(where, "WITH_OPTIONS", sorted(with_options), sorted(wanted))
    fields = [name for name, said in structs["sm_fact"] if said == "uint32_t"]
    wrong += differs(where, "FACT_FIELDS", list_in(script, "FACT_FIELDS"), fields[: len(list_in(script, "FACT_FIELDS"))])
    sizes = {"OPTIONS_BYTES": ctypes.sizeof(STRUCTS["sm_options"]), "FACT_BYTES": ctypes.sizeof(STRUCTS["sm_fact"])}
    told = constants_of(r"\b([A-Z_]+_BYTES) = (\d+)\b", "page/judging.js")
    wrong += [it for name, size in sizes.items() for it in differs(where, name, told.get(name), size)]
    called = set(re.findall(r'\bof\.(sm_\w+)\(|\(of, (?:\w+, )?"(sm_\w+)"', script))
    lacking = sorted({one or other for one, other in called} - set(make_page.EXPORTS))
    wrong += [f"{where}: {name} is called, and not exported" for name in lacking]
    for name, inputs, behind in re.findall(r'\bask\(of, "(\w+)", \[([^\]]*)\](.*)', script):
        numbers = re.match(r", \{[^}]*?numbers: \[([^\]]*)\]", behind)
        first = ["uint32_t"] * len(parts_of(numbers[1]) if numbers else [])
        wanted = [*first, *INPUT * len(parts_of(inputs)), *(OPTIONS if name in with_options else []), "sm_answer *"]
        wrong += differs(where, name, wanted, types_of(functions, name)[0])
    return wrong


def structs_of_rust(text):
    """The fields of each struct that has the layout of C, in the form of those of a header. What a pointer leads to is opaque, but
    for bytes that are read. A slice is a pointer and a length.
    """
    found = {}
    plain = re.sub(r"^\s*(pub ghost .*|#\[derive.*)$", "", without_comments(text), flags=re.MULTILINE)
    for name, inside in re.findall(r"#\[repr\(C\)\]\s*pub struct (\w+)(?:<'\w+>)? \{(.*?)\}", plain, re.DOTALL):
        rows = [row.split(": ") for row in parts_of(inside.replace("pub ", ""))]
        found[name] = [field for it, said in rows for field in fields_of_rust(it, said)]
    return found


def fields_of_rust(name, said):
    """The fields of C that one of Rust stands for: a slice `runs` is `runs` and `run_count`, and one of bytes `roots` is `roots`
    and `roots_bytes`.
    """
    if said.startswith("&"):
        length = f"{name[:-1]}_count" if "[[" in said else f"{name}_bytes"
        return list(zip([name, length], types_of_source(said)))
    return [(name, re.sub(r"^\w+ \*$", "void *", type_of_rust(said)))]


def wrong_with_structs(structs):
    """How the structs of the libraries' sources and of the packages differ from those of the headers."""
    wrong, of_ctypes = [], {"uint8_t": ctypes.c_uint8, "uint32_t": ctypes.c_uint32, "size_t": ctypes.c_size_t}
    of_ctypes |= {"uint8_t[32]": ctypes.c_uint8 * 32, "uint64_t": ctypes.c_uint64, "const uint8_t *": ctypes.c_char_p}
    for name, made in STRUCTS.items():
        wanted = [(it, of_ctypes[said]) for it, said in structs.get(name, ())]
        wrong += differs("embed/python/vamuretu/_libraries.py", name, [tuple(it) for it in made._fields_], wanted)
        if name == "sm_options":
            wrong += differs("embed/example.py", name, [tuple(it) for it in example.Options._fields_], wanted)
    folders = [os.path.join(TOP, "crates", name, "src") for name in [*HEADERS, "gen_facts"]]
    folders = [folder for folder in folders if os.path.isdir(folder)]
    sources = [os.path.join(folder, name) for folder in folders for name in sorted(os.listdir(folder))]
    for path in [os.path.join(EMBED, "rust", "src", "raw.rs"), *sources]:
        for name, fields in structs_of_rust(read(path)).items():
            wrong += differs(os.path.relpath(path, TOP), name, fields, structs.get(in_c(name)))
    return wrong


def wrong_with_numbers(where, told, names, numbers):
    """How numbers that are repeated differ from those of the headers."""
    lacking = [f"{where}: {name} is not there" for name in names if name not in told]
    return lacking + [it for name, of in names.items() if name in told for it in differs(where, name, told[name], numbers[of])]


def constants_of(pattern, *paths):
    """The numbers that sources name, by a pattern of a name and a number."""
    texts = (read(os.path.join(EMBED, path)) for path in paths)
    return {name: int(value) for text in texts for name, value in re.findall(pattern, text)}


def faults_of_rust(text):
    """The numbers of faults of Rust, by the names that a header has for them."""
    found = {}
    for first, names in re.findall(r"\((\d+), &\[([\w, ]+)\]\)", text):
        for at, name in enumerate(parts_of(names)):
            found[f"SM_{in_c(name).upper()}"] = int(first) + at
    return found


def wrong_with_faults(header):
    """How the faults of the packages differ from those of sm_node.h."""
    inside = re.search(r"enum sm_node_fault \{.*?\};", header, re.DOTALL)[0]
    numbers = numbers_of_c(inside)
    texts = dict(re.findall(r'case (SM_\w+): return "(.*)";', header))
    of_python = {f"SM_{it.name}": it.value for it in _faults.NodeFault}
    told = {f"SM_{it.name}": said for it, said in _faults._TEXTS.items()}
    of_rust = faults_of_rust(read(os.path.join(EMBED, "rust/src/fault.rs")))
    wrong = differ("NodeFault of Python", of_python, numbers) + differ("the texts of NodeFault of Python", told, texts)
    return wrong + differ("NodeFault of Rust", of_rust, numbers)


def wrong_with_all():
    """Each difference, as a line."""
    headers = {name: read(os.path.join(EMBED, f"{name}.h")) for name in [*HEADERS, "sm_status"]}
    functions = {name: functions_of_header(name) for name in HEADERS}
    every = {name: it for of in functions.values() for name, it in of.items()}
    numbers = {name: it for text in headers.values() for name, it in numbers_of_c(text).items()}
    structs = {name: it for text in headers.values() for name, it in structs_of_c(text).items()}
    rust, script = read(os.path.join(EMBED, "rust/src/raw.rs")), read(os.path.join(EMBED, "page/judging.js"))
    wrong = []
    for name in HEADERS:
        wrong += wrong_with_source(name, functions[name]) + wrong_with_python(name, functions[name])
    wrong += wrong_with_rust(rust, every) + wrong_with_page(script, every, structs) + wrong_with_structs(structs)
    for module, names in PYTHON_NUMBERS.items():
        wrong += wrong_with_numbers(f"{module.__name__} of Python", vars(module), names, numbers)
    of_rust = constants_of(r"const (\w+): u32 = ([\d_]+);", "rust/src/raw.rs", "rust/src/jobs.rs", "rust/src/verdicts.rs")
    wrong += wrong_with_numbers("embed/rust/src/", of_rust, RUST_NUMBERS, numbers)
    of_page = constants_of(r"\b([A-Z_]+) = (\d+)\b", "page/judging.js")
    wrong += wrong_with_numbers("embed/page/judging.js", of_page, PAGE_NUMBERS, numbers)
    return wrong + wrong_with_faults(headers["sm_node"])


def main():
    if sys.argv[1:]:
        sys.exit(__doc__)
    wrong = wrong_with_all()
    print("".join(f"{it}\n" for it in wrong), end="")
    return 1 if wrong else 0


if __name__ == "__main__":
    sys.exit(main())
