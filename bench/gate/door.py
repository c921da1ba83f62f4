#!/usr/bin/env python3
"""Builds the static library, runs the programs of bindings/ with it, and compares the declarations of its functions.

    bench/gate/door.py [--calls N]
    bench/gate/door.py --beside LOG     builds on the libraries that the run of `rt ci` with this log proves; the gate runs this
    bench/gate/door.py --declared       only compares the declarations, in a second
    bench/gate/door.py --speed          times calls from C, next to the same work in Rattle where bench/speed.py has a row for it

1. The kinds of the header and of the Rust crate must be those that bench/kinds.py writes, and the accessors those of
   bench/accessors.py.
2. The exports of crates/typst_c, the functions of bindings/c/typst.h and those of bindings/rust/src/raw.rs must be the same, with
   the same names, numbers and widths of arguments. So must the fields of the structs that are passed, and the functions of the
   archive, which has no variables, so that sessions share nothing. Each export that takes a pointer needs a function `typst_try_` in
   the header, and bindings/c/tests/nulls.c must pass null to it in place of each pointer. A session is `const` in C and in Rust
   exactly if the contract of the export says that the handle stays the same, and bindings/c/tests/read_only.c must make each such
   call. The version and the severities must be the same everywhere, and no severity may be the number of a status. The text of a
   status in C must be that of its refusal in crates/typst_session, and its error in Rust must have the same name. A refusal is no
   error in Rust only if no call there can get it, or if the crate then calls again.
3. `rt lib` builds the archive, and proves what isn't kept.
4. gcc compiles the examples and the tests in C with all warnings. They run under the sanitizers of addresses and of undefined
   behavior. One test makes calls that are drawn at random: a million, or as many as --calls says. Another refuses each request for
   memory in turn. A third makes each call that only reads on sessions in memory that can't be written, and a fourth passes null
   pointers. Where valgrind is there, it counts the instructions of an edit, of a wrap of a chain of nodes, of a read at its end and of
   a walk over it at two sizes. A program that doesn't look at a status must not compile. Each example must print what the file
   `.stdout` next to it says. clang, if it is there, reads the comments of the headers.
5. cargo, offline, runs the tests, the lints and the documentation of the Rust crate. Its examples must print what the files
   `.stdout` next to them say. One of them carries out scripts: the vectors of scripts and the scripts in examples/.

If gcc or cargo is missing, the script says so. The status is 1 if anything differs or fails.
"""
import os
import re
import shutil
import sys
import tempfile
from pathlib import Path

sys.path.insert(0, str(Path(__file__).resolve().parents[1]))
import growth
import speed
from common import TOP, parser, ran
from judge.room import Proved, Room, below, needs_of

EXPORTS = TOP / "crates/typst_c"
ARCHIVE = "out/libtypst_c.a"
C, RUST = TOP / "bindings/c", TOP / "bindings/rust"
SCRIPTS = [TOP / "crates/typst_script_tests/vectors", TOP / "examples"]
HEADER, RAW = C / "typst.h", RUST / "src/raw.rs"
READ_ONLY, NULLS = C / "tests/read_only.c", C / "tests/nulls.c"
STRICT = ["-std=c11", "-O1", "-g", "-Wall", "-Wextra", "-Werror", "-pedantic", f"-I{C}"]
SANITIZED = ["-fsanitize=address,undefined", "-fno-sanitize-recover=all", "-fno-omit-frame-pointer"]
REFUSALS = TOP / "crates/typst_session/src/refusal.rt"
DIAGNOSTICS = TOP / "crates/typst_session/src/diagnostics.rt"
# The statuses that are no refusals: the call was done, and the session holds nothing.
OWN_STATUSES = {"0", "1"}
# The refusals that no call of the Rust crate can get: its types rule them out.
RULED_OUT = {"Text", "NoTree", "IsDocument", "NoDocument", "File", "Set", "Accessor", "NoEdit"}
# The refusal after which the Rust crate calls again with a longer buffer.
RETRIED = "Buffer"
POINTER = "pointer"
# The widths of types: in bits, or a pointer.
WIDTHS = {"u8": 8, "u16": 16, "u32": 32, "u64": 64, "i64": 64, "usize": 64, "uint8_t": 8, "uint16_t": 16, "uint32_t": 32, "uint64_t": 64,
          "int64_t": 64, "size_t": 64, "typst_status": 32}
# The structs that are passed, by their names in C, and their names in Rattle and in Rust.
STRUCTS = {"typst_session": None, "typst_node_info": "NodeInfo", "typst_place": "Place", "typst_length": "Length",
           "typst_range": "ByteRange", "typst_line_column": "LineColumn", "typst_answer": "ViewAnswer",
           "typst_diagnostic": "Diagnostic", "typst_diagnostic_sizes": "DiagnosticSizes",
           "typst_kind_info": "KindClasses", "typst_window": "Window", "typst_change": "Change", "typst_edited": "Edited"}
# The rows of speed.c that do the same work as a row of bench/speed.py, with its operation and the number of steps of a round.
BESIDE = {"all nodes by typst_preorder, a node": speed.over("", "preorder", "document", speed.HUNDRED_THOUSAND, 5),
          "a node by its number": speed.Row("", f"find document {speed.HUNDRED_THOUSAND} 50000"),
          "a leaf by one as long": speed.Row("", f"replace document {speed.HUNDRED_THOUSAND} 20000"),
          "a letter in a text of 1,000 lines": speed.Row("", "letter 1000 1000", 2)}
# The calls whose instructions growth.c lets count, each with two sizes and the most instructions that it may take at each. An edit isn't
# in proportion to the text, nor a wrap to its children's trees. The two reads of a chain are in proportion to its levels.
COUNTED = {"edit": [(1_000, 40_000), (16_000, 60_000)],
           "wrap": [(250, 4_000), (1_000, 4_000)],
           "node": [(250, 6_500), (1_000, 25_000)],
           "preorder": [(250, 25_000), (1_000, 95_000)]}
# How often a call is made to be counted.
TIMES = 32
# What an export calls a handle, a caller calls a session.
HANDLE = ("session", POINTER)


class Differs(Exception):
    """What differs, or which step failed."""


def code(folder, pattern):
    """The code of these files, without comments."""
    return "".join(re.sub(r"//.*", "", file.read_text()) for file in sorted(folder.glob(pattern)))


def width(kind):
    return POINTER if "*" in kind or kind.startswith("&") else WIDTHS.get(kind.strip(), kind.strip())


def rattle_arguments(text):
    """The arguments of an export as C passes them. A slice is a pointer and a number, which has no name of its own."""
    arguments = []
    for name, kind in re.findall(r"(\w+): ([^,]+)", text):
        kind = kind.strip()
        if kind == "&mut Handle":
            arguments.append(HANDLE if name == "handle" else (name, POINTER))
        elif kind != "Global":
            arguments.append((name, width(kind)))
            arguments += [(None, 64)] if "[" in kind else []
    return arguments


def exports():
    found = re.findall(r'pub extern "C" fn (\w+)\((.*?)\)(?: -> (\w+))?', code(EXPORTS / "src", "*.rt"), re.S)
    return {name: (rattle_arguments(text), width(result or "()")) for name, text, result in found}


def declared(text):
    """The functions that the header declares, without those that it defines."""
    found = re.findall(r"^(?:TYPST_NODISCARD )?(typst_status|void|uint32_t) (\w+)\(([^)]*)\);", text, re.M)

    def arguments(list_of):
        each = [] if list_of == "void" else list_of.split(",")
        arguments = (re.match(r"(?:const )?(\w+) (\*?)(\w+)$", " ".join(one.split())) for one in each)
        return [(it[3], width(it[1] + it[2])) for it in arguments]

    return {name: (arguments(list_of), width({"void": "()"}.get(result, result))) for result, name, list_of in found}


def rust_declared(text):
    found = re.findall(r"pub fn (\w+)\((.*?)\)(?: -> (\w+))?;", text, re.S)

    def arguments(list_of):
        return [(name, width(kind)) for name, kind in re.findall(r"(\w+): ([^,]+)", list_of)]

    return {name: (arguments(list_of), width(result or "()")) for name, list_of, result in found}


def without_free_names(wanted, told):
    """The declared arguments, without the names of numbers that have no name in the export."""
    arguments = [(None if wants[0] is None else has[0], has[1]) for wants, has in zip(wanted[0], told[0])]
    return arguments + told[0][len(wanted[0]):], told[1]


def compare(where, wanted, told):
    differ = [f"{where} lacks {name}" for name in wanted if name not in told]
    differ += [f"{where} has {name}, which is no export" for name in told if name not in wanted]
    for name in wanted:
        if name in told and without_free_names(wanted[name], told[name]) != wanted[name]:
            differ.append(f"{where}: {name} is {told[name]}, but the export is {wanted[name]}")
    return differ


def fields(text, opening, pattern):
    body = re.search(opening + r"\s*\{(.*?)\n\}", text, re.S)
    return re.findall(pattern, body[1]) if body else None


def struct_differences(header, raw):
    rattle = code(EXPORTS / "src", "*.rt") + code(TOP / "crates/typst_session/src", "*.rt")
    differ = []
    for name, rust_name in STRUCTS.items():
        in_c = fields(header, f"typedef struct {name}", r"(\w+ \*?)(\w+(?:, \w+)*);")
        in_c = [(one, width(STRUCTS.get(kind.strip()) or kind)) for kind, names in in_c or [] for one in names.split(", ")]
        for where, text in [("Rattle", rattle), ("Rust", raw)]:
            opening = f"pub struct {rust_name or ('Handle' if where == 'Rattle' else 'Session')}"
            told = [(one, width(kind)) for one, kind in fields(text, opening, r"(\w+): ([^,{]+),") or []]
            told = [(one, POINTER if kind == "At" else kind) for one, kind in told]
            if told != in_c:
                differ.append(f"{name} has {in_c} in C, and {told} in {where}")
    return differ


def status_differences(header):
    """What differs between the texts of statuses in C and those of refusals, and between the names of errors in Rust and of refusals."""
    code_of = dict(re.findall(r"Refusal::(\w+) => (\d+),", REFUSALS.read_text()))
    said = {code_of[name]: text for text, name in re.findall(r'#\[error\("(.*)"\)\]\n    (\w+),', REFUSALS.read_text())}
    number_of = dict(re.findall(r"\b(TYPST_\w+) = (\d+)", header[: header.index("typedef struct typst_node_info")]))
    texts = {number_of[name]: text for name, text in re.findall(r'case (\w+): return "(.*)";', header)}
    told = {number: text for number, text in texts.items() if number not in OWN_STATUSES | {number_of["TYPST_NULL"]}}
    errors = re.findall(r"(\d+) => Error::(\w+)", (RUST / "src/error.rs").read_text())
    errors += [(number, RETRIED) for number in re.findall(r"const SHORT_BUFFER: u32 = (\d+);", (RUST / "src/handle.rs").read_text())]
    differ = [f"the statuses of C say {told}, but the refusals say {said}"] if told != said else []
    differ += [f"status {number} is {name} in Rust" for number, name in errors if code_of.get(name) != number]
    told_apart = set(code_of) ^ RULED_OUT ^ {name for _, name in errors}
    return differ + [f"the refusal {name} must be an error in Rust or in RULED_OUT, and not both" for name in sorted(told_apart)]


def version_differences(header):
    """Whether the library, the header and the Rust crate have the version of the file VERSION."""
    numbered = lambda written: sum(int(it) * scale for it, scale in zip(written.split("."), (10_000, 100, 1), strict=True))
    wanted = numbered((TOP / "VERSION").read_text().strip())
    inside = int(re.search(r"pub const VERSION: u32 = (\d+);", (EXPORTS / "src/life.rt").read_text())[1])
    in_c = int(re.search(r"#define TYPST_TREE_VERSION (\d+)", header)[1])
    in_rust = numbered(re.search(r'^version = "([\d.]+)"', (RUST / "Cargo.toml").read_text(), re.M)[1])
    if wanted == inside == in_c == in_rust:
        return []
    return [f"the version is {wanted} in VERSION, {inside} in the library, {in_c} in C and {in_rust} in Rust"]


def severity_differences(header):
    """Whether the severities of C are those of the library, and no severity is a status."""
    inside = dict(re.findall(r"Severity::(\w+) => (\d+),", DIAGNOSTICS.read_text()))
    in_c = {name.capitalize(): number for name, number in re.findall(r"TYPST_SEVERITY_(\w+) = (\d+)", header)}
    statuses = set(re.findall(r"\bTYPST_\w+ = (\d+)", header[: header.index("typedef struct typst_node_info")]))
    differ = [] if inside == in_c else [f"the severities are {inside} in the library and {in_c} in C"]
    return differ + [f"the severity {name} has the number of a status" for name, number in in_c.items() if number in statuses]


def reading_differences(header, raw):
    """What differs between the exports that leave a handle the same, the calls that take a `const` session, and those of read_only.c."""
    texts = re.findall(r'pub extern "C" fn (\w+)\((.*?)\n\{', code(EXPORTS / "src", "*.rt"), re.S)
    reading = {name for name, text in texts if "ensures kept { IsSameHandle handle.old handle.new }" in text}
    told = {"typst.h": re.findall(r"^TYPST_NODISCARD typst_status (\w+)\(\s*const typst_session \*session\b", header, re.M),
            "typst.h, typst_try_": [f"typst_{name}" for name in re.findall(r"typst_try_(\w+)\(\s*const typst_session \*session\b", header)],
            "raw.rs": re.findall(r"pub fn (\w+)\(\s*session: \*const Session\b", raw),
            "read_only.c": re.findall(r'\{"(\w+)", \w+\}', READ_ONLY.read_text())}
    return [f"{where}: these read a session there or in the contracts, and not in both: {sorted(reading ^ set(names))}"
            for where, names in told.items() if reading != set(names)]


def null_differences(header):
    """Whether nulls.c passes a null pointer to each function `typst_try_` in place of each of its pointers."""
    passed = re.findall(r"IS_NULL\((\w+)\(([^;]*)\)\);", NULLS.read_text())
    differ = []
    for name, list_of in re.findall(r"typst_status (typst_try_\w+)\(([^)]*)\)", header):
        pointers = {at for at, one in enumerate(list_of.split(",")) if "*" in one}
        null = [[at for at, one in enumerate(given.split(",")) if one.strip() == "NULL"] for called, given in passed if called == name]
        if sorted(null) != [[at] for at in sorted(pointers)]:
            differ.append(f"nulls.c passes null to {name} at {null}, and its pointers are at {sorted(pointers)}")
    return differ


def compare_declarations():
    wanted, text = exports(), re.sub(r"/\*.*?\*/", "", HEADER.read_text(), flags=re.S)
    raw = re.sub(r"//.*", "", RAW.read_text())
    if not wanted:
        raise Differs("crates/typst_c has no exports")
    differ = compare("typst.h", wanted, declared(text)) + compare("raw.rs", wanted, rust_declared(raw))
    tries = set(re.findall(r"^static inline (?:TYPST_NODISCARD )?\w+ typst_try_(\w+)\(", text, re.M))
    differ += [f"typst.h lacks typst_try_{name[6:]}" for name, (taken, _) in wanted.items() if taken and name[6:] not in tries]
    differ += struct_differences(text, raw) + status_differences(text) + reading_differences(text, raw)
    differ += version_differences(text) + severity_differences(text) + null_differences(text)
    if differ:
        raise Differs("\n".join(differ))
    return wanted


def compare_archive(archive, wanted):
    said = run(["nm", "-g", "--defined-only", archive])
    there = set(re.findall(r" T (typst_\w+)$", said, re.M))
    if there != set(wanted):
        raise Differs(f"the archive lacks these, or has them although they are no exports: {sorted(there ^ set(wanted))}")
    variables = re.findall(r" [BbCDdGgSs] (\S+)$", run(["nm", archive]), re.M)
    if variables:
        raise Differs(f"the archive has variables, which two threads would share: {variables}")


def run(command, **more):
    """What a command prints, which must end with the status 0."""
    done = ran(command, text=True, **more)
    if done.returncode:
        raise Differs(f"{' '.join(map(str, command))} ends with {done.returncode}:\n{done.stdout[-3000:]}{done.stderr[-6000:]}")
    return done.stdout


def crate_over_proved(log, place):
    """A copy of the crate of the exports, on top of the libraries that the run of `rt ci` with this log proves."""
    proved_at = place / "proved"
    proved_at.mkdir()
    with Proved(log, proved_at) as proved:
        if not proved.has(below(EXPORTS.name, needs_of(TOP))):
            raise Differs(f"a crate below {EXPORTS.name} isn't proved")
        crate = Room(TOP, EXPORTS.name, place / "room", 1, proved).crate
    for part in ("specs", "proofs"):
        shutil.copytree(EXPORTS / part, crate / part)
    return crate


def compare_printed(name, printed, wanted):
    if printed != wanted.read_text():
        raise Differs(f"{name} prints\n{printed}and should print\n{wanted.read_text()}")


def programs_in_c(folder, archive, calls):
    heap, model = C / "heap.c", C / "tests/model.c"
    examples = [it.stem for it in sorted((C / "examples").glob("*.c"))]
    sources = {**{name: [C / f"examples/{name}.c", heap] for name in examples},
               "random": [C / "tests/random.c", model, heap], "refuse": [C / "tests/refuse.c"], "nulls": [NULLS, heap]}
    for name, files in sources.items():
        run(["gcc", *STRICT, *SANITIZED, *files, archive, "-o", folder / name])
    # Without sanitizers, which would catch the signals that the test waits for.
    run(["gcc", *STRICT, READ_ONLY, heap, archive, "-o", folder / "read_only"])
    for name in examples:
        compare_printed(f"{name}.c", run([folder / name]), C / f"examples/{name}.stdout")
    print(run([folder / "refuse"]), end="")
    print(run([folder / "read_only"]), end="")
    print(run([folder / "nulls"]), end="")
    print(run([folder / "random", calls]), end="")
    header = folder / "header.cc"
    header.write_text('#include "typst.h"\n')
    run(["g++", "-std=c++11", "-Wall", "-Wextra", "-Werror", f"-I{C}", "-fsyntax-only", header])
    check_discards(folder)
    check_comments()


def check_discards(folder):
    """Whether gcc refuses a program that doesn't look at a status, and takes the same one if it does."""
    for file, line, is_taken in [("looks.c", "return (int)typst_new(&session);", True), ("discards.c", "typst_new(&session);", False)]:
        program = folder / file
        program.write_text(f'#include "typst.h"\nint main(void)\n{{\n    typst_session session = TYPST_SESSION_INIT;\n    {line}\n}}\n')
        said = ran(["gcc", *STRICT, "-c", program, "-o", folder / "program.o"], text=True)
        if (said.returncode == 0) != is_taken:
            raise Differs(f"gcc {'takes' if not is_taken else 'refuses'} the line {line}\n{said.stderr}")


def check_comments():
    """Whether clang can read the comments of the headers: each command in them is one that it knows."""
    if not shutil.which("clang"):
        print("there is no clang here, so it didn't read the comments of the headers")
        return
    for language in ["c", "c++"]:
        run(["clang", "-Wdocumentation", "-Wdocumentation-pedantic", "-Werror", "-fsyntax-only", "-x", language, HEADER])


def time_calls(folder, archive, turns):
    """Prints the least time of each row of speed.c in some turns, and that of the same work in Rattle."""
    optimized = ["-std=c11", "-D_POSIX_C_SOURCE=199309L", "-O2", "-Wall", "-Wextra", "-Werror", "-pedantic", f"-I{C}"]
    run(["gcc", *optimized, C / "tests/speed.c", C / "heap.c", archive, "-o", folder / "speed"])
    program = speed.proved()
    rows = {}
    for _ in range(turns):
        for line in run([folder / "speed"]).splitlines():
            name, _, told = line.rpartition(": ")
            rows.setdefault(name, []).append(float(told))
    print(speed.head(["A call from C", "ns", "in Rattle"]))
    for name, times in rows.items():
        inside = speed.timed(BESIDE[name], [program], turns)[0] if name in BESIDE else None
        print(speed.lined([name, speed.digits(min(times)), speed.digits(min(inside)) if inside else ""]), flush=True)


def count_calls(folder, archive):
    """Whether each call of growth.c takes at most its bound of instructions."""
    if not shutil.which("valgrind"):
        print("there is no valgrind here, so no instructions of calls from C were counted")
        return
    program = folder / "growth"
    run(["gcc", *STRICT, "-O2", C / "tests/growth.c", C / "heap.c", archive, "-o", program])
    pattern = growth.INSTRUCTIONS[1]

    def counted(call, size, times):
        done = ran(["valgrind", *growth.INSTRUCTIONS[0], program, call, size, times], text=True)
        if done.returncode:
            raise Differs(f"growth.c: {call} {size} ends with {done.returncode}: {done.stderr[-2000:]}")
        return int(re.search(pattern, done.stderr)[1])

    for call, bounds in COUNTED.items():
        for size, most in bounds:
            taken = (counted(call, size, TIMES) - counted(call, size, 0)) // TIMES
            if taken > most:
                raise Differs(f"typst_{call} takes {taken} instructions at the size {size}, and {most} are the most")
    print(f"{len(COUNTED)} calls from C counted at two sizes")


def run_scripts(program):
    """Carries out each script of the vectors and of the examples, and compares standard output, standard error and the status."""
    count = 0
    for script in (it for folder in SCRIPTS for it in sorted(folder.glob("*.script"))):
        done = ran([program], input=script.read_bytes())
        beside = {it: script.with_suffix(f".{it}") for it in ("stdout", "stderr", "status")}
        read = {it: file.read_bytes() if file.is_file() else b"" for it, file in beside.items()}
        wanted = (read["stdout"], read["stderr"], int(read["status"] or 0))
        if (done.stdout, done.stderr, done.returncode) != wanted:
            raise Differs(f"{script.name} gives {done} through the Rust crate, and should give {wanted}")
        count += 1
    if not count:
        raise Differs("there are no scripts")
    print(f"{count} scripts carried out through the Rust crate")


def crate_in_rust(folder, archive):
    shutil.copy(archive, folder)
    more = {"cwd": RUST, "env": {**os.environ, "TYPST_C_DIR": str(folder), "CARGO_TARGET_DIR": str(folder / "target"),
                                 "RUSTFLAGS": "-D warnings", "RUSTDOCFLAGS": "-D warnings"}}
    run(["cargo", "test", "--offline", "--quiet"], **more)
    for example in sorted(it for it in (RUST / "examples").glob("*.rs") if it.with_suffix(".stdout").is_file()):
        printed = run(["cargo", "run", "--offline", "--quiet", "--example", example.stem], **more)
        compare_printed(example.name, printed, example.with_suffix(".stdout"))
    run(["cargo", "build", "--offline", "--quiet", "--example", "script"], **more)
    run_scripts(folder / "target/debug/examples/script")
    run(["cargo", "doc", "--offline", "--quiet", "--no-deps"], **more)
    for lint in ["clippy", "fmt"]:
        if ran(["cargo", lint, "--version"]).returncode:
            print(f"there is no cargo {lint} here, so it didn't check the Rust crate")
        else:
            run(["cargo", lint, *({"clippy": ["--offline", "--quiet", "--all-targets"], "fmt": ["--check"]}[lint])], **more)


def main():
    words = parser(__doc__, "--speed", "--declared")
    words.add_argument("--calls", type=int, default=1_000_000, metavar="N")
    words.add_argument("--beside", metavar="LOG")
    asked = words.parse_args()
    try:
        run([TOP / "bench/kinds.py", "--check"])
        run([TOP / "bench/accessors.py", "--check"])
        wanted = compare_declarations()
        if asked.declared:
            print(f"{len(wanted)} exports, with the same declarations in C and in Rust")
            return
        with tempfile.TemporaryDirectory() as name:
            folder = Path(name)
            crate = crate_over_proved(asked.beside, folder) if asked.beside else EXPORTS
            run(["rt", "lib"], cwd=crate)
            archive = crate / ARCHIVE
            compare_archive(archive, wanted)
            if asked.speed:
                time_calls(folder, archive, speed.TURNS)
                return
            if not shutil.which("gcc"):
                print("there is no gcc here, so no program in C or Rust ran with the library")
            else:
                programs_in_c(folder, archive, asked.calls)
                count_calls(folder, archive)
                if shutil.which("cargo"):
                    crate_in_rust(folder, archive)
                else:
                    print("there is no cargo here, so the Rust crate wasn't tested")
    except Differs as differs:
        print(differs)
        sys.exit(1)
    print(f"{len(wanted)} exports, with the same declarations in C and in Rust")


main()
