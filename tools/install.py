#!/usr/bin/env python3
"""Installs the program, the library for C and their pages: install [--unproved | --program FILE --library FILE] PREFIX, or tries it:
install --try [--unproved | --program FILE --library FILE | --at FOLDER]; or makes the files of a version: install --release VERSION
[--gate COMMAND] [--to FOLDER] [--program FILE --library FILE].

What is installed is what `rt run` in crates/ua_cli and `rt lib` in crates/ua_c proved and built; both are called, and prove
what has changed since. With --unproved it is compiled without a proof, in minutes, and `ua version` says `unproved`. With
--program and --library it is these files, by whomever they were built. DESTDIR of the environment stands in front of PREFIX.

  bin/ua                                      the program
  lib/libua.a                                 the static library; the kit's archive for memory is a part of it
  lib/libua.so.0, lib/libua.so                the shared one, with that soname, and its name for linkers
  include/ua.h, ua_null.h, ua_values.h, ua.hpp, lib/pkgconfig/ua.pc for compilers; the tree may be moved
  share/ua/python/ua.py, share/ua/rust/ua.rs  the modules for Python and Rust
  share/man/man1/, share/bash-completion/     the pages of man/ and completion/
  share/ua/RECORD                             what was built, how, of which source, by which kit, and each file's SHA256

Both libraries have the symbols ua_* alone. The tools CC, LD, AR and OBJCOPY are cc, ld, ar and objcopy unless the
environment names others.

With --try it is installed into a new folder, or stands in FOLDER. The record's sums and what `ua version` says are compared,
and the symbols of both libraries with the header's; a program in C is compiled by what pkg-config says, against the shared and
the static library, and run, and one in C++, Python and Rust by the header and modules that are there; pages are read by `man`,
and bash completes a word, each where it is at hand. The status is 1 at the first that is not as wanted.

With --release the tree is a commit without changes, whose program and CHANGELOG.md have this version. The gate (.ci/run, or
COMMAND) has to end with status 0 and a last line `N passed, 0 failed`. What is proved is installed, tried, and goes into FOLDER
(release/ unless another is named), each file anew: ua-VERSION-linux-x86_64.tar.gz, a folder ua-VERSION; RECORD, with the gate's
last line, and what is trusted and not proved; DEFINITIONS.md, the definitions that contracts of public calls name; SHA256SUMS of
these three. Two runs of one commit on one machine give the same octets: names are sorted, times are the commit's, owners are 0.
"""
from __future__ import annotations

import gzip
import hashlib
import io
import os
import re
import shutil
import subprocess
import sys
import tarfile
import tempfile

sys.dont_write_bytecode = True
import write_definitions
from kit import TOP, VERSION, keep, kit_folder, text_of, unproved

sys.dont_write_bytecode = True
SONAME = "libua.so.0"
EXPORTS = "ua_*"
PAGES = {"man": ("share/man/man1", ".1"), "completion": ("share/bash-completion/completions", ".bash")}
RECORD = "share/ua/RECORD"
PC = """prefix=${{pcfiledir}}/../..
libdir=${{prefix}}/lib
includedir=${{prefix}}/include

Name: ua
Description: OPC UA Binary over UA TCP, as a library without input and output
Version: {version}
Libs: -L${{libdir}} -lua
Cflags: -I${{includedir}}
"""

def say(what: str) -> None:
    print("install: " + what, flush=True)

def run(*words: str, **env: str) -> str:
    done = subprocess.run(words, cwd=TOP, stdout=subprocess.PIPE, text=True, env={**os.environ, **env}, check=False)
    if done.returncode:
        raise SystemExit(f"install: {' '.join(words[:4])} .. ended with status {done.returncode}\n{done.stdout[-2000:]}")
    return done.stdout

def tool(name: str) -> str:
    """A tool of the machine, by the environment's name for it."""
    return os.environ.get(name.upper(), name)

def version_in(source: str) -> str:
    """The version, as the program's own text has it.

    >>> version_in('    "ua 0.1.0 rattle-kit-13f logic dac8208d650f15bf\\\\n"')
    '0.1.0'
    """
    return re.search(r'"ua (\S+) ', source).group(1)

class Tree:
    """What is installed, in a folder of its own until all of it is there."""

    def __init__(self, folder: str) -> None:
        self.folder, self.work = os.path.join(folder, "tree"), folder
        self.version = version_in(text_of(os.path.join(TOP, VERSION)))

    def at(self, name: str) -> str:
        path = os.path.join(self.folder, name)
        os.makedirs(os.path.dirname(path), exist_ok=True)
        return path

    def put(self, name: str, source: str, mode: int = 0o644) -> None:
        shutil.copyfile(source, self.at(name))
        os.chmod(self.at(name), mode)

    def write(self, name: str, text: str) -> None:
        with open(self.at(name), "w", encoding="utf-8") as file:
            file.write(text)
        os.chmod(self.at(name), 0o644)

    def put_libraries(self, code: str) -> None:
        """Both libraries, of an archive or an object file: one object, of which other symbols than the exports are local."""
        whole, exports = os.path.join(self.work, "ua.o"), os.path.join(self.work, "exports")
        run(tool("ld"), "-r", "-o", whole, "--whole-archive", code, os.path.join(kit_folder(), "c", "liblibc_c.a"))
        run(tool("objcopy"), "--wildcard", f"--keep-global-symbol={EXPORTS}", whole)
        run(tool("ar"), "rcD", self.at("lib/libua.a"), whole)
        os.chmod(self.at("lib/libua.a"), 0o644)
        with open(exports, "w", encoding="utf-8") as file:
            file.write(f"{{ global: {EXPORTS}; local: *; }};\n")
        shared = self.at(f"lib/{SONAME}")
        flags = [f"-soname,{SONAME}", f"--version-script={exports}", "--gc-sections", "--no-undefined", "-z,relro,-z,now"]
        keep = [f"-Wl,-u,{name}" for name in self.exports()]
        run(tool("cc"), "-shared", "-o", shared, *(f"-Wl,{it}" for it in flags), *keep, self.at("lib/libua.a"))
        os.chmod(shared, 0o755)
        os.symlink(SONAME, self.at("lib/libua.so"))

    def exports(self) -> list[str]:
        """The calls that the header declares."""
        return sorted(set(re.findall(r"\b(ua_\w+)\(", re.sub(r"/\*.*?\*/", "", text_of(os.path.join(TOP, "crates/ua_c/include/ua.h")), flags=re.S))))

    def put_pages(self) -> None:
        for folder, (to, ending) in PAGES.items():
            there = os.path.join(TOP, folder)
            for name in sorted(os.listdir(there)) if os.path.isdir(there) else []:
                if name.endswith(ending):
                    self.put(os.path.join(to, re.sub(r"\.bash$", "", name)), os.path.join(there, name))

    def files(self) -> list[str]:
        found = [os.path.relpath(os.path.join(at, it), self.folder) for at, _, names in os.walk(self.folder) for it in names]
        return sorted(it for it in found if it != RECORD and not os.path.islink(self.at(it)))

    def record(self, how: str) -> None:
        """What was built, how and of what, and what each file is."""
        lines = [f"version {self.version}", f"built {how}", f"source {source()}", f"kit {run('rt', 'version').strip()}"]
        for name in self.files():
            with open(self.at(name), "rb") as file:
                lines.append(f"{hashlib.sha256(file.read()).hexdigest()}  {name}")
        self.write(RECORD, "\n".join(lines) + "\n")

    def fill(self, program: str, code: str, how: str) -> None:
        self.put("bin/ua", program, 0o755)
        self.put_libraries(code)
        for header in ("ua.h", "ua_null.h", "ua_values.h", "ua.hpp"):
            self.put(f"include/{header}", os.path.join(TOP, "crates/ua_c/include", header))
        for module in ("python/ua.py", "rust/ua.rs"):
            self.put(f"share/ua/{module}", os.path.join(TOP, module))
        self.write("lib/pkgconfig/ua.pc", PC.format(version=self.version))
        self.put_pages()
        self.record(how)

    def move(self, to: str) -> None:
        """Puts each file into its place, and leaves what else is there."""
        for at, _, names in os.walk(self.folder):
            there = os.path.normpath(os.path.join(to, os.path.relpath(at, self.folder)))
            os.makedirs(there, exist_ok=True)
            for name in names:
                place = os.path.join(there, name)
                if os.path.lexists(place):
                    os.remove(place)
                shutil.copy2(os.path.join(at, name), place, follow_symlinks=False)

def source() -> str:
    """The commit, and whether files differ from it."""
    try:
        commit = run("git", "rev-parse", "HEAD").strip()
        return commit + " changed" * bool(run("git", "status", "--porcelain").strip())
    except (SystemExit, FileNotFoundError):
        return "of no commit"

def proved() -> tuple[str, str]:
    """The program and the archive that are proved; what the gate kept is taken first."""
    crates = os.path.join(TOP, "crates")
    keep(["ua_c", "ua_cli"])
    for words, crate in ((("rt", "run", "--", "version"), "ua_cli"), (("rt", "lib"), "ua_c")):
        if subprocess.run(words, cwd=os.path.join(crates, crate), stdout=sys.stderr, check=False).returncode:
            raise SystemExit(f"install: {crate} is not proved")
    return os.path.join(crates, "ua_cli/out/ua_cli"), os.path.join(crates, "ua_c/out/libua_c.a")

def option(words: list[str], name: str) -> str:
    """The word behind an option, which are taken out.

    >>> words = ["--program", "ua", "/usr"]
    >>> option(words, "--program"), words
    ('ua', ['/usr'])
    """
    if name not in words:
        return ""
    at = words.index(name)
    given = words[at + 1:at + 2]
    del words[at:at + 2]
    return given[0] if given else ""

# ---- what is installed is tried

PROGRAM = r"""
#include <stdio.h>
#include <string.h>
#include <ua.h>

int main(void)
{
    const uint8_t *type = (const uint8_t *)"Int32", *text = (const uint8_t *)"5", *url = (const uint8_t *)"opc.tcp://localhost:4840";
    struct ua_limits limits = {sizeof limits, 65535, 65535, 1048576, 256};
    struct ua_handle client = {0};
    uint8_t octets[64];
    size_t count = 0;
    if (ua_encode_value(type, 5, text, 1, octets, sizeof octets, &count) != UA_OK)
        return 1;
    for (size_t at = 0; at < count; at++)
        printf("%02x", octets[at]);
    if (ua_client_new(&limits, url, 24, &client) != UA_OK || ua_client_hello(&client) != UA_OK)
        return 2;
    if (ua_fetch(&client, octets, sizeof octets, &count) != UA_OK)
        return 3;
    printf(" %.4s %zu\n", (const char *)octets, count);
    ua_free(&client);
    return 0;
}
"""
PRINTED = "0605000000 HELF 56\n"
CPP = r"""
#include <cstdio>
#include <ua.hpp>

int main()
{
    std::uint8_t room[64];
    for (auto octet : ua::encode_value("Int32", "5", room))
        std::printf("%02x", octet);
    ua::Client client("opc.tcp://localhost:4840");
    client.hello();
    auto hello = client.fetch(room);
    std::printf(" %.4s %zu\n", ua::text_of(hello).data(), hello.size());
}
"""
PYTHON = r"""
import ua

client = ua.Client("opc.tcp://localhost:4840")
hello = client.hello()
print(ua.encode("Int32", "5").hex(), hello[:4].decode(), len(hello))
"""
RUST = r"""
#[path = "SHARE/rust/ua.rs"]
mod ua;

fn main() -> ua::Result<()> {
    for octet in ua::encode_value("Int32", "5")? {
        print!("{octet:02x}");
    }
    let mut client = ua::Client::new("opc.tcp://localhost:4840", &ua::Limits::default())?;
    client.hello()?;
    let hello = client.fetch()?;
    println!(" {} {}", String::from_utf8_lossy(&hello[..4]), hello.len());
    Ok(())
}
"""

def same(what: str, got: object, wanted: object) -> None:
    if got != wanted:
        raise SystemExit(f"install: {what} is {got!r} and not {wanted!r}")
    say(f"{what}: as wanted")

def is_there(tool: str, what: str) -> bool:
    if not shutil.which(tool):
        say(f"no {tool}: {what} is passed over")
    return bool(shutil.which(tool))

def try_record(root: str) -> str:
    """The sums of the record, and the program against what it says; how it was built comes back."""
    lines = text_of(f"{root}/{RECORD}").splitlines()
    given = dict(line.split(" ", 1) for line in lines if re.match(r"(version|built) ", line))
    sums = dict(reversed(line.split("  ", 1)) for line in lines if re.match(r"[0-9a-f]{64}  ", line))
    others = []
    for name, sum_of in sums.items():
        with open(f"{root}/{name}", "rb") as file:
            others += [name] * (hashlib.sha256(file.read()).hexdigest() != sum_of)
    same(f"what has another sum, of {len(sums)} files", others, [])
    line = run(f"{root}/bin/ua", "version")
    same("the version", line.split()[:2], ["ua", given["version"]])
    if given["built"] in ("proved", "unproved"):
        same("whether ua version says unproved", "unproved" in line.split(), given["built"] == "unproved")
    return given["built"]

def try_symbols(root: str, header: str) -> None:
    plain = re.sub(r"static inline .*?\n}|/\*.*?\*/", "", header, flags=re.S)
    wanted = sorted(set(re.findall(r"\b(ua_\w+)\(", plain)))
    for name, flag in (("libua.a", "-g"), ("libua.so.0", "-D")):
        lines = run("nm", flag, "--defined-only", f"{root}/lib/{name}").splitlines()
        same(f"the symbols of {name}", sorted(it.split()[-1] for it in lines if len(it.split()) == 3), wanted)
    if is_there("readelf", "the soname"):
        found = re.search(r"SONAME.*\[(.*)\]", run("readelf", "-d", f"{root}/lib/libua.so.0"))
        same("the soname", found and found.group(1), "libua.so.0")

def try_compiling(root: str, work: str) -> None:
    """A program in C and one in C++, against the shared library, and the first against the static one too."""
    source, where = f"{work}/try.c", {"PKG_CONFIG_PATH": f"{root}/lib/pkgconfig"}
    with open(source, "w", encoding="utf-8") as file:
        file.write(PROGRAM)
    flags = run("pkg-config", "--cflags", "--libs", "ua", **where).split()
    strict = ["cc", "-std=c11", "-Wall", "-Wextra", "-Werror", source]
    run(*strict, *flags, "-o", f"{work}/shared")
    same("a program with the shared library", run(f"{work}/shared", LD_LIBRARY_PATH=f"{root}/lib"), PRINTED)
    if is_there("c++", "a program in C++"):
        with open(f"{work}/try.cpp", "w", encoding="utf-8") as file:
            file.write(CPP)
        run("c++", "-std=c++17", "-Wall", "-Wextra", "-Werror", f"{work}/try.cpp", *flags, "-o", f"{work}/cpp")
        same("a program in C++", run(f"{work}/cpp", LD_LIBRARY_PATH=f"{root}/lib"), PRINTED)
    static = run("pkg-config", "--static", "--cflags", "--libs", "ua", **where).split()
    run(*strict, "-Wl,-Bstatic", *static, "-Wl,-Bdynamic", "-o", f"{work}/static")
    same("a program with the static library", run(f"{work}/static"), PRINTED)
    same("its version by pkg-config", run("pkg-config", "--modversion", "ua", **where), run(f"{root}/bin/ua", "version").split()[1] + "\n")

def try_modules(root: str, work: str) -> None:
    """A program over each module, with the libraries that are there."""
    share = f"{root}/share/ua"
    found = {"PYTHONPATH": f"{share}/python", "UA_LIBRARY": f"{root}/lib/libua.so", "PYTHONDONTWRITEBYTECODE": "1"}
    same("a program in Python", run(sys.executable, "-c", PYTHON, **found), PRINTED)
    if is_there("rustc", "a program in Rust"):
        with open(f"{work}/try.rs", "w", encoding="utf-8") as file:
            file.write(RUST.replace("SHARE", share))
        run("rustc", "--edition", "2024", "-O", f"{work}/try.rs", "-C", f"link-arg={root}/lib/libua.a", "-o", f"{work}/rust")
        same("a program in Rust", run(f"{work}/rust"), PRINTED)

def try_pages(root: str) -> None:
    pages = sorted(os.listdir(f"{root}/share/man/man1")) if os.path.isdir(f"{root}/share/man/man1") else []
    if pages and is_there("man", "the pages"):
        for name in pages:
            run("man", "--warnings", "-l", f"{root}/share/man/man1/{name}", MANPAGER="cat")
        say(f"{len(pages)} pages: read by man")
    words = f"{root}/share/bash-completion/completions/ua"
    if os.path.isfile(words) and is_there("bash", "the completion"):
        script = f'. "{words}"; COMP_WORDS=(ua read 4840 --na); COMP_CWORD=3; _ua; echo "${{COMPREPLY[*]}}"'
        same("a word that bash completes", run("bash", "-c", script), "--names\n")

def try_all(root: str) -> None:
    """Tries what is installed in a folder."""
    with tempfile.TemporaryDirectory(prefix="ua-try-") as work:
        how = try_record(root)
        if is_there("nm", "the symbols"):
            try_symbols(root, text_of(f"{root}/include/ua.h"))
        if is_there("cc", "a program in C") and is_there("pkg-config", "a program in C"):
            try_compiling(root, work)
        try_modules(root, work)
        try_pages(root)
        say(f"all of it, built {how}")

def put_all(to: str, program: str, library: str, is_unproved: bool) -> None:
    """Installs what is proved, these files, or builds without a proof, into a folder."""
    with tempfile.TemporaryDirectory(prefix="ua-install-") as folder:
        tree = Tree(folder)
        if is_unproved:
            made = {"program": os.path.join(folder, "ua"), "library": os.path.join(folder, "ua_c.o")}
            unproved(made)
            tree.fill(*made.values(), "unproved")
        elif program:
            tree.fill(os.path.abspath(program), os.path.abspath(library), "elsewhere: nothing is known of a proof")
        else:
            tree.fill(*proved(), "proved")
        tree.move(to)
        say(f"{len(tree.files()) + 2} files are in {to}; {RECORD} tells what was built")

# ---- a version

GATE = os.path.join(TOP, ".ci", "run")
PASSED = re.compile(r"\d+ passed, 0 failed")

def judge(version: str) -> None:
    """Ends where this commit is none of this version."""
    if run("git", "status", "--porcelain").strip():
        raise SystemExit("release: files differ from the commit: git status lists them")
    named = version_in(text_of(os.path.join(TOP, VERSION)))
    if named != version:
        raise SystemExit(f"release: {VERSION} has the version {named}")
    if not re.search(rf"^## \[?v?{re.escape(version)}\b", text_of(os.path.join(TOP, "CHANGELOG.md")), re.M):
        raise SystemExit(f"release: CHANGELOG.md has no heading of {version}")

def passed(gate: list[str]) -> str:
    """The last line of the gate, which passed; its lines are shown as they come."""
    line = ""
    with subprocess.Popen(gate, cwd=TOP, stdout=subprocess.PIPE, text=True, errors="replace") as running:
        for line in running.stdout:
            print(line, end="", flush=True)
    if running.returncode or not PASSED.fullmatch(line.strip()):
        raise SystemExit(f"release: the gate did not pass: status {running.returncode}, and last {line.strip()!r}")
    return line.strip()

def libraries_of_kit(crates: str) -> list[str]:
    """The libraries of the kit that the installed crates use, by crates.txt.

    >>> libraries_of_kit("# a\\nlow: bytes\\nua_cli: low hex\\nua_c staticlib: std_heap low\\nrows: uuid\\n")
    ['bytes', 'hex', 'std_heap']
    """
    uses = {line.split(":")[0].split()[0]: line.split(":")[1].split() for line in crates.split("\n") if ":" in line and not line.startswith("#")}
    found, wanted = set(), ["ua_cli", "ua_c"]
    for name in wanted:
        wanted += [it for it in uses.get(name, []) if it not in wanted]
        found |= {it for it in uses.get(name, []) if it not in uses}
    return sorted(found)

def called_by(path: str) -> list[str]:
    """The functions of the C library that a file calls: what they do is a statement, and not proved."""
    words = ["nm", "-u"] + (["-D"] if path.endswith("/ua") else [])
    names = re.findall(r"^\s+[Uw] (\w+)", run(*words, path), re.M)
    return sorted({it for it in names if not re.match(r"_ITM_|__cxa_|__gmon|__libc_start|_GLOBAL_OFFSET", it)})

def trusted(root: str) -> list[str]:
    """What is trusted: the kit, the statements of its libraries, and those of the C functions that the files call."""
    crates = libraries_of_kit(text_of(os.path.join(TOP, "crates.txt")))
    return [
        "trusted the kit: its compiler, prover, logic and standard library", f"trusted the statements of the kit's libraries {' '.join(crates)}",
        f"trusted the C functions that bin/ua calls: {' '.join(called_by(f'{root}/bin/ua'))}",
        f"trusted the C functions that lib/libua.a calls: {' '.join(called_by(f'{root}/lib/libua.a'))}",
    ]

def archive(root: str, name: str, moment: int) -> bytes:
    """A folder as a tar file: sorted, with one time and no owners."""
    made = io.BytesIO()
    with gzip.GzipFile(filename="", mode="wb", fileobj=made, mtime=0) as packed, tarfile.open(fileobj=packed, mode="w", format=tarfile.GNU_FORMAT) as tar:
        paths = [root] + sorted(os.path.join(at, it) for at, folders, names in os.walk(root) for it in folders + names)
        for path in paths:
            one = tar.gettarinfo(path, os.path.normpath(os.path.join(name, os.path.relpath(path, root))))
            one.mtime, one.uid, one.gid, one.uname, one.gname = moment, 0, 0, "", ""
            one.mode = 0o755 if one.isdir() or one.mode & 0o100 else 0o644
            with open(path, "rb") if one.isreg() else io.BytesIO() as file:
                tar.addfile(one, file if one.isreg() else None)
    return made.getvalue()

def put(folder: str, files: dict[str, bytes]) -> None:
    os.makedirs(folder, exist_ok=True)
    files["SHA256SUMS"] = "".join(f"{hashlib.sha256(text).hexdigest()}  {name}\n" for name, text in sorted(files.items())).encode()
    for name, text in files.items():
        with open(os.path.join(folder, name), "wb") as file:
            file.write(text)
        print(f"release: {os.path.join(folder, name)}")

def release(version: str, gate: str, to: str, program: str, library: str) -> None:
    judge(version)
    line = passed([gate])
    with tempfile.TemporaryDirectory(prefix="ua-release-") as folder:
        root, name = os.path.join(folder, "tree"), f"ua-{version}"
        put_all(root, program, library, False)
        try_all(root)
        record = "\n".join([text_of(os.path.join(root, RECORD)).rstrip("\n"), f"gate {line}", *trusted(root), ""])
        with open(os.path.join(root, RECORD), "w", encoding="utf-8") as file:
            file.write(record)
        moment = int(run("git", "log", "-1", "--format=%ct"))
        put(to, {
            f"{name}-linux-x86_64.tar.gz": archive(root, name, moment), "RECORD": record.encode(),
            "DEFINITIONS.md": write_definitions.definitions_page().encode(),
        })

def main(words: list[str]) -> int:
    program, library, at, version = (option(words, it) for it in ("--program", "--library", "--at", "--release"))
    gate, to = option(words, "--gate") or GATE, option(words, "--to") or os.path.join(TOP, "release")
    is_trial, is_unproved = "--try" in words, "--unproved" in words
    prefix = [it for it in words if it not in ("--unproved", "--try")]
    if len(prefix) != (not is_trial and not version) or prefix and not prefix[0].startswith("/") or bool(program) != bool(library) or program and is_unproved:
        print(__doc__, file=sys.stderr)
        return 2
    if version:
        release(version, gate, to, program, library)
    elif not is_trial:
        put_all(os.environ.get("DESTDIR", "") + prefix[0], program, library, is_unproved)
    elif at:
        try_all(at)
    else:
        with tempfile.TemporaryDirectory(prefix="ua-try-") as work:
            put_all(f"{work}/opt/ua", program, library, is_unproved)
            try_all(f"{work}/opt/ua")
    return 0

if __name__ == "__main__":
    sys.exit(main(sys.argv[1:]))
