"""From the LLVM module of the program, as it is handed to clang for x86-64, to a WebAssembly module.

Five things are changed in the module's text, and nothing else:
1. the two lines that name the target;
2. the words of each function that are for an x86 processor;
3. C's `main`, which asks the processor what it can do and has SIGPIPE ignored, gives way to an export `start`: the call that `main` makes;
4. what `main` alone had needed of C is no longer declared;
5. each function of C that is left is an import from the host, by its own name.
The kit's own clang, llvm-ar and rattle-link do the rest; the last lists what is imported, and refuses a name that nobody has.
"""
import re
import subprocess

TARGET = "wasm64-unknown-unknown"
# As the toolchain writes them for a library of this target.
LAYOUT = 'target datalayout = "e-m:e-p:64:64-p10:8:8-p20:8:8-i64:64-i128:128-n32:64-S128-ni:1:10:20"'
TRIPLE = f'target triple = "{TARGET}"'
OPTIONS = ["-mcpu=lime1", "-mllvm", "-expand-div-rem-bits=64", "-mllvm", "-expand-fp-convert-bits=64", "-ffunction-sections", "-fdata-sections"]
IR = ["--no-default-config", "-x", "ir"]
STACK = 1 << 20
# LLVM itself makes calls of these, and rattle-link has them.
HELPERS = {"memcpy", "memmove", "memset", "memcmp"}
OF_MAIN = "__sysv_signal|__x86_get_cpuid_feature_leaf|__write"
OF_THE_PROCESSOR = re.compile(r'"(?:probe-stack|stack-probe-size|target-cpu|target-features)"="[^"]*"')
MAIN = re.compile(r"^define i32 @main\(\).*?^}\n", re.M | re.S)
START = re.compile(r'call i32 (@"[^"]*\+start")\(\)')
DECLARED = re.compile(r"^(declare [^\n@]*@([\w.$]+)\([^\n]*?)( #\d+)?$", re.M)
GROUP = re.compile(r"^attributes #(\d+) = \{(.*)\}$", re.M)
# The greatest number of a group of attributes that a module has is far below.
OWN_GROUPS = 100_000
TO_WASM32 = ["--enable-memory64", "--enable-bulk-memory", "--enable-sign-ext", "--enable-nontrapping-float-to-int", "--enable-mutable-globals", "--memory64-lowering"]


def for_wasm(module):
    """The text of a module for x86-64, as one for WebAssembly."""
    main = MAIN.search(module)
    start = START.search(main[0])[1]
    module = module[: main.start()] + f"define i32 @start() #{OWN_GROUPS} {{\n  %r = call i32 {start}()\n  ret i32 %r\n}}\n" + module[main.end() :]
    module = re.sub(rf"^declare [^\n]*@(?:{OF_MAIN})\([^\n]*\n", "", module, flags=re.M)
    module, layouts = re.subn(r"^target datalayout = .*$", LAYOUT, module, flags=re.M)
    module, triples = re.subn(r"^target triple = .*$", TRIPLE, module, flags=re.M)
    if (layouts, triples) != (1, 1):
        raise ValueError("the module does not name its target once")
    return with_imports(OF_THE_PROCESSOR.sub("", module))


def with_imports(module):
    """The text of a module in which each function of C is an import of the host, and `start` is exported."""
    words = dict(GROUP.findall(module))
    groups = [' nounwind "wasm-export-name"="start" ']

    def imported(found):
        declared, name, group = found.groups()
        if name.startswith("llvm.") or name in HELPERS:
            return found[0]
        groups.append(f'{words[group[2:]] if group else " nounwind "}"wasm-import-module"="env" "wasm-import-name"="{name}" ')
        return f"{declared} #{OWN_GROUPS + len(groups) - 1}"

    module = DECLARED.sub(imported, module)
    return module + "".join(f"\nattributes #{OWN_GROUPS + k} = {{{it}}}" for k, it in enumerate(groups)) + "\n"


def compiled(kit, module, room, to):
    """Makes the WebAssembly module `to` of a bitcode file, with its parts in the folder `room`."""
    clang, text = kit / "toolchain/bin/clang", room / "module.ll"
    ran(clang, "--target=x86_64-unknown-linux-gnu", *IR, "-S", "-emit-llvm", "-Xclang", "-disable-llvm-passes", "-o", text, module)
    text.write_text(for_wasm(text.read_text("utf-8")), "utf-8")
    ran(clang, f"--target={TARGET}", *OPTIONS, "-O3", "-Xclang", "-fmerge-functions", "-c", *IR, text, "-o", room / "module.o")
    ran(kit / "toolchain/bin/llvm-ar", "--format=gnu", "rcs", room / "libmodule.a", room / "module.o")
    ran(kit / "bin/rattle-link", "--target", TARGET, "--toolchain", kit / "toolchain", "--stack", STACK, "-o", to, room / "libmodule.a")


def lowered(wasm_opt, module, to):
    """Makes the twin with a memory of 32 bits, for engines that have no other."""
    ran(wasm_opt, *TO_WASM32, module, "-o", to)


def ran(*words):
    subprocess.run([str(it) for it in words], check=True)
