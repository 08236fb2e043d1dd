"""What the instructions of x86-64 (in Intel's notation) and of Arm's 64 bits do with values that come from memory.

`effects` gives it in order: ("read", register, place), ("write", register, place, bytes), ("move", register, the registers that
its value may come from as it is, none for a new value), ("copy",) for an instruction that copies by itself. A place is an
address as it is written, with what the linker adds to it. An instruction that is not known to compute a new value is taken for
one that may leave a value as it was.
"""
import re

# The place of a value that another function read.
ELSEWHERE = "elsewhere"


class Unknown(Exception):
    """An instruction of which it is not known what it writes."""


def split(text):
    """Operands, split at the commas that stand in no bracket."""
    return [part.strip() for part in re.findall(r"(?:[^,\[{]|\[[^\]]*\]|\{[^}]*\})+", text)]


def x86_registers():
    """The register that each name is a part of."""
    names = {}
    for a in "abcd":
        names.update(dict.fromkeys((f"r{a}x", f"e{a}x", f"{a}x", f"{a}l", f"{a}h"), f"r{a}x"))
    for a in ("si", "di", "bp", "sp"):
        names.update(dict.fromkeys((f"r{a}", f"e{a}", a, f"{a}l"), f"r{a}"))
    for i in range(8, 16):
        names.update(dict.fromkeys((f"r{i}", f"r{i}d", f"r{i}w", f"r{i}b"), f"r{i}"))
    for i in range(32):
        names.update(dict.fromkeys((f"xmm{i}", f"ymm{i}", f"zmm{i}"), f"xmm{i}"))
    return names


class X86:
    name = "x86-64"
    registers = x86_registers()
    bytes = {"byte": 1, "word": 2, "dword": 4, "qword": 8, "xmmword": 16, "ymmword": 32, "zmmword": 64, "tbyte": 10}
    arguments = ("rdi", "rsi", "rdx", "rcx", "r8", "r9", *(f"xmm{i}" for i in range(8)))
    volatile = ("rax", "r10", "r11", *arguments, *(f"xmm{i}" for i in range(8, 32)))
    ends = re.compile(r"(jmp|ret|ud2|int3|hlt)$")
    jumps = re.compile(r"j")
    calls = re.compile(r"call$")
    odd = re.compile(r"(lock|bnd|notrack|xadd|cmpxchg|v?p?maskmov|v?p?scatter|xsave|fxsave|f[a-z]*stp?$)")
    no_effect = re.compile(r"(j|call|ret|cmp$|test|bt$|v?u?comis|nop|endbr|prefetch|ud2|int3|hlt)")
    whole = re.compile(r"v?mov(?![lh]p)")
    new = re.compile(
        r"v?(add|sub|adc|sbb|inc|dec|neg|not|i?mul|i?div|lea|set|cvt|sqrt|rcp|rsqrt|round|max|min|p?movmsk|cmp|pcmp|padd|psub|pmul|pmadd|psad"
        r"|pavg|pabs|pmax|pmin|popcnt|lzcnt|tzcnt|bs[fr]|bt[src]|cbw|cwde|cdqe|cwd|cdq|cqo)"
    )
    implied = {"div": ("rax", "rdx"), "idiv": ("rax", "rdx"), "mul": ("rax", "rdx"), "imul": ("rax", "rdx")}
    implied |= {"cbw": ("rax",), "cwde": ("rax",), "cdqe": ("rax",), "cwd": ("rdx",), "cdq": ("rdx",), "cqo": ("rdx",), "leave": ("rsp", "rbp")}

    @classmethod
    def place(cls, operand, linked):
        """The address and the bytes of an operand in memory."""
        m = re.match(r"(\w+) ptr ([^{]+)$", operand)
        if " ptr " in operand and not (m and m.group(1) in cls.bytes):
            raise Unknown(operand)
        return (m.group(2).replace(" ", "") + linked, cls.bytes[m.group(1)]) if m else None

    @classmethod
    def registers_of(cls, place):
        return {cls.registers[name] for name in re.findall(r"[a-z]\w*", place.split("@")[0]) if name in cls.registers}

    @classmethod
    def stack(cls, name, register, place):
        if name == "pop":
            return [("move", "rsp", []), ("read", register, ELSEWHERE)]
        read = [("read", "memory", place[0])] if place else []
        return read + [("move", "rsp", []), ("write", "memory" if place else register, "rsp", 8)]

    @classmethod
    def effects(cls, name, operands, linked):
        if cls.odd.match(name):
            raise Unknown(f"{name} {operands}")
        if "es:[" in operands:
            moved = [("move", register, []) for register in ("rsi", "rdi", "rcx")]
            return moved if "stos" in name + operands else [("copy",), *moved]
        parts = split(operands)
        implied = [("move", register, []) for register in cls.implied.get(name, ()) if len(parts) < 2]
        if not parts or cls.no_effect.match(name):
            return implied
        places, names = [cls.place(p, linked) for p in parts], [cls.registers.get(p) for p in parts]
        if name in ("push", "pop"):
            return cls.stack(name, names[0], places[0])
        if name == "xchg" and all(names):
            return [("move", register, names) for register in names]
        new = cls.new.match(name) or "xor" in name and len(set(parts[-2:])) == 1
        if places[0]:
            return implied if new else [("write", register, *places[0]) for register in names[1:] if register]
        if new:
            return implied + [("move", names[0], [])] * bool(names[0])
        sources = ["memory" if place else register for place, register in zip(places, names)]
        read = [("read", "memory", place[0]) for place in places if place]
        return read + [("move", names[0], [s for s in sources[bool(cls.whole.match(name)) :] if s])] * bool(names[0])


class Arm:
    name = "aarch64"
    bytes = {"b": 1, "h": 2, "s": 4, "w": 4, "x": 8, "d": 8, "q": 16, "v": 16}
    arguments = (*(f"x{i}" for i in range(9)), *(f"v{i}" for i in range(8)))
    volatile = (*(f"x{i}" for i in range(19)), *(f"v{i}" for i in range(32)))
    ends = re.compile(r"(br?|ret|brk|udf)$")
    jumps = re.compile(r"(br?|b\..*|cbn?z|tbn?z)$")
    calls = re.compile(r"blr?$")
    no_effect = re.compile(r"(br?|blr?|b\..*|cbn?z|tbn?z|cmp|cmn|tst|ccm[pn]|fc?cmpe?|nop|bti|prfm|ret|brk|udf)$")
    new = re.compile(
        r"(add|sub|adc|sbc|ngc|neg|mvn|adrp?$|mul|mneg|madd|msub|mla|mls|[us]?mull|[us]mulh|[us]madd|[us]msub|[us]div|cset|cl[sz]|cnt|rbit|movi|mvni"
        r"|f(add|sub|mul|div|n?madd|n?msub|sqrt|abs|neg|max|min|cvt|rint|cm|ac)|[us]cvtf|cm(eq|ge|gt|hi|hs|le|lt|tst)|[us]?addl|[us]?addw|[us]?addv"
        r"|[us]max|[us]min|[us]aba|[us]abd|abs|[us]sub|pmul)"
    )
    part = re.compile(r"(movk|bf|ins|bi[ft]|bsl|tbx|s[lr]i$)")

    @staticmethod
    def register(text):
        m = re.match(r"([wxbhsdqv])(\d+)", text)
        return ("x" if m.group(1) in "wx" else "v") + m.group(2) if m else "sp" if text == "sp" else None

    @classmethod
    def listed(cls, part):
        """The registers of an operand, each as it is written: of a list, of a range of vectors, or the one."""
        if m := re.match(r"\{\s*v(\d+)[.\w]*\s*-\s*v(\d+)", part):
            return [f"v{i}" for i in range(int(m.group(1)), int(m.group(2)) + 1)]
        return [text.strip() for text in part.strip("{} ").split(",")]

    @classmethod
    def registers_of(cls, place):
        return {cls.register(name) for name in re.findall(r"[a-z]+\d*", place.split("@")[0])} - {None}

    @classmethod
    def memory(cls, name, parts, at, linked):
        """One register or more, each with its part of the place; then the address may move on."""
        if not re.match(r"(ld|st)(?!.*x[pr])", name):
            raise Unknown(name)
        base, offset = re.match(r"\[(.*?)(?:, #(-?\w+))?\]", parts[at]).groups()
        narrow, place, effects = re.search(r"r[su]?([bh])$", name), int(offset or "0", 0), []
        for text in (text for part in parts[:at] for text in cls.listed(part)):
            size, register = cls.bytes[narrow.group(1) if narrow else text[0]], cls.register(text)
            if register:
                here = f"{base}+{place}{linked}"
                effects.append(("read", register, here) if name.startswith("ld") else ("write", register, here, size))
            place += size
        if parts[at].endswith("!") or parts[at + 1 :]:
            effects.append(("move", cls.register(base), []))
        return effects

    @classmethod
    def effects(cls, name, operands, linked):
        parts = split(operands)
        if name.startswith("cpy"):
            return [("copy",)]
        if not parts or cls.no_effect.match(name):
            return []
        at = next((i for i, part in enumerate(parts) if part.startswith("[")), None)
        if at is not None:
            return cls.memory(name, parts, at, linked)
        names = [[r for text in cls.listed(part) if (r := cls.register(text))] for part in parts]
        if not names[0]:
            return []
        kept = names[0] if cls.part.match(name) or "[" in parts[0] else []
        sources = [] if cls.new.match(name) else kept + [r for more in names[1:] for r in more]
        return [("move", register, sources) for register in names[0]]
