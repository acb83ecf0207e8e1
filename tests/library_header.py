#!/usr/bin/python3
"""Compares include/vogrilas.h with what else says the same, for tests/library: the exports of crates/vogrilas_c, by names,
parameters and results; the names in the archive; the codes of node_handle; and in each language the structs, by sizes and offsets.

    library_header.py ARCHIVE C_LAYOUT [RUST_LAYOUT]    compares; the layouts are what the programs of that language print
    library_header.py --program                         writes the C program that prints sizes and offsets

The package in Python is the one on the path. The status is 1 where something differs."""

import ctypes
import pathlib
import re
import subprocess
import sys

TOP = pathlib.Path(__file__).resolve().parent.parent
HEADER = re.sub(r"/\*.*?\*/", " ", (TOP / "include" / "vogrilas.h").read_text(encoding="utf-8"), flags=re.S)
SOURCES = {
    name: (TOP / path).read_text(encoding="utf-8")
    for name, path in {
        "exports": "crates/vogrilas_c/src/lib.rt",
        "refusals": "crates/node_handle/src/refusal.rt",
        "payments": "crates/node_handle/src/payments.rt",
        "part": "crates/node_handle/src/part.rt",
        "handle": "crates/node_handle/src/handle.rt",
        "settings": "crates/node_handle/src/settings_handle.rt",
        "messages": "crates/message_making/src/fields.rt",
        "rust": "bindings/rust/src/sys.rs",
        "rust codes": "bindings/rust/src/error.rs",
    }.items()
}

# What the C side has for a parameter of an export. An allocator takes no bytes, so C passes nothing for it.
PARAMETERS = {
    "Global": [],
    "&mut NodeHandle": ["vogrilas_node *"],
    "&mut SettingsHandle": ["vogrilas_settings *"],
    "&[u8]": ["const void *", "size_t"],
    "&mut [u8]": ["void *", "size_t"],
    "&[usize]": ["const size_t *", "size_t"],
    "&mut [PlainPayment]": ["vogrilas_payment *", "size_t"],
    "&PlainBilling": ["const vogrilas_billing *"],
    "&PlainReversal": ["const vogrilas_reversal *"],
    "&mut u32": ["uint32_t *"],
    "&mut usize": ["size_t *"],
    "&mut u64": ["uint64_t *"],
    "u16": ["uint16_t"],
    "u32": ["uint32_t"],
    "u64": ["uint64_t"],
    "usize": ["size_t"],
}
# The size of a type, and to how much it is aligned.
TYPES = {
    "u8": (1, 1),
    "bool": (1, 1),
    "u16": (2, 2),
    "u32": (4, 4),
    "u64": (8, 8),
    "*mut u8": (8, 8),
    "Part": (8, 8),
    "SettingsPart": (8, 8),
    "PlainHeader": (57, 1),
}
# Structs whose fields are the library's own.
HANDLES = ("vogrilas_node", "vogrilas_settings")
wrong = []


def expect(what, one, other):
    if one != other:
        wrong.append(f"{what}: {one} in the header, {other} there")


def prototypes():
    """Each call of the header: its parameters' types and its result."""
    for result, name, inside in re.findall(r"^(\w+) (vogrilas_\w+)\(([^)]*)\);", HEADER, flags=re.M):
        given = [re.sub(r"\w+$", "", " ".join(it.split())).strip() for it in inside.split(",") if it.strip() != "void"]
        yield name, given, result


def exports():
    """The same of each export, in C's words."""
    pattern = r'pub extern "C" fn (vogrilas_\w+)\(([^)]*)\)(?:\s*->\s*(\w+))?'
    for name, inside, result in re.findall(pattern, SOURCES["exports"]):
        types = [it.split(":", 1)[1].strip() for it in inside.split(",") if ":" in it]
        word = "uint32_t" if name == "vogrilas_version" else "vogrilas_code"
        yield name, [it for one in types for it in PARAMETERS[one]], word if result else "void"


def structs():
    """Each struct of the header: its fields, and how many elements an array has."""
    for body, name in re.findall(r"typedef struct \w+ \{([^}]*)\} (\w+);", HEADER):
        yield name, re.findall(r"(\w+)(?:\[\d+\])?;", body)


def program():
    """The C program that prints sizes and offsets."""
    lines = [f'    printf("{name} %zu\\n", sizeof({name}));' for name, _ in structs()]
    lines += [
        f'    printf("{name}.{it} %zu\\n", offsetof({name}, {it}));' for name, fields in structs() for it in fields
    ]
    lines += [f'    printf("{code} %d\\n", {code});' for code in codes()]
    return '#include <stdio.h>\n#include "vogrilas.h"\nint main(void) {\n' + "\n".join(lines) + "\n    return 0;\n}\n"


def codes():
    """The codes of the header with their numbers."""
    return {name: int(number) for name, number in re.findall(r"\b(VOGRILAS_[A-Z_]+) = (\d+)", HEADER)}


def laid_out(source, name):
    """The size and the offsets of a struct of the exports, as C lays out its fields."""
    body = re.search(
        rf"#\[repr\(C\)\]\s*(?:#\[derive\([^)]*\)\]\s*)?pub struct {name} \{{(.*?)\n\}}", source, flags=re.S
    ).group(1)
    place, most, offsets = 0, 1, {}
    for field, kind in re.findall(
        r"^\s*(?:pub )?(\w+): ([^,\n]+),",
        re.sub(r"///[^\n]*|pub ghost[^\n]*|^\s*ghost[^\n]*", "", body, flags=re.M),
        flags=re.M,
    ):
        array = re.match(r"\[(\w+); (\d+)\]", kind)
        size, align = TYPES[array.group(1) if array else kind]
        place = -(-place // align) * align
        offsets[field] = place
        place += size * (int(array.group(2)) if array else 1)
        most = max(most, align)
    return -(-place // most) * most, offsets


def rust_enum(text):
    return {"VOGRILAS_" + re.sub(r"(?<!^)(?=[A-Z])", "_", name).upper(): int(number) for name, number in text}


def read_layout(path):
    return dict(line.rsplit(" ", 1) for line in pathlib.Path(path).read_text(encoding="utf-8").splitlines())


def compare_calls(archive):
    header = {name: (given, result) for name, given, result in prototypes()}
    there = {name: (given, result) for name, given, result in exports()}
    expect("calls", sorted(header), sorted(there))
    for name in header.keys() & there.keys():
        expect(name, header[name], there[name])
    told = subprocess.run(["nm", "-g", "--defined-only", archive], capture_output=True, text=True, check=False).stdout
    expect("names in the archive", sorted(header), sorted(set(re.findall(r" T (vogrilas_\w+)", told))))
    rust = re.findall(r"fn (vogrilas_\w+)\(([^)]*)\)", SOURCES["rust"])
    expect("calls in Rust", sorted(header), sorted(name for name, _ in rust))
    for name, inside in rust:
        count = len([it for it in inside.split(",") if it.strip()])
        expect(f"parameters of {name} in Rust", len(header.get(name, ([], ""))[0]), count)
    python = vogrilas_library._CALLS
    expect("calls in Python", sorted(header), sorted(f"vogrilas_{name}" for name in python))
    for name, given in python.items():
        expect(f"parameters of {name} in Python", len(header.get(f"vogrilas_{name}", ([], ""))[0]), len(given))


def compare_codes(layout):
    header = codes()
    told = re.findall(r"Err\(Refusal::(\w+)\) => (\d+)", SOURCES["refusals"])
    variants = re.search(r"pub enum Refusal \{(.*?)\n\}", SOURCES["refusals"], flags=re.S).group(1)
    exported = {
        re.sub("^VOGRILAS_OUT_OF_MEMORY$", "VOGRILAS_NO_MEMORY", it): number for it, number in rust_enum(told).items()
    }
    expect("codes", header, {"VOGRILAS_OK": 0, **exported})
    expect("how many codes", len(header) - 1, len(re.findall(r"^    (\w+),", variants, flags=re.M)))
    expect(
        "codes as C has them",
        {name: str(number) for name, number in header.items()},
        {name: layout.get(name) for name in header},
    )
    expect(
        "codes in Rust",
        header,
        {"VOGRILAS_OK": 0, **rust_enum(re.findall(r"^    (\w+) = (\d+),", SOURCES["rust codes"], flags=re.M))},
    )
    expect("codes in Python", header, {f"VOGRILAS_{it.name}": int(it) for it in vogrilas.Code})


def compare_structs(c_layout, rust_layout):
    layouts = {"C": c_layout}
    exported = {
        "vogrilas_payment": laid_out(SOURCES["payments"], "PlainPayment"),
        "vogrilas_node": laid_out(SOURCES["handle"], "NodeHandle"),
        "vogrilas_settings": laid_out(SOURCES["settings"], "SettingsHandle"),
    }
    exported |= {
        f"vogrilas_{name.lower()}": laid_out(SOURCES["messages"], f"Plain{name}")
        for name in ("Header", "Billing", "Reversal")
    }
    python = {"vogrilas_payment": vogrilas_library.RawPayment, "vogrilas_node": vogrilas_library.Handle}
    python["vogrilas_settings"] = vogrilas_library.SettingsHandle
    python |= {
        f"vogrilas_{name.lower()}": getattr(vogrilas_library, f"Raw{name}")
        for name in ("Header", "Billing", "Reversal")
    }
    for name, fields in structs():
        size, offsets = exported[name]
        expect(f"the size of {name}", c_layout.get(name), str(size))
        expect(f"the size of {name} in Python", c_layout.get(name), str(ctypes.sizeof(python[name])))
        expect(
            f"the offsets of {name}",
            [c_layout.get(f"{name}.{it}") for it in fields],
            [str(it) for it in offsets.values()],
        )
        expect(
            f"the offsets of {name} in Python",
            [c_layout.get(f"{name}.{it}") for it in fields],
            [str(getattr(python[name], it).offset) for it, _ in python[name]._fields_],
        )
        if name not in HANDLES:
            expect(f"the fields of {name}", fields, list(offsets))
            expect(f"the fields of {name} in Python", fields, [it for it, _ in python[name]._fields_])
        if rust_layout:
            expect(f"the size of {name} in Rust", c_layout.get(name), rust_layout.get(name))
            there = {it: c_layout[it] for it in c_layout if it.startswith(f"{name}.") and name not in HANDLES}
            expect(
                f"the offsets of {name} in Rust",
                there,
                {it: rust_layout[it] for it in rust_layout if it.startswith(f"{name}.")},
            )
    return layouts


if sys.argv[1:] == ["--program"]:
    print(program(), end="")
    sys.exit(0)
import vogrilas  # noqa: E402
import vogrilas._library as vogrilas_library  # noqa: E402

c_told = read_layout(sys.argv[2])
compare_calls(sys.argv[1])
compare_codes(c_told)
compare_structs(c_told, read_layout(sys.argv[3]) if len(sys.argv) > 3 else None)
expect("the version", re.search(r"define VOGRILAS_VERSION (\d+)", HEADER).group(1), str(vogrilas_library.VERSION))
expect(
    "the version of the exports",
    str(vogrilas_library.VERSION),
    re.search(r"VERSION: u32 = ([\d_]+);", SOURCES["exports"]).group(1).replace("_", ""),
)
print(
    "\n".join(
        [
            *wrong,
            f"{len(list(prototypes()))} calls, {len(codes())} codes, {len(list(structs()))} structs, {len(wrong)} differences",
        ]
    )
)
sys.exit(1 if wrong else 0)
