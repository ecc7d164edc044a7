#!/usr/bin/env python3
"""Prints the C file that holds the header to the library.

usage: tests/interface/layout.py

Structs: the field types that the compiler has for kettlefrost, from the code of its library that a
program or an archive is linked from, under the names that the source has for them, laid out as C
does. Constants: those of the source, and the cases of operation's tables. The library has to be
built, as rt lib does.
"""
import json
import pathlib
import re
import sys

ROOT = pathlib.Path(__file__).resolve().parents[2]
MIR = ROOT / "crates/kettlefrost/out/rlib/kettlefrost.rlib/toolchain/mir.json"
# In an order in which each struct stands behind those it holds.
STRUCTS = {
    "kf_slot": "slots::Slot", "kf_node_state": "bus_state::NodeState",
    "kf_state": "bus_state::State", "kf_answer": "outcome::Answer",
    "kf_operation": "kettlefrost::FlatOperation", "kf_reading": "kettlefrost::ReadAnswer",
    "kf_part": "kettlefrost::PartAnswer", "kf_written": "kettlefrost::WriteAnswer",
    "kf_register": "open_frames::Register", "kf_register_answer": "open_frames::RegisterAnswer",
}
# The public constants of these crates; and others, by their names in the header.
PUBLIC = ["operation", "bus_state", "open_frames"]
NAMED = {
    "bus_state::SLOT_COUNT": "SLOTS", "bus_state::MAX_PENDING": "SLOTS_PER_NODE",
    "operation::MAX_EXTENDED_ID": "MAX_ID", "arbitration::LAST_ROUND": "MAX_ROUND",
    "submission::LONGEST_BUFFER": "MAX_SUBMIT",
}
# Public for the crates above alone.
INNER = {"bus_state::BYTES_PER_SLOT", "operation::CONFIRM_LENGTH",
         "operation::ARBITRATION_LOST_LENGTH", "operation::BUS_ERROR_LENGTH",
         "operation::WAKEUP_LENGTH", "operation::FORMAT_ERROR_HEAD"}
# The tables in operation: how the header calls a case; and cases that it calls otherwise.
TABLES = {"Code": "{}", "ErrorCode": "{}", "ErrorFlag": "{}_ERROR_FLAG", "ConfigurationKind": "{}",
          "LostBehavior": "{}", "NodeStatus": "{}"}
CASES = {"FdTransmit": "CAN_FD_TRANSMIT", "XlTransmit": "CAN_XL_TRANSMIT"}
ENUM = re.compile(r"^pub enum (\w+) \{\n(.*?)^\}", re.M | re.S)
CASE = re.compile(r"^    (\w+) = (\w+),$", re.M)
STRUCT = re.compile(r"^pub struct (\w+) \{\n(.*?)^\}", re.M | re.S)
FIELD = re.compile(r"^    pub (\w+):", re.M)
CONSTANT = re.compile(r"^(pub )?const ([A-Z_]+): [a-z0-9]+ = ([0-9]+);", re.M)


def fail(what):
    sys.exit(f"layout: {what}")


def sources():
    for path in sorted(ROOT.glob("crates/*/src/lib.rt")):
        yield path.parts[-3], path.read_text(encoding="utf-8")


def field_names():
    """The fields of each struct; one has a name in C that C++ lacks."""
    return {f"{crate}::{struct[1]}": ["reg" if name == "register" else name
                                      for name in FIELD.findall(struct[2])]
            for crate, text in sources() for struct in STRUCT.finditer(text)}


def field_types():
    """The same from what the compiler has."""
    if not MIR.is_file():
        fail(f"there is no {MIR.relative_to(ROOT)}: make target/staticlib/libkettlefrost.a")
    return {kind["name"]: kind["shape"]["Fields"]
            for _, function in json.loads(MIR.read_text(encoding="utf-8"))
            for kind in function["types"] if "Fields" in kind["shape"]}


def tag(name):
    return "library_" + name.split("::")[-1]


def declaration(kind, name):
    if "Array" in kind:
        element, length = kind["Array"]
        return declaration(element, f"{name}[{length['Lit']}]")
    if "Int" in kind:
        return f"uint{kind['Int']}_t {name};"
    if "Named" in kind:
        return f"struct {tag(kind['Named'][0]['name'])} {name};"
    return fail(f"no field type: {kind}")


def held(names, types):
    for header, struct in STRUCTS.items():
        if struct not in names or struct not in types:
            fail(f"no struct {struct}")
        if len(names[struct]) != len(types[struct]):
            fail(f"other fields in the source than in the library: {struct}")
        fields = " ".join(map(declaration, types[struct], names[struct]))
        yield f"struct {tag(struct)} {{ {fields} }};"
        yield f"SIZE({header}, struct {tag(struct)});"
        for name in names[struct]:
            yield f"FIELD({header}, struct {tag(struct)}, {name});"


def constants():
    found = set()
    for crate, text in sources():
        for is_public, name, value in CONSTANT.findall(text):
            full = f"{crate}::{name}"
            if full in NAMED or (is_public and crate in PUBLIC and full not in INNER):
                found.add(full if full in NAMED else crate)
                yield f"CONSTANT(KF_{NAMED.get(full, name)}, {value}u);"
    for full in [*NAMED, *PUBLIC]:
        if full not in found:
            fail(f"the source has no constant {full}")


def table_cases():
    enums = dict(ENUM.findall((ROOT / "crates/operation/src/lib.rt").read_text(encoding="utf-8")))
    for table, form in TABLES.items():
        cases = CASE.findall(enums.get(table, ""))
        if not cases:
            fail(f"no enum operation::{table}")
        for case, number in cases:
            name = CASES.get(case) or form.format(re.sub(r"(?<=[a-z])(?=[A-Z])", "_", case).upper())
            yield f"CONSTANT(KF_{name}, {number}u);"


print('#include "hold.h"')
print("\n".join([*held(field_names(), field_types()), *constants(), *table_cases()]))
