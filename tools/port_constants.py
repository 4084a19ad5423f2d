#!/usr/bin/env python3
"""Gives definitions of specs/ names of their own where a constant of src/ has the same: a clause now reads such a name as the constant.

usage: python3 tools/port_constants.py    at the top, once, after port_names.py

It turns the .antt files, and in the .rt files the imports and the clauses that name such a definition. The code keeps its constants.
"""

import glob
import re

NEW = {
    "AXES": "axes_table",
    "AXES_FROM": "axes_from",
    "AXES_SDL": "axes_sdl",
    "AXIS_DPADX": "axis_dpadx",
    "AXIS_DPADY": "axis_dpady",
    "AXIS_LAST": "axis_last",
    "AXIS_LT": "axis_lt",
    "AXIS_LT2": "axis_lt2",
    "AXIS_RT": "axis_rt",
    "AXIS_RT2": "axis_rt2",
    "BUILT_MAX": "built_line_max",
    "BUTTONS": "sample_buttons",
    "BUTTON_LAST": "button_last",
    "CODES_MAX": "codes_max",
    "CODE_UNIT": "code_unit",
    "ELEMENTS": "element_count",
    "HELD_MAX": "held_max",
    "IDENT_MAX": "ident_max",
    "KEYS": "key_count",
    "KEY_FIRST": "key_first",
    "LIST_MAX": "list_max",
    "NAME_MAX": "name_max",
    "ROWS": "row_count",
    "SHAPE_UNIT": "shape_unit",
}
TOKEN = re.compile(r"--[^\n]*\"[^\n]*|(?<![\w'.-])(specs\.)?([A-Z][A-Z0-9_]*)(?![\w'-])")


def turn(text, names):
    """(what a comment quotes of a paper stays)"""
    return TOKEN.sub(lambda m: m.group(0) if not m.group(2) else (m.group(1) or "") + (NEW[m.group(2)] if m.group(2) in NEW and (m.group(1) or m.group(2) in names) else m.group(2)), text)


def turn_source(text):
    names = set()
    for uses in re.findall(r"^ghost use [^;{]*specs\.[^;{]*\.\{([^}]*)\};", text, re.M):
        names |= {n.strip() for n in uses.split(",")}
    out, opened = [], 0
    for line in text.split("\n"):
        if opened or re.match(r"\s*(requires|ensures|ghost)\b", line):
            opened += line.count("{") - line.count("}")
            line = turn(line, names)
        out.append(line)
    return "\n".join(out)


for path in sorted(glob.glob("crates/*/specs/**/*.antt", recursive=True) + glob.glob("crates/*/proofs/**/*.antt", recursive=True) + glob.glob("crates/*/src/**/*.rt", recursive=True)):
    with open(path, encoding="utf-8") as f:
        text = f.read()
    new = turn_source(text) if path.endswith(".rt") else turn(text, NEW)
    if new != text:
        with open(path, "w", encoding="utf-8") as f:
            f.write(new)
