#!/usr/bin/env python3
"""What a hub does with the library: load a list of mapping lines, look a pad up by its GUID, read its line with the
pad's code lists, turn a code into an element, and save what staff have bound.

    bindings/library --shared && bindings/python/example.py bindings/example/pads.txt"""
import sys

from raspteal import Element, Mapping, Refused, Store, Uuid

# What the pad's driver reports, in its order: a line's `b1` is the second button of this list.
BUTTONS = [0x10130, 0x10131, 0x10132, 0x10133, 0x10134]
AXES = [0x30000, 0x30001]


def show(map, code):
    element = map.map(code)
    print(f"  code {code:x} is {'not mapped' if element is None else element}")


def insert(store, path):
    with open(path, "rb") as lines:
        try:
            print(f"{store.insert(lines.read()).count} lines")
        except Refused as stopped:
            if stopped.number not in (21, 25):
                raise
            print(f"{stopped.count} lines\nrefused {stopped.number}: {stopped.meaning}; the lines before it are filed")


def rebound(map):
    """What the map binds, with South and East anew. A code is given to one element alone: of two, one would be lost
    when the line is read."""
    new = {Element.named("a"): 0x10130, Element.named("b"): 0x10131}
    bound = {}
    for e in map:
        if e.code in (AXES if e.element.is_axis else BUTTONS) and e.code not in new.values():
            bound[e.element] = e.code
    return bound | new


def main():
    if len(sys.argv) != 2:
        sys.exit("usage: example.py LIST")
    # A store of the smaller size. bytes(store) are those of a hub's store file.
    store = Store()
    insert(store, sys.argv[1])

    # A pad is plugged in: by its line, else by the usual meaning of its codes.
    pad = Uuid("03000000aabb00000100000011010000")
    map = store.mapping(pad, BUTTONS, AXES)
    if map is None:
        map = Mapping.default(BUTTONS, AXES)
    print(f"pad {pad}, {len(map)} codes")
    for code in (0x10131, 0x30000, 0x10132):
        show(map, code)

    # Staff bind South and East anew.
    bound = rebound(map)
    saved = store.save(bound, BUTTONS, AXES, "Seat 7", pad)
    print(f"saved {store.get(pad).decode()}")
    show(saved, 0x10131)
    print(f"reads back {'the same' if store.mapping(pad, BUTTONS, AXES) == saved else 'differently'}")

    # A name that may not be saved is refused, and the store stays as it was.
    try:
        store.save(bound, BUTTONS, AXES, "Seat 7, left", pad)
    except Refused as refused:
        print(refused)


main()
