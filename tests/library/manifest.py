#!/usr/bin/env python3
"""Gathers what generate.sh wrote into files/ and manifest.txt, and compares the library's reports with the separate reader.

    manifest.py SCRATCH

SCRATCH has one folder a release. A file whose bytes several releases wrote alike is kept once, in the folder of the oldest.
Every difference between the library and the reader is printed; those that README.md explains are told apart from others, and
any other makes the program fail."""
import hashlib
import os
import shutil
import struct
import sys

import reader

HERE = os.path.dirname(os.path.abspath(__file__))
LENT = 4 * reader.BLOCKS  # words: room for the most blocks
UNDEFINED = 2**64 - 1
problems = []
notes = []
totals = {"objects": 0, "paths": 0, "descriptions": 0, "data": 0}


def fnv1a(data):
    h = 0xCBF29CE484222325
    for b in data:
        h = (h ^ b) * 0x100000001B3 % 2**64
    return h


def unescaped(text):
    out = bytearray()
    i = 0
    while i < len(text):
        if text[i] == "%":
            out.append(int(text[i + 1 : i + 3], 16))
            i += 3
        else:
            out.append(ord(text[i]))
            i += 1
    return bytes(out)


def read_recipes(folder):
    recipes = []
    for line in open(f"{folder}/recipes.txt"):
        name, expected, purpose = line.rstrip("\n").split(" ", 2)
        recipes.append((name, expected, purpose))
    return recipes


def read_report(folder):
    reports = {}
    for line in open(f"{folder}/report.txt"):
        line = line.rstrip("\n")
        if line.startswith("recipe "):
            current = reports[line[7:]] = []
        else:
            current.append(line)
    return reports


def library_objects(report):
    """The objects of a report as dictionaries."""
    objects, softs = [], []
    for line in report:
        word, *rest = line.split(" ")
        if word == "object":
            address, kind, count, version, messages, blocks, attributes = map(int, rest)
            o = dict(address=address, kind=kind, count=count, version=version, messages=messages, blocks=blocks)
            o.update(paths=[], sharings=[], data=None)
            objects.append(o)
        elif word == "path":
            o["paths"].append(rest[0])
        elif word in ("space", "type", "layout"):
            o[word] = rest if rest[0] == "null" else list(map(int, rest))
        elif word == "data":
            o["data"] = int(rest[0], 16)
        elif word == "sharing":
            o["sharings"].append(int(rest[0]))
        elif word == "soft":
            softs.append(rest)
    return objects, softs


def compare(where, image, report, found):
    """An audited file against the library's report: order, counts, paths, descriptions, data bytes."""

    def differs(what):
        problems.append(f"{where}: {what}")

    objects, softs = library_objects(report)
    sharings = {}
    for o in objects:
        if o["kind"] == 2 and o["type"][2]:
            sharings[o["type"][2]] = sharings.get(o["type"][2], 0) + 1
        for a in o["sharings"]:
            sharings[a] = sharings.get(a, 0) + 1
    if [o["address"] for o in objects] != [a for a, _, _ in found]:
        differs("objects or their order")
        return []
    descriptions = []
    for o, (address, stored, true) in zip(objects, found):
        totals["objects"] += 1
        if o["count"] != stored:
            differs(f"object {address}: the library's count {o['count']}, stored {stored}")
        shared = sharings.get(address, 0)
        if len(o["paths"]) + shared != true:
            differs(f"object {address}: {len(o['paths'])} paths and {shared} sharings, true count {true}")
        walker = reader.Walker(image, LENT)
        walker.superblock()
        walker.header(address)
        header = (image[address], int.from_bytes(image[address + 2 : address + 4], "little"), len(walker.bs))
        if header != (o["version"], o["messages"], o["blocks"]):
            differs(f"object {address}: header version, messages, blocks {header}")
        if stored != true and where.endswith("/raised_count.h5"):
            notes.append(f"{where}: object {address} stored {stored} true {true}: raised or lowered by a program")
        elif stored != true:
            differs(f"object {address}: stored {stored}, true {true}")
        for path in o["paths"]:
            totals["paths"] += 1
            got = reader.lookup(image, unescaped(path), LENT)[:4]
            if got != (0, 0, o["kind"], address):
                differs(f"lookup {path}: {got}")
        if o["kind"] != 2:
            continue
        totals["descriptions"] += 1
        d = reader.describe(image, unescaped(o["paths"][0]), LENT)
        number, _, _, rank, sizes, maxima, cls, version, bits, size, shared, layout, place, length = d[:14]
        want = o["space"]
        if number != 0 or [rank] + sizes[:rank] + maxima[:rank] != want:
            differs(f"description of {address}: answer {number}, space {want}")
            continue
        tcls, tsize, taddress = o["type"]
        if taddress != shared or (not shared and (tcls, tsize) != (cls, size)):
            differs(f"description of {address}: type {o['type']}")
        lcls, lplace, lsize = o["layout"]
        # the library gives no place for compact data, and storage 0 for contiguous data that isn't allocated
        if lcls != layout or (layout == 1 and lplace != place):
            differs(f"description of {address}: layout {o['layout']}, read {layout} {place} {length}")
        if layout == 0 or place != UNDEFINED:
            if lsize != length:
                differs(f"description of {address}: storage {lsize}, read {length}")
        elif lsize != 0:
            differs(f"description of {address}: storage {lsize} of data that has no place")
        if o["data"] is not None:
            totals["data"] += 1
            if fnv1a(image[place : place + length]) != o["data"]:
                differs(f"data of {address}")
        row = [address, rank, *sizes[:rank], *maxima[:rank], cls, version, bits, size, shared, layout, place, length]
        descriptions.append("description " + " ".join(map(str, row)))
    for path, _ in softs:
        totals["paths"] += 1
        if reader.lookup(image, unescaped(path), LENT)[:4] != (0, 0, 4, 0):
            differs(f"lookup {path}: no symbolic link")
    return descriptions


def main():
    scratch = sys.argv[1]
    releases = sorted(os.listdir(scratch), key=lambda v: list(map(int, v.split("."))))
    recipes = read_recipes(f"{scratch}/{releases[-1]}")
    reports = {v: read_report(f"{scratch}/{v}") for v in releases}
    for v in releases:
        if read_recipes(f"{scratch}/{v}") != recipes:
            sys.exit(f"{v} has other recipes than {releases[-1]}")
    shutil.rmtree(f"{HERE}/files", ignore_errors=True)
    out = ["# What is in files/, as README.md describes it.", ""]
    count = size = 0
    for name, expected, purpose in recipes:
        images = {v: open(f"{scratch}/{v}/files/{name}.h5", "rb").read() for v in releases}
        for image in dict.fromkeys(images.values()):
            writers = [v for v in releases if images[v] == image]
            where = f"{writers[0]}/{name}.h5"
            os.makedirs(f"{HERE}/files/{writers[0]}", exist_ok=True)
            with open(f"{HERE}/files/{where}", "wb") as f:
                f.write(image)
            count += 1
            size += len(image)
            report = reports[writers[0]][name]
            for v in writers[1:]:
                if reports[v][name] != report:
                    problems.append(f"{where}: {v} reports otherwise than {writers[0]}")
            number, _, blocks, found, words = reader.audit(image, LENT)
            if str(number) not in expected.split("|"):
                problems.append(f"{where}: answer {number}, expected {expected}")
            out.append(f"file {where}")
            out.append(f"# {purpose}" if number == 0 else f"# refused with {number}: {purpose}")
            out.append(f"recipe {name}")
            out.append("releases " + " ".join(writers))
            out.append(f"sha256 {hashlib.sha256(image).hexdigest()}")
            out.append(f"expected {expected}")
            if f"size {len(image)}" not in report or f"fnv1a {fnv1a(image):016x}" not in report:
                problems.append(f"{where}: the report is of other bytes")
            out += report
            descriptions = compare(where, image, report, found) if number == 0 else []
            out.append("by reader")
            out.append(f"answer {number} {len(found)} {blocks}")
            used = struct.pack(f"<{4 * blocks}Q", *words[: 4 * blocks])
            out.append(f"blocks {fnv1a(used):016x}")
            out += [f"count {a} {s} {t}" for a, s, t in found]
            out += descriptions
            out.append("end")
            out.append("")
    with open(f"{HERE}/manifest.txt", "w") as f:
        f.write("\n".join(out))
    for line in notes:
        print("explained:", line)
    for line in problems:
        print("DIFFERS:", line)
    print(f"releases {' '.join(releases)}: {count} files, {size} bytes; " + ", ".join(f"{n} {k}" for k, n in totals.items()))
    sys.exit(1 if problems else 0)


main()
