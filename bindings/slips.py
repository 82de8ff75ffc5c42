#!/usr/bin/env python3
"""Plants slips into include/bivelondry.h and into the fuzzers, one at a time, and runs the C tests, the recorded queries or the fuzzer: each must be found.

    bindings/slips.py        ends with `N of N planted slips found`; needs what bindings/harden.sh needs, and its corpus"""
import os, subprocess, sys, tempfile
HERE = os.path.dirname(os.path.abspath(__file__))
ARCHIVE = os.path.join(HERE, "../target/staticlib/libexports.a")
CORPUS = os.path.join(HERE, "../target/bindings/corpus")
RECORDED = os.path.join(HERE, "../crates/replay/stdin")
WARN = ["-std=c11", "-D_GNU_SOURCE", "-Wall", "-Wextra", "-Werror", "-g", "-O1", "-fno-sanitize-recover=all"]
# (what, old, new): each old text stands there once
HEADER = [
    ("areas not rounded up", "return (len * element + BIV_ALIGNMENT - 1) / BIV_ALIGNMENT * BIV_ALIGNMENT;", "return len * element;"),
    ("no room to align the block", "size_t size = BIV_ALIGNMENT - 1;", "size_t size = 0;"),
    ("a short block taken", "need != 0 && need <= size", "need != 0"),
    ("a block not aligned", "((uintptr_t)block + BIV_ALIGNMENT - 1) / BIV_ALIGNMENT * BIV_ALIGNMENT :", "(uintptr_t)block :"),
    ("areas in one place", "    at += biv_area_bytes(work->lens[i], sizeof(type));", "    at += 0 * biv_area_bytes(work->lens[i], sizeof(type));"),
    ("an area of another element", "AREA(8, scratch, uint64_t)", "AREA(8, scratch, uint32_t)"),
    ("temperature and rate exchanged", "settings->temperature_celsius, settings->sample_rate,", "settings->sample_rate, settings->temperature_celsius,"),
    ("the flag of merging turned", "settings->plane_merge ? 1u : 0u", "settings->plane_merge ? 0u : 1u"),
    ("merge offset and buried distance exchanged", "settings->plane_merge_offset, settings->plane_buried_distance, m->", "settings->plane_buried_distance, settings->plane_merge_offset, m->"),
    ("least and greatest distance exchanged", "m->rolloff_factor, m->min_distance, m->max_distance,", "m->rolloff_factor, m->max_distance, m->min_distance,"),
    ("a curve of another number taken", "m->curve, settings", "m->curve == 0 ? 0u : 1u, settings"),
    ("images for rays", "answer->rays = (uint32_t)found[2];\n    answer->bytes = found[3];", "answer->rays = (uint32_t)found[1];\n    answer->bytes = found[3];"),
    ("source and listener exchanged", "source, listener, separated);", "listener, source, separated);"),
    ("separated not handed on", "listener, separated);", "listener, separated && false);"),
    ("a tap too many read", "memcpy(taps, words, found[0] *", "memcpy(taps, words, (found[0] + 1) *"),
    ("1,025 taps copied", "if (answer->count <= BIV_MOST_TAPS)", "if (answer->count <= BIV_MOST_TAPS + 1)"),
    ("triples of all indices", "triples += scene->meshes[m + 1] / 3;", "triples += scene->meshes[m + 1];"),
    ("rays for candidates", "cost->candidates = (uint32_t)found[0];", "cost->candidates = (uint32_t)found[1];"),
    ("words for rays", "cost->rays = found[1];", "cost->rays = found[2];"),
    ("planes and first planes exchanged", "biv_query_cost(crossing_limit, planes, first, order,", "biv_query_cost(crossing_limit, first, planes, order,"),
    ("the crossing limit not handed on", "settings->crossing_limit, settings->air[0]", "settings->crossing_limit < 33u ? 8u : 33u, settings->air[0]"),
    ("the probe radius not handed on", "settings->probe_radius}}", "settings->probe_radius <= 1.0f ? 0.06f : 2.0f}}"),
    ("a forecast under the default limit", "biv_query_cost(crossing_limit, planes,", "biv_query_cost(crossing_limit - crossing_limit + 8, planes,"),
    ("two bands of the air exchanged", "settings->air[6], settings->air[7]}", "settings->air[7], settings->air[6]}"),
    ("another default", "s.max_reflections = 16;", "s.max_reflections = 0;"),
    ("the bytes of the planes turned", "source_on = on[p] != 0;", "source_on = on[p] == 0;"),
    ("spread for area", "planes[p].area = f[11];", "planes[p].area = f[10];"),
    ("planes one float apart", "w.plane_floats + 12 * p;", "w.plane_floats + 13 * p;"),
    ("planes not counted", "*count = found[0];", "*count = BIV_MOST_PLANES;"),
    ("an order of 9 handed on", "settings->max_reflection_order : BIV_MOST_ORDER;", "settings->max_reflection_order : settings->max_reflection_order;"),
    ("the bytes not handed on", "on[p] = planes[p].source_on ? 1 : 0;", "on[p] = planes[p].source_on && false;"),
    ("walls not counted", "walls->len = found[0];", "walls->len = BIV_MOST_ORDER;"),
    ("257 planes taken as 256", "(uint32_t)planes : BIV_MOST_PLANES + 1, order, (const uint8_t *)biv_part(on), planes,", "(uint32_t)planes : BIV_MOST_PLANES, order, (const uint8_t *)biv_part(on), planes <= BIV_MOST_PLANES ? planes : BIV_MOST_PLANES,"),
]
FUZZ = [
    ("query", "an area said to be one longer", "(uint64_t *)area[7], room[7],", "(uint64_t *)area[7], room[7] + 1,"),
    ("query", "positions that end one past theirs", "(const float *)part[2], lens[2],", "(const float *)part[2] + 1, lens[2],"),
    ("query", "another second answer", "word(data, ROWS), source, listener,", "word(data, ROWS), source, turn == 0 ? listener : source,"),
    ("packet", "a packet said to be one longer", "biv_packet_read(packet, size, taps", "biv_packet_read(packet, size + 1, taps"),
    ("packet", "images written as one more", "(uint32_t)found[1], (uint32_t)found[2], taps", "(uint32_t)found[1] + 1, (uint32_t)found[2], taps"),
]


def planted(path, old, new):
    text = open(path).read()
    if text.count(old) != 1:
        sys.exit(f"slips: {path} has {text.count(old)} places like: {old}")
    return text.replace(old, new)


def fails(*words):
    return subprocess.run(words, capture_output=True).returncode != 0


def header_found(folder):
    for name, args in [("test", []), ("replay", [RECORDED])]:
        out = os.path.join(folder, name)
        if fails("cc", *WARN, "-fsanitize=address,undefined", f"-I{folder}", f"{HERE}/c/{name}.c", ARCHIVE, "-lm", "-o", out) or fails(out, *args):
            return True
    return False


def fuzz_found(folder, name):
    out = os.path.join(folder, name)
    built = ["clang", *WARN, "-fsanitize=fuzzer,address,undefined", f"-I{HERE}/../include", f"-I{HERE}/fuzz", f"{folder}/{name}.c", ARCHIVE, "-lm", "-o", out]
    if fails(*built):
        sys.exit(f"slips: {name} does not compile: " + " ".join(built))
    return fails(out, "-max_total_time=20", f"-artifact_prefix={folder}/", os.path.join(CORPUS, name))


if not os.path.exists(ARCHIVE) or not os.path.isdir(CORPUS):
    sys.exit("slips: run `tools/staticlib.sh exports` and bindings/harden.sh first")
found = 0
with tempfile.TemporaryDirectory() as folder:
    # without a slip nothing is found
    open(f"{folder}/bivelondry.h", "w").write(open(f"{HERE}/../include/bivelondry.h").read())
    if header_found(folder):
        sys.exit("slips: the tests fail without a slip: run bindings/run.sh")
    for what, old, new in HEADER:
        open(f"{folder}/bivelondry.h", "w").write(planted(f"{HERE}/../include/bivelondry.h", old, new))
        seen = header_found(folder)
        found += seen
        print(("found: " if seen else "NOT FOUND: ") + what, flush=True)
    for name, what, old, new in FUZZ:
        open(f"{folder}/{name}.c", "w").write(planted(f"{HERE}/fuzz/{name}.c", old, new))
        seen = fuzz_found(folder, name)
        found += seen
        print(("found: " if seen else "NOT FOUND: ") + what, flush=True)
total = len(HEADER) + len(FUZZ)
print(f"{found} of {total} planted slips found")
sys.exit(found != total)
