#!/usr/bin/env python3
"""port_names.py [--check] [--table]: respells the repository's own definitions and lemmas as today's Rattle does (CONTRACT_STYLE.md, "Names").

Run at the top of the checkout, after Rattle's own port script. `candidateAt` becomes `candidate_at`, `mul-lt-pow` `mul_lt_pow`, `Sorted-of-two`
`Sorted-of_two`. --check writes nothing, --table prints old and new, a tab between them. A second run finds nothing to do.

It turns what is declared in specs/*.antt, in proofs/*.antt, and the helpers of proofs/F/*.antt; names that Rattle makes and names of Rust stay.
A name turns in a file that declares it or takes it from the module that does; a field turns wherever it stands.
Where a new name would fall together with another it stops, unless NAMES says what to do."""
import collections
import pathlib
import re
import sys

ROOT = pathlib.Path(__file__).resolve().parent.parent

# old: new, where the plain respelling would fall together with another name
NAMES = {
    "airFrom": "given_air",
    "arguments.curveOf": "curve_of_number",
    "bandsIn": "bands_of_floats",
    "bitMap": "bits_of_gains",
    "candidateFloats": "candidate_float_count",
    "candidateWords": "candidate_word_count",
    "chunkEnd": "end_of_chunk",
    "cost.countsOf": "counts_by_order",
    "crossingsWithin": "crossings_in_bounds",
    "descendingKey": "key_for_falling",
    "dotsOf": "dots_of_edges",
    "edgesOf": "edges_of_corners",
    "exports.leastLengths": "least_lengths_of",
    "factorOf": "factor_of_steps",
    "farCorner": "is_far_corner",
    "farCorners": "has_far_corner",
    "fateNumber": "number_of_fate",
    "finitePoint": "is_finite_point",
    "floatKey": "key_of_float",
    "frontOf": "front_of_loaded",
    "getD-inside": "get_or_inside",
    "getD-map-upTo": "get_or_map_up_to",
    "getD-outside": "get_or_outside",
    "groupPlanes": "planes_of_groups",
    "hexBits": "bits_of_hex",
    "hexDigit": "hex_digit_of",
    "hexValue": "hex_value_of",
    "highKey": "high_key_of",
    "holdsTaps": "has_only_taps",
    "inCell": "patches_in_cell",
    "indicesRight": "indices_are_right",
    "isBetween": "lies_between",
    "isCoplanar": "lies_in_plane",
    "isDecimal": "is_decimal_text",
    "isDigit": "is_digit_byte",
    "isFree": "is_free_at",
    "isNear": "lies_near",
    "isTilted": "is_tilted_from",
    "isTurned": "is_turned_round",
    "isWithin": "lies_within",
    "leaf-of": "leaf_built",
    "lengthsRight": "lengths_are_right",
    "lineEnd": "length_of_line",
    "lowKey": "low_key_of",
    "materialsRight": "materials_are_right",
    "meshesWhole": "meshes_are_whole",
    "newPatch": "lone_patch",
    "onOf": "on_bytes",
    "oneTo": "is_one_to",
    "planeAt": "nth_plane",
    "planeFloats": "plane_float_count",
    "planeWords": "plane_word_count",
    "mirror.planeOf": "row_plane",
    "planes.planesOf": "planes_of_triangles",
    "planes_fit.floatsOf": "floats_of_row",
    "planes_fit.planeOf": "plane_of_group",
    "planesWithin": "planes_in_bounds",
    "pointFrom": "given_point",
    "positionsRight": "positions_are_right",
    "pushHex": "push_hex_digit",
    "rayFrom": "given_ray",
    "readBack": "tap_read_back",
    "reflectionOf": "reflection_of_handle",
    "roomWithin": "room_in_bounds",
    "runStart": "start_of_run",
    "searchOrder": "order_of_search",
    "settingsFrom": "given_settings",
    "slopesOf": "slopes_of_direction",
    "squaredGainSum": "sum_of_squared_gains",
    "tapSize": "size_of_tap",
    "transformsRight": "transforms_are_right",
    "transmissionOf": "transmission_of_handle",
    "tree-of": "tree_held",
    "triangleAt": "nth_triangle",
    "triangleOf": "triangle_of_corners",
    "unknownHandle": "has_unknown_handle",
    "vecIn": "vec_of_floats",
}

# lemmas that would have the name of a function of the repository or of Rust: these get `_lem`
LEMMAS = set("""
    first-at flat-map in-range insert-first is-of key-at once-counted place-all plane-at planes-held put-last row-in
""".split())

# fields that are spelled like a name of Rust: they stand behind a dot or before `=`, where Rust's never do
APART = set("leaf_order low_keys plane_edges plane_floats plane_triangles plane_words".split())

WORD = re.compile(r'[^\s(){}.;,@"«»]+')
CHAIN = re.compile(rf"{WORD.pattern}(?:\.{WORD.pattern})*")
ANTT_QUIET = re.compile(r'"(?:[^"\\\n]|\\.)*"|(?<![^\s(){}.;,@"«»])--[^\n]*|\{-.*?-\}', re.S)
RUST_QUIET = re.compile(r"""//[^\n]*|b?r(#*)".*?"\1|b?"(?:\\.|[^"\\])*"|b?'(?:\\[^\n']+|[^'\\\n])'""", re.S)
SPAN = re.compile(r"(?<!`)(`+)(?!`)((?:[^\n]|\n(?!\s*\n))+?)(?<!`)\1(?!`)")
LISTED = re.compile(r"--\s{3,}(\S+(?:, \S+)*)(?=\s{2,}\S|$)(.*)")
USE = re.compile(r"\buse\s+([^\s{};]+?)(?:\.\{([^}]*)\}|\s+as\s+([^\s;]+))?(?=[\s;]|$)")
NAME = r'[^\s(){}.;,@"«»:=]+'
DECLARED = re.compile(rf"^( *)((?:pub |abbrev |unfoldable )*)({NAME}(?: {NAME})*?) :(?: (.*))?$")
TYPE = re.compile(rf"^( *)(?:pub )?(record|data) ({NAME})")
BINDER = re.compile(rf"[({{]({NAME}(?: {NAME})*) : ")
MADE = re.compile(r"^(?:invariant-loop|decreases-loop)")
GOAL = re.compile(r"^(?:tie|goal|g|[\w-]*[Tt]ie)\.|(?:^|→ )[\w-]+\.(?:Need-|decreases-loop|invariant-loop)")


def is_odd(name):
    """Whether a name is not in snake case: it has a dash or a capital inside."""
    return bool(re.search(r"[^\W\d_][\w']*-|-[^\W\d]", name) or re.search(r"[a-z0-9][A-Z]", name) and not name[0].isupper() or re.search(r"^[a-z].*[A-Z]", name))


def snake_word(word):
    """One word between dashes: a fact's name stays, else snake case."""
    if re.match(r"[A-Z][A-Za-z]*[a-z]", word):
        return word
    word = re.sub(r"(?<=[a-z0-9'])(?=[A-Z])", "_", word)
    return re.sub(r"[A-Z]", lambda m: m.group().lower(), word) if re.search(r"[a-z]", word) else word


def snake(name):
    """Today's spelling. A dash beside a fact's name, or beside a sign, stays."""
    parts = re.split(r"(?<=[\w'])-(?=[\w])", name)
    if len(parts) == 1:
        return name if re.match(r"[A-Z]", name) else snake_word(name)
    out = snake_word(parts[0])
    for before, part in zip(parts, parts[1:]):
        fact = re.match(r"[A-Z][A-Za-z]*[a-z]", before) or re.match(r"[A-Z][A-Za-z]*[a-z]", part)
        out += ("-" if fact else "_") + snake_word(part)
    return out


def split(text, quiet):
    """The pieces of a text: (quiet or not, piece)."""
    at = 0
    for found in quiet.finditer(text):
        yield False, text[at : found.start()]
        yield True, found.group()
        at = found.end()
    yield False, text[at:]


def code_of(text, quiet):
    return "".join(" " * 0 + (re.sub(r"[^\n]", " ", piece) if still else piece) for still, piece in split(text, quiet))


class File:
    def __init__(self, path):
        self.path = path
        self.text = path.read_text(encoding="utf-8")
        self.rust = path.suffix == ".rt"
        self.quiet = RUST_QUIET if self.rust else ANTT_QUIET
        self.code = code_of(self.text, self.quiet)
        parts = path.relative_to(ROOT).parts
        self.crate = parts[1]
        self.kind = "rust" if self.rust else parts[2] if len(parts) == 4 else "proof"
        self.module = None if self.rust else ".".join(("Rattle", self.crate) + parts[2:])[: -len(".antt")]
        self.tops, self.fields, self.inner, self.binders, self.goals = set(), set(), set(), set(), set()
        self.records = []
        if not self.rust:
            self.read()
        self.items, self.aliases, self.exports = {}, {}, {}
        for found in USE.finditer(self.code):
            where, items, alias = found.groups()
            if items is not None:
                for item in items.split(","):
                    words = item.split()
                    if words:
                        self.items[words[-1]] = (where, words[0])
                        if re.search(r"pub\s+$", self.code[: found.start()]):
                            self.exports[words[-1]] = (where, words[0])
            elif alias:
                self.aliases[alias] = where

    def read(self):
        """What the file declares."""
        modules, record, heading = [], None, None
        for line in self.code.split("\n"):
            if not line.strip():
                continue
            indent = len(line) - len(line.lstrip())
            if heading == "read":
                modules.append(indent)
                heading = None
            while modules and indent < modules[-1]:
                modules.pop()
            if record is not None and indent <= record[0]:
                record = None
            if re.match(r" *(pub )?module ", line):
                heading = "open"
            if heading:
                heading = "read" if re.search(r"(?:^|\s)where *$", line) else heading
                continue
            found = TYPE.match(line)
            if found:
                record = (indent, set())
                self.records.append(record[1])
                self.tops.add(found.group(3))
                continue
            found = DECLARED.match(line)
            if not found or re.match(r" *(let|use|module|pub use|pub mod|in|λ) ", line):
                continue
            names = found.group(3).split()
            if record is not None:
                if indent == record[0] + 2:
                    self.fields.update(names)
                    record[1].update(names)
                continue
            goal = self.kind == "proof" and GOAL.search(found.group(4) or "")
            level = modules[-1] if modules else 0
            for name in names:
                if goal or self.kind == "proof" and MADE.match(name):
                    self.goals.add(name)
                elif indent == level:
                    self.tops.add(name)
                else:
                    self.inner.add(name)
        if self.kind != "proof":
            for found in BINDER.finditer(self.code):
                self.binders.update(found.group(1).split())
            self.binders.update(re.findall(rf"\blet ({NAME}) [:=]", self.code))


def files():
    out = []
    for crate in sorted((ROOT / "crates").iterdir()):
        for pattern in ("specs/*.antt", "proofs/*.antt", "proofs/*/**/*.antt", "src/**/*.rt"):
            out += [File(path) for path in sorted(crate.glob(pattern))]
    return out


class Names:
    def __init__(self, all_files):
        self.files = all_files
        self.modules = {file.module: file for file in all_files if file.module}
        self.camel = {snake(name) for file in all_files for name in file.tops if "-" not in name and is_odd(name)}
        self.table, self.own, self.fields = {}, {}, set()
        for file in all_files:
            for name in sorted(file.tops | file.fields):
                if is_odd(name) and name not in file.goals:
                    new = self.spelled(file, name)
                    if new != name:
                        self.own[file.module, name] = new
                        if self.table.setdefault(name, new) != new:
                            self.table[name] = snake(name)
            self.fields |= {name for name in file.fields if name in self.table}
        self.scopes = {file.path: self.scope(file) for file in all_files}
        antt = [file for file in all_files if not file.rust]
        self.declared = set().union(*({self.own.get((file.module, name), name) for name in file.tops | file.fields} for file in antt))
        self.written = set().union(*(set(WORD.findall(file.code)) - set(self.scopes[file.path]) for file in antt))

    def spelled(self, file, name):
        """Today's spelling of a name that the file declares."""
        new = NAMES.get(f"{file.crate}.{name}") or NAMES.get(name)
        if new:
            return new
        new = snake(name)
        if name in LEMMAS or "-" in name and name not in file.fields and new in self.camel:
            return new + "_lem"
        return new

    def from_module(self, where, name, seen=()):
        """The new spelling of a name taken from a module, or None."""
        file = self.modules.get(where)
        if not file or where in seen:
            return None
        if name in file.tops or name in file.fields:
            return self.own.get((where, name))
        if name in file.exports:
            return self.from_module(*file.exports[name], (*seen, where))
        return None

    def scope(self, file):
        out, own = {}, file.tops | file.fields
        for name, (where, was) in file.items.items():
            if name == was:
                new = self.from_module(where, name)
                if new:
                    out[name] = new
            elif is_odd(name) and "·" not in name:
                out[name] = snake(name)
        for name in own:
            if (file.module, name) in self.own:
                out[name] = self.own[file.module, name]
        for name in file.aliases:
            if is_odd(name) and "·" not in name:
                out[name] = snake(name)
        taken = {name for name in file.items if name not in out}
        for name in self.fields:
            if name not in taken and name not in file.goals:
                out.setdefault(name, self.table[name])
        bare = bare_of(file)
        for name in sorted(file.inner | file.binders):
            if is_odd(name) and name not in out and name not in taken and name not in file.goals:
                new = snake(name)
                if new != name and new not in bare and new not in out.values():
                    out[name] = new
        return {old: new for old, new in out.items() if old != new}

    def chain(self, file, chain, scope):
        """The new spelling of names joined by dots."""
        words = chain.split(".")
        where = file.aliases.get(words[0], words[0] if words[0] == "Rattle" else None) if file else None
        out = [scope.get(words[0], words[0])]
        path = where
        for word in words[1:]:
            new = None
            if path:
                new = self.from_module(path, word)
                path = f"{path}.{word}"
            if new is None and word in self.fields and not (where and path and any(m.startswith(path) for m in self.modules)):
                new = self.table[word]
            out.append(new or word)
        return ".".join(out)

    def use(self, file, text):
        """A `use` with braces: its items by the module."""
        def turn(found):
            where, items, alias = found.groups()
            if items is None:
                return found.group()
            def item(match):
                words = match.group().split()
                new = self.from_module(where, words[0]) or words[0]
                if len(words) == 1:
                    return new
                last = self.scopes[file.path].get(words[-1], words[-1])
                return new if new == last else f"{new} as {last}"
            turned = re.sub(rf"{WORD.pattern}(?: as {WORD.pattern})?", item, items)
            whole = found.group()
            at = found.start(2) - found.start()
            return whole[:at] + turned + whole[at + len(items) :]
        return USE.sub(turn, text)

    def turned_code(self, file, text, scope):
        out, at = [], 0
        for found in USE.finditer(text):
            out.append(CHAIN.sub(lambda m: self.chain(file, m.group(), scope), text[at : found.start()]))
            if found.group(2) is not None:
                out.append(self.use(file, found.group()))
            elif found.group(3):
                alias = found.group(3)
                out.append(found.group()[: -len(alias)] + scope.get(alias, alias))
            else:
                out.append(found.group())
            at = found.end()
        out.append(CHAIN.sub(lambda m: self.chain(file, m.group(), scope), text[at:]))
        return "".join(out)

    def turned_before(self, word):
        """A name in an older spelling that no code has any more, where Rattle's port script turned its declaration."""
        new = snake(word)
        old = word[:1].islower() and is_odd(word) and word not in self.written
        return new if old and new in self.declared else word

    def prose(self, text, scope, listed=True):
        """A comment or a page: code spans, and bare words that cannot be English."""
        words = {**self.table, **scope}
        def word(m):
            return words.get(m.group()) or self.turned_before(m.group())
        def bare(m):
            name = m.group()
            core = name.strip(":!?'[]*")
            if core in words and re.search(r"[a-z][A-Z]", core):
                return name.replace(core, words[core])
            return name.replace(core, self.turned_before(core)) if re.match(r"[a-z][a-z0-9]*[A-Z]", core) else name
        out, at = [], 0
        for found in SPAN.finditer(text):
            out.append(WORD.sub(bare, text[at : found.start()]))
            out.append(re.sub(r'[^\s(){}.;,@"«»`]+', word, found.group(2)).join([found.group(1)] * 2))
            at = found.end()
        out.append(WORD.sub(bare, text[at:]))
        text = "".join(out)
        if listed:
            text = LISTED.sub(lambda m: m.group()[: m.start(1) - m.start()] + re.sub(r"[^\s,]+", lambda n: words.get(n.group(), n.group()), m.group(1)) + WORD.sub(lambda n: scope.get(n.group(), n.group()), m.group(2)), text)
        return text

    def turned(self, file):
        scope = self.scopes[file.path]
        out = []
        for still, piece in split(file.text, file.quiet):
            if not still:
                out.append(self.turned_code(file, piece, scope))
            elif piece.startswith(("--", "{-", "//")):
                out.append(self.prose(piece, scope))
            else:
                out.append(piece)
        return "".join(out)


def bare_of(file):
    """The words of a file's code that do not follow a dot."""
    out = set()
    for found in CHAIN.finditer(file.code):
        out.add(found.group().split(".")[0])
    if file.rust:
        out |= set(re.findall(r"\w+", file.code))
    return out


def collisions(names):
    """Where a new name would fall together with another: lines to show."""
    out = []
    rust = collections.defaultdict(set)
    for file in names.files:
        if file.rust:
            rust[file.crate] |= set(re.findall(r"\w+", file.code))
    used = collections.defaultdict(lambda: collections.defaultdict(set))
    for file in names.files:
        scope, bare = names.scopes[file.path], bare_of(file)
        news = collections.defaultdict(set)
        for old, new in scope.items():
            if old in bare:
                news[new].add(old)
                if new in bare:
                    out.append(f"in {file.path.relative_to(ROOT)}: {old} -> {new}, which is there")
                if (file.module, old) in names.own or old in file.items or file.rust:
                    used[old][new].add(file.crate)
        for new, olds in news.items():
            if len(olds) > 1:
                out.append(f"in {file.path.relative_to(ROOT)}: {' and '.join(sorted(olds))} -> {new}")
        for found in CHAIN.finditer(file.code):
            was, now = found.group().split("."), names.chain(file, found.group(), scope).split(".")
            for old, new in zip(was[1:], now[1:]):
                if old != new and was[0] in file.aliases and (new in bare or news.get(new, set()) - {old}):
                    out.append(f"in {file.path.relative_to(ROOT)}: {found.group()} -> {new}, which is there")
        for record in file.records:
            spelled = [names.table.get(name, name) for name in record]
            out += [f"in {file.path.relative_to(ROOT)}: two fields {name}" for name in set(spelled) if spelled.count(name) > 1]
    for old in sorted(used):
        for new in sorted(used[old]):
            hit = sorted(crate for crate in used[old][new] if new in rust[crate] and new not in APART)
            if hit:
                out.append(f"rust: {old} -> {new}, in the Rust of {' '.join(hit)}")
    return out


def target_of(names, edit, line):
    """The file that an edit changes."""
    crate = edit.relative_to(ROOT).parts[1]
    path = ROOT / "crates" / crate / line[len("file:") :].strip()
    return next((file for file in names.files if file.path == path), None)


def turned_edit(names, path, text):
    """A must-fail edit: comments as prose, its old and new lines as the file that they are of."""
    out, file = [], None
    for line in text.split("\n"):
        if line.startswith("#"):
            line = names.prose(line, {}, listed=False)
        elif line.startswith("file:"):
            file = target_of(names, path, line)
        elif file:
            scope = {**{old: new for old, new in names.table.items() if file.rust and "-" not in old}, **names.scopes[file.path]}
            key, colon, rest = line.partition(":")
            if not file.rust:
                rest = re.sub(r"\(([\w']+(?: \.[\w-]+)+)\)", r"\1", rest)
                rest = re.sub(r"(?<=[\w'])((?: \.[\w-]+)+)", lambda m: m.group().replace(" ", ""), rest)
            pieces = [names.prose(piece, scope) if still and piece.startswith(("--", "//")) else piece if still else names.turned_code(file, piece, scope) for still, piece in split(rest, file.quiet)]
            line = key + colon + re.sub(r"[^\s(){}.;,@\"«»]+", lambda m: names.turned_before(m.group()), "".join(pieces))
        out.append(line)
    return "\n".join(out)


def pages():
    more = ("README.md", "tools/proofs/README.md", "tools/spec_rows.py", "include/bivelondry_stages.h")
    return [*sorted((ROOT / "docs").glob("*.md")), *(ROOT / name for name in more)]


def main():
    names = Names(files())
    if "--table" in sys.argv[1:]:
        for old, new in sorted(set((name, new) for (_, name), new in names.own.items())):
            print(f"{old}\t{new}")
        return
    bad = collisions(names)
    if bad:
        print("\n".join(bad))
        sys.exit(f"{len(bad)} collisions: NAMES has to settle them")
    turned = {file.path: names.turned(file) for file in names.files}
    for path in sorted(ROOT.glob("crates/*/must-fail/**/*.edit")):
        turned[path] = turned_edit(names, path, path.read_text(encoding="utf-8"))
    for path in pages():
        turned[path] = names.prose(path.read_text(encoding="utf-8"), {}, listed=False)
    count = 0
    for path, text in turned.items():
        if text != path.read_text(encoding="utf-8"):
            count += 1
            if "--check" not in sys.argv[1:]:
                path.write_text(text, encoding="utf-8")
    print(f"{len(set(names.own.values()))} names, {count} files")


if __name__ == "__main__":
    main()
