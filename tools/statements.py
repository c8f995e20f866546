"""What a proof rests on of a crate's files: all that is read of them, for its own proofs, and what they state, for those of the crates above.

Both are lists of texts, a file's each, of the tokens as the prover reads them, which have no comments and no layout.

What a crate states has no functions that it keeps to itself, and no types of its own and no imports that nothing else there names: no proof of a crate above can cite any of these.
(Antt can name a type that the crate keeps to itself: so one counts as named where it stands in a file of another crate that cites the antt of this one.) Files of which nothing is left then are no part of it, nor are the lines that make these its modules.
It has all of specs/, the files of Inner too, since the invariant of a type for others may name a definition there.
"""

import enum
import json
import re
from collections import Counter

import kit

# A token is a kind and a text, as a JSON string (`rattle fmt --help`). These are of the code.
CODE = "Code"
HEAD_WORDS = ('"pub"', '"unsafe"', '"extern"', '"async"')
OPENING, CLOSING = ('"("', '"["', '"{"'), ('")"', '"]"', '"}"')


def read(folder, files):
    """Returns the tokens of each file. Where one of the files cannot be read each has its text as its only token."""
    ran, said = kit.run([kit.rattle(), "fmt", "--tokens", *files], folder) if files else (0, "")
    if ran:
        return [[("Unread", json.dumps(open(f"{folder}/{it}", encoding="utf-8", errors="replace").read()))] for it in files]
    found = []
    for row in said.split("\n"):
        if row.startswith("file "):
            found.append([])
        elif row:
            _, _, _, kind, text = row.split(" ", 4)
            found[-1].append((kind, text))
    return found


def is_code(tokens, at, *texts):
    """Returns whether these texts stand here in the code, one after another."""
    return tokens[at : at + len(texts)] == [(CODE, f'"{it}"') for it in texts]


def is_name(tokens, at):
    """Returns whether a name stands here in the code."""
    return at < len(tokens) and tokens[at][0] == CODE and re.fullmatch(r'"[A-Za-z_]\w*"', tokens[at][1]) is not None


def end_of(tokens, at):
    """Returns the place behind the bracket that closes the one that stands here."""
    depth = 0
    for place in range(at, len(tokens)):
        kind, text = tokens[place]
        depth += (kind == CODE) * ((text in OPENING) - (text in CLOSING))
        if not depth:
            return place + 1
    return len(tokens)


def body_of(tokens, at):
    """Returns the place of the brace that opens the body of the item whose head begins here, or of the semicolon where the item ends without one."""
    place = at
    while place < len(tokens) and not is_code(tokens, place, "{") and not is_code(tokens, place, ";"):
        place = end_of(tokens, place) if is_code(tokens, place, "(") or is_code(tokens, place, "[") else place + 1
    return place


def without_derives(tokens):
    """Returns the tokens without the lists of derives."""
    kept, at = [], 0
    while at < len(tokens):
        if tokens[at] == (CODE, '"#"') and is_code(tokens, at, "#", "[", "derive", "("):
            at = end_of(tokens, at + 1)
        else:
            kept.append(tokens[at])
            at += 1
    return kept


def end_of_head_part(tokens, at):
    """Returns the place behind an attribute, a `pub` or another word that stands here before an item's own, or this place where none does."""
    if is_code(tokens, at, "#", "["):
        return end_of(tokens, at + 1)
    if is_code(tokens, at, "pub", "("):
        return end_of(tokens, at + 1)
    kind, text = tokens[at]
    return at + (kind == CODE and text in HEAD_WORDS)


def block_of_impl(tokens, at):
    """Returns where the block of the impl that begins here opens, and up to where its functions are called by a trait's name: the block's end, or where it opens if it is no trait's."""
    opened = body_of(tokens, at)
    is_of_trait = any(is_code(tokens, it, "for") and not is_code(tokens, it, "for", "<") for it in range(at, opened))
    return opened, end_of(tokens, opened) if is_of_trait else opened


def without_own_functions(tokens):
    """Returns the tokens without the functions that other crates cannot call, with what stands before them."""
    kept, at, head, is_public, of_trait = [], 0, 0, False, 0
    while at < len(tokens):
        part, item = end_of_head_part(tokens, at), item_at(tokens, at)
        if part > at:
            is_public = is_public or is_code(tokens, at, "pub") and not is_code(tokens, at, "pub", "(")
            kept += tokens[at:part]
            at = part
            continue
        end = at + 1 if item is Item.NEITHER else end_of(tokens, body_of(tokens, at))
        if is_code(tokens, at, "impl"):
            end, of_trait = block_of_impl(tokens, at)
        if item is Item.FUNCTION and not is_public and at >= of_trait:
            del kept[head:]
        else:
            kept += tokens[at:end]
        at, head, is_public = end, len(kept), False
    return kept


def leaves(texts, path=""):
    """Returns the paths that an import's texts name, each with the name that it gives."""
    for at, text in enumerate(texts):
        if text == "{":
            parts, depth = [[]], 0
            for it in texts[at + 1 : -1]:
                depth += (it == "{") - (it == "}")
                if it == "," and not depth:
                    parts.append([])
                else:
                    parts[-1].append(it)
            return [leaf for it in parts if it for leaf in leaves(it, path)]
        if text == "as":
            return [(path, texts[at + 1])]
        path += text
    return [(path, re.split(r"::|\.", path.removesuffix("::self"))[-1])]


def imports_of(tokens):
    """Returns the tokens without those imports that are not handed on, and what these import: paths, with the names that they give."""
    kept, found, at = [], [], 0
    while at < len(tokens):
        is_ghost = is_code(tokens, at, "ghost") and at + 1 < len(tokens) and tokens[at + 1][1] == '"use"'
        begins = at + is_ghost
        if not is_ghost and not is_code(tokens, at, "use") or kept and kept[-1] in ((CODE, '"pub"'), (CODE, '")"')):
            kept.append(tokens[at])
            at += 1
            continue
        end = next(it for it in range(begins, len(tokens)) if is_code(tokens, it, ";"))
        found += leaves([json.loads(text) for _, text in tokens[begins + 1 : end]])
        at = end + 1
    return kept, found


def without_idle_imports(tokens):
    """Returns the tokens without the imports of names that nothing else there has. Of a name with signs, as an operator's, the parts may stand apart there, in antt alone."""
    kept, found = imports_of(tokens)
    words = words_of(json.loads(text) for _, text in kept)
    of_antt = {json.loads(text) for kind, text in kept if kind != CODE}
    stands = lambda name: name in words if re.fullmatch(r"[\w+'-]+", name) else all(any(part in it for it in of_antt) for part in name.split("◌"))
    used = sorted({f"{path} as {name}" for path, name in found if stands(name)})
    return [("Import", json.dumps(it)) for it in used] + kept


def words_of(texts):
    return {it for text in texts for it in re.findall(r"[\w+'-]+", text)}


def all_words(tokens):
    """Returns the words of the tokens, each as often as it stands there."""
    return [it for _, text in tokens for it in re.findall(r"[\w+'-]+", json.loads(text))]


def own_types(tokens):
    """Returns the types that other crates cannot name in their code: the name of each, where what stands before it begins and where it ends."""
    found, at, head, is_public = [], 0, 0, False
    while at < len(tokens):
        part = end_of_head_part(tokens, at)
        if part > at:
            is_public = is_public or is_code(tokens, at, "pub") and not is_code(tokens, at, "pub", "(")
            at = part
            continue
        is_type = (is_code(tokens, at, "struct") or is_code(tokens, at, "enum")) and is_name(tokens, at + 1)
        end = end_of(tokens, body_of(tokens, at)) if is_type else at + 1
        if is_type and not is_public:
            found.append((json.loads(tokens[at + 1][1]), head, end))
        at, head, is_public = end, end, False
    return found


def without_empty_impls(tokens):
    """Returns the tokens without the blocks of a type's own functions of which none is left."""
    kept, at = [], 0
    while at < len(tokens):
        opened = block_of_impl(tokens, at) if is_code(tokens, at, "impl") else None
        if opened and opened[0] == opened[1] and is_code(tokens, opened[0], "{", "}"):
            at = opened[0] + 2
        else:
            kept.append(tokens[at])
            at += 1
    return kept


def without_idle_types(files, named_elsewhere):
    """Returns the files without the types of their own that nothing else there names, nor any of the words that are named elsewhere."""
    counts = Counter(word for it in files for word in all_words(it))
    for at, tokens in enumerate(files):
        for name, begins, ends in reversed(own_types(tokens)):
            of_type = Counter(all_words(tokens[begins:ends]))
            if name not in named_elsewhere and counts[name] == of_type[name]:
                counts -= of_type
                files = [*files[:at], files[at][:begins] + files[at][ends:], *files[at + 1 :]]
                # (what that one named may be idle now)
                return without_idle_types(files, named_elsewhere)
    return files


def without_idle_modules(tokens, empty):
    """Returns the tokens without the lines that make one of these names a module, where nothing stands before `mod`."""
    kept, at = [], 0
    while at < len(tokens):
        part = end_of_head_part(tokens, at)
        is_line = part == at and is_code(tokens, at, "mod") and is_name(tokens, at + 1) and is_code(tokens, at + 2, ";")
        if is_line and json.loads(tokens[at + 1][1]) in empty:
            at += 3
        else:
            kept += tokens[at : part + 1]
            at = part + 1
    return kept


class Item(enum.Enum):
    """What begins at a token: a function whose body nobody else reads, an item whose body others may read, or neither."""

    FUNCTION = enum.auto()
    READ = enum.auto()
    NEITHER = enum.auto()


def item_at(tokens, at):
    """Returns what begins here. Others may read the body of a constant function, of a trait and of a macro."""
    kind, text = tokens[at]
    if kind != CODE or text not in ('"fn"', '"const"', '"trait"', '"macro_rules"'):
        return Item.NEITHER
    if is_code(tokens, at, "const", "fn") or is_code(tokens, at, "macro_rules", "!") or is_code(tokens, at, "trait") and is_name(tokens, at + 1):
        return Item.READ
    return Item.FUNCTION if is_code(tokens, at, "fn") and is_name(tokens, at + 1) else Item.NEITHER


def without_bodies(tokens):
    """Returns the tokens without the bodies of functions, but for those that others may read."""
    kept, at = [], 0
    while at < len(tokens):
        item = item_at(tokens, at)
        if item is Item.NEITHER:
            kept.append(tokens[at])
            at += 1
            continue
        body = body_of(tokens, at)
        end = end_of(tokens, body)
        kept += tokens[at : body if item is Item.FUNCTION else end]
        at = end
    return kept


def told(tokens):
    return "\n".join(f"{kind} {text}" for kind, text in tokens)


def whole(folder, files):
    """Returns what a crate's own proofs rest on of these files of it: their names and their texts."""
    return [*files, *(told(without_derives(it)) for it in read(folder, files))]


def stated(folder, files, named_elsewhere):
    """Returns what the proofs of crates above can rest on of these files: the names and the texts of those that state something. Words that other crates' antt has are named elsewhere."""
    found = dict(zip(files, read(folder, files)))
    sources = [it for it in files if it.endswith(".rt")]
    named = named_elsewhere | {word for file in files if file not in sources for word in all_words(found[file])}
    of_sources = [without_empty_impls(without_bodies(without_own_functions(without_derives(found[it])))) for it in sources]
    found |= dict(zip(sources, map(without_idle_imports, without_idle_types(of_sources, named))))
    module = lambda file: re.sub(r"(/mod)?\.rt$", "", file).split("/")[-1]
    empty = {module(it) for it in sources if not found[it]} - {module(it) for it in sources if found[it]}
    found |= {it: without_idle_modules(found[it], empty) for it in sources}
    # (a file of which only such lines were left states nothing either)
    kept = [it for it in files if found[it]]
    return [*kept, *(told(found[it]) for it in kept)]
