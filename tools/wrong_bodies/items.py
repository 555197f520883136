"""Where the functions and constants of a Rattle file stand, and what the prover calls them."""
import re
from dataclasses import dataclass, field

# A comment, a string, a character, or a lifetime, which is none.
HIDDEN = re.compile(r"//[^\n]*|/\*.*?\*/|b?r(#*)\".*?\"\1|b?\"(?:\\.|[^\"\\])*\"|b?'(?:\\[^']*|[^'\\\n])'", re.S)
# What stands before the braces of a clause, which are no body.
CLAUSE = re.compile(r"(\b(requires|ensures)\*?(\s+\w+)?|\bghost\s+\w+\s*:)\s*\Z")
CONSTANT = re.compile(r"(?:pub(?:\([^)]*\))?\s+)?(?:const|static)\s+(\w+)\s*:")
ATTRIBUTE = re.compile(r"#\s*!?\s*\[")


@dataclass
class Items:
    """The bodies of functions by what the prover calls them below the crate, and the constants by their names, each from one place of the text to another."""

    functions: list = field(default_factory=list)
    constants: list = field(default_factory=list)


def blanked(text):
    """The text with blanks in the place of comments, strings and characters."""
    return HIDDEN.sub(lambda it: re.sub(r"[^\n]", " ", it[0]), text)


def close_of(text, at):
    """The place behind the bracket that closes the one here."""
    depth = 0
    for it in re.compile(r"[(\[{]|[)\]}]").finditer(text, at):
        depth += 1 if it[0] in "([{" else -1
        if depth == 0:
            return it.end()
    return len(text)


def plain_type(words):
    """The name of a type without its path, or what the prover calls a reference to any type."""
    words = words.strip()
    if words.startswith("&"):
        return "RefMut" if re.match(r"&\s*('\w+\s+)?mut\b", words) else "Ref"
    return words.rpartition("::")[2].strip()


def without_arguments(header):
    """The header of an impl without what stands in its outer angle brackets."""
    kept, depth = "", 0
    for at, sign in enumerate(header):
        if sign == "<":
            depth += 1
        elif sign == ">" and header[at - 1] not in "-=":
            depth -= 1
        elif depth == 0:
            kept += sign
    return kept


def impl_name(header):
    """What the prover calls an impl: its type, and behind it its trait, with what that is of, where it has one."""
    words = without_arguments(header).partition("impl")[2].partition(" where ")[0]
    first, for_, second = words.partition(" for ")
    of = re.search(r"<([\w:]+)>\s*for\b", header)
    return plain_type(second) + plain_type(first) + (plain_type(of[1]) if of else "") if for_ else plain_type(first)


def find_items(text, inside, found, start, end):
    """Adds what stands in this part of a blanked text, in the modules and the impl that are named, to what was found."""
    at = start
    while at < end:
        blank = re.compile(r"[\s;]*").match(text, at, end).end()
        if blank != at:
            at = blank
            continue
        mark = ATTRIBUTE.match(text, at)
        if mark:
            at = close_of(text, mark.end() - 1)
            continue
        at = find_item(text, inside, found, at, end)


def find_item(text, inside, found, start, end):
    """The same of one item, whose end it returns."""
    at, header_from = start, start
    for_constant = CONSTANT.match(text, start)
    while at < end:
        it = re.compile(r"[(\[{;]").search(text, at, end)
        if not it:
            break
        at = it.start()
        if it[0] in "([" or it[0] == "{" and for_constant:
            at = close_of(text, at)
            continue
        if it[0] == ";":
            if for_constant:
                found.constants.append((for_constant[1], start, at))
            return at + 1
        header, behind = text[header_from:at], close_of(text, at)
        if CLAUSE.search(header) and re.search(r"\bfn\b", text[start:at]):
            at = header_from = behind
            continue
        name_body(text, inside, found, text[start:at], at + 1, behind - 1)
        return behind
    return end


def name_body(text, inside, found, header, start, end):
    """Adds what has this header and, between its braces, this body."""
    function = re.search(r"\bfn\s+(\w+)", header)
    if function:
        found.functions.append(("::".join([*inside, function[1]]), start, end))
    elif re.match(r"(unsafe\s+)?impl\b", header):
        find_items(text, [*inside, impl_name(header)], found, start, end)
    else:
        outer = re.search(r"\b(?:trait|mod)\s+(\w+)", header)
        if outer and not re.search(r"\b(struct|enum|use)\b", header):
            find_items(text, [*inside, outer[1]], found, start, end)


def items_of(path, text):
    """The functions and constants of a file below src/."""
    inside = path.removeprefix("src/").removesuffix(".rt").split("/")
    inside = inside[: -1 if inside[-1] in ("lib", "main", "mod") else None]
    found, text = Items(), blanked(text)
    find_items(text, inside, found, 0, len(text))
    return found
