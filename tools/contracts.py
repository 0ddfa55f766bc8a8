"""Reads the contracts of calls in the sources, for the scripts of this folder."""

import re


def one_line(text):
    """Returns the text on one line, without the comma at the end of a broken list."""
    line = re.sub(r"\s+", " ", re.sub(r"//[^\n]*", "", text)).strip()
    return re.sub(r", ?([>)])", r"\1", re.sub(r"(\(|(?<=\w)<) ", r"\1", line))


def braced(text, begin):
    """Returns the text between the brace at `begin` and its closing brace, and the index behind it."""
    depth = 0
    for at in range(begin, len(text)):
        depth += {"{": 1, "}": -1}.get(text[at], 0)
        if not depth:
            return text[begin + 1 : at], at + 1
    return text[begin + 1 :], len(text)


def owner_of(text, at):
    """Returns the type or the trait whose items are at `at`, or an empty text for a module's items."""
    heads = list(re.finditer(r"^(?:unsafe )?(impl|pub trait)\b(.*?)\{$", text[:at], re.M | re.S))
    if not heads or re.search(r"^}", text[heads[-1].end() : at], re.M):
        return ""
    kind, head = heads[-1].groups()
    if kind == "impl":
        head = one_line(head)
        depth = 0
        for place, sign in enumerate(head):
            depth += {"<": 1, ">": -1}.get(sign, 0) if head[place - 1 : place + 1] != "->" else 0
            if not depth and (sign == ">" or not head.startswith("<")):
                head = head[place + 1 :] if sign == ">" else head
                break
        head = head.split(" for ")[-1]
    named = re.match(r"\s*(\w+)", head)
    return named[1] + "::" if named else ""


def contract(text, call):
    """Returns the signature of a call and its clauses, a line each, or `None` unless there is one call."""
    name = call.split("::")[-1]
    found = [
        place
        for place in re.finditer(rf"^ *(?:pub )?(?:const )?(?:unsafe )?fn {name}\b", text, re.M)
        if call == name or owner_of(text, place.start()) + name == call
    ]
    if len(found) != 1:
        return None
    begin = found[0].start()
    end = re.compile(r"^\s*(?:(?:requires|ensures|measure)\b|\{$|;)|\{$|;$", re.M).search(
        text, found[0].end()
    )
    head = one_line(text[begin : end.start()]).removeprefix("pub ").rstrip(",")
    lines = [head.replace(f"fn {name}", f"fn {owner_of(text, begin)}{name}", 1)]
    at = end.start()
    clause = re.compile(r"(?:\s|//[^\n]*\n)*(requires|ensures)\b\s*(\w*)\s*(?=\{)")
    while found := clause.match(text, at):
        body, at = braced(text, found.end())
        told = f"{found[1]} {found[2]}".strip()
        lines.append(f"  {told}: {one_line(body)}")
    return lines
