"""Reads sources: the functions of a file, each with its `impl` or `trait` and the clauses of its contract."""
import re


def cleaned(text):
    """The text with comments, strings and characters blanked out, of the same length."""
    pattern = re.compile(
        r"//[^\n]*|/\*.*?\*/|b?\"(?:\\.|[^\"\\])*\"|b?'(?:\\.[^']*|[^'\\\n])'", re.S)
    return pattern.sub(lambda m: re.sub(r"[^\n]", " ", m.group()), text)


def end_of_block(text, at):
    """The place after the brace that closes the one at `at`."""
    depth = 0
    for place in range(at, len(text)):
        if text[place] == "{":
            depth += 1
        elif text[place] == "}":
            depth -= 1
            if depth == 0:
                return place + 1
    return len(text)


def without_generics(words):
    """The name of a type or trait, without its arguments in angle brackets."""
    depth, kept = 0, []
    for sign in words:
        if sign == "<":
            depth += 1
        elif sign == ">" and depth:
            depth -= 1
        elif depth == 0:
            kept.append(sign)
    return "".join(kept).strip()


class Clause:
    """A clause: `ensures` or `requires`, its label or `–`, and its text with blanks as single ones."""

    def __init__(self, kind, label, text):
        self.kind, self.label, self.text = kind, label, " ".join(text.split())


class Function:
    """A function: its signature with blanks as single ones, its clauses, and its span in the file."""

    def __init__(self, name, is_public, owner, trait, signature, clauses, span):
        self.name, self.is_public, self.owner, self.trait = name, is_public, owner, trait
        self.signature, self.span = " ".join(signature.split()), span
        self.clauses = [clause for clause in clauses if clause.kind == "ensures"]
        self.asks = [clause for clause in clauses if clause.kind == "requires"]

    def title(self):
        return f"{self.owner}::{self.name}" if self.owner else self.name


def owners_of(text):
    """The `impl` and `trait` blocks of a cleaned text: where each begins and ends, its type, and its trait or `declared`."""
    owners = []
    for match in re.finditer(r"^(?:pub(?:\([^)]*\))? )?(impl|trait)\b([^{;]*)\{", text, re.M):
        kind, words = match.group(1), match.group(2)
        if kind == "impl" and words.startswith("<"):
            depth = 0
            for place, sign in enumerate(words):
                depth += (sign == "<") - (sign == ">")
                if depth == 0:
                    words = words[place + 1:]
                    break
        words = re.split(r"\bwhere\b", words)[0]
        if kind == "trait":
            owner, trait = without_generics(words).split(":")[0].strip(), "declared"
        elif re.search(r"\bfor\b", words):
            trait, owner = (without_generics(part) for part in re.split(r"\bfor\b", words, maxsplit=1))
        else:
            owner, trait = without_generics(words), ""
        owners.append((match.end() - 1, end_of_block(text, match.end() - 1), owner.lstrip("&"), trait))
    return owners


def functions_of(source):
    """All functions of the text of a file."""
    text = cleaned(source)
    owners, found = owners_of(text), []
    for match in re.finditer(r"\b(pub(?:\([^)]*\))? )?(?:const )?fn (\w+)", text):
        owner, trait = "", ""
        for start, end, name, kind in owners:
            if start < match.start() < end:
                owner, trait = name, kind
        clauses, head, end = contract(source, text, match.end())
        found.append(Function(match.group(2), match.group(1) == "pub ", owner, trait, text[match.end():head], clauses,
                              (match.start(), end)))
    return found


def contract(source, text, place):
    """The clauses of the function whose name ends at `place` of the cleaned text, the end of its signature, and its end."""
    clauses, depth, head = [], 0, None
    word = re.compile(r"\b(ensures|requires)\b\s*(\w+)?\s*\{")
    while place < len(text):
        match = word.match(text, place)
        if match and depth == 0:
            head = head or place
            end = end_of_block(text, match.end() - 1)
            clauses.append(Clause(match.group(1), match.group(2) or "–", source[match.end():end - 1]))
            place = end
            continue
        if text[place] in "([":
            depth += 1
        elif text[place] in ")]":
            depth -= 1
        elif text[place] == "{" and depth == 0:
            return clauses, head or place, end_of_block(text, place)
        elif text[place] == ";" and depth == 0:
            return clauses, head or place, place
        place += 1
    return clauses, head or place, place
