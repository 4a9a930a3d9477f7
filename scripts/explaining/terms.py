"""Terms of specs/ and of clauses: their words, and which of them are bound in the term itself."""
import re
from dataclasses import dataclass

WORD = r"[^\s(){}\[\],;.⟦⟧λ]+"
TOKEN = re.compile(rf"\[\]|[(){{}}\[\],;⟦⟧λ]|\.(?={WORD}){WORD}(?:\.{WORD})*|{WORD}(?:\.{WORD})*|\.")
PAIRS = {"(": ")", "{": "}", "[": "]", "⟦": "⟧"}
# What is part of the language and needs no import, beside the brackets.
SYNTAX = set("→ × λ : = | ⊥ ¬ ∥ ∥₁ _ ▸ @ Type Unit tt absurd record let in 𝓛 elim where Prim".split())
# Constructors that begin with a small letter: in a pattern they bind nothing.
SMALL_CONSTRUCTORS = {"true", "false", "zero", "suc", "tt", "[]", "refl"}
IDENTIFIER = re.compile(r"[^\W\d][\w'-]*$")


@dataclass(frozen=True)
class Use:
    """A word of a term, with what is read of it after dots. `bound`: the term itself binds the word."""

    word: str
    members: tuple = ()
    bound: bool = False


class Group(list):
    """What stands between two brackets."""

    def __init__(self, bracket):
        super().__init__()
        self.bracket = bracket


def without_comments(text):
    return re.sub(r"(^|\s)--.*", r"\1", text)


def without_strings(text):
    return re.sub(r'"[^"\n]*"', "0", text)


def parsed(text):
    """The tokens of a term, with a Group for each pair of brackets."""
    stack = [Group("")]
    for token in TOKEN.findall(without_comments(without_strings(text))):
        if token in PAIRS:
            stack.append(Group(token))
        elif token in PAIRS.values() and len(stack) > 1:
            group = stack.pop()
            stack[-1].append(group)
        else:
            stack[-1].append(token)
    while len(stack) > 1:
        group = stack.pop()
        stack[-1].append(group)
    return stack[0]


def is_plain(token):
    return isinstance(token, str) and "." not in token and IDENTIFIER.match(token) is not None


def split(tokens, mark):
    """The parts of the tokens between these marks."""
    parts = [[]]
    for token in tokens:
        if token == mark:
            parts.append([])
        else:
            parts[-1].append(token)
    return parts


def binder_of(group):
    """Names and type of a group like `(x y : T)`, or None where it is no binder."""
    if not isinstance(group, Group) or group.bracket not in "({" or ":" not in group:
        return None
    at = group.index(":")
    names = group[:at]
    if not names or not all(is_plain(it) or it == "_" for it in names):
        return None
    return names, group[at + 1 :]


class Reader:
    """Collects the uses of words in terms. `is_constructor` says of a name whether a pattern compares with it."""

    def __init__(self, is_constructor):
        self.is_constructor = is_constructor
        self.uses = []

    def word(self, token, bound):
        word, *members = token.split(".") if len(token) > 1 else [token]
        if not word:
            self.uses.append(Use("", tuple(members), True))
        elif word[0].isdigit():
            return
        else:
            self.uses.append(Use(word, tuple(members), word in bound))

    def pattern(self, tokens, bound):
        """Reads a pattern, and returns the names that are bound with it."""
        bound = set(bound)
        for token in tokens:
            if isinstance(token, Group):
                for part in split(token, ";"):
                    if len(part) > 1 and part[1] == "=":
                        part = part[2:]
                    binder = binder_of(token)
                    if binder:
                        self.term(binder[1], bound)
                        part = binder[0]
                    bound |= self.pattern(part, bound)
            elif is_plain(token) and token not in SMALL_CONSTRUCTORS and not self.is_constructor(token):
                if token != "_":
                    bound.add(token)
            elif token not in (",", "_"):
                self.word(token, set())
        return bound

    def lambda_pattern(self, tokens, at, bound):
        """Reads from behind a λ to its dot, and returns where the body begins and what is bound there."""
        end = at
        while end < len(tokens) and tokens[end] != ".":
            end += 1
        return end + 1, self.pattern(tokens[at:end], bound)

    def let_pattern(self, tokens, at, bound):
        """Reads the name behind a `let`; what it stands for is read with the rest."""
        end = at
        while end < len(tokens) and tokens[end] not in (":", "="):
            end += 1
        return end, self.pattern(tokens[at:end], bound)

    def labelled(self, group, bound):
        """Reads a group like `{ a = x; b = y }`, whose labels are fields or the names of parameters."""
        for part in split(group, ";"):
            if len(part) > 1 and part[1] == "=" and is_plain(part[0]):
                self.uses.append(Use("", (part[0],), True))
                part = part[2:]
            self.term(part, bound)

    def term(self, tokens, bound):
        """Reads a term, and returns what is bound at its end."""
        bound, at = set(bound), 0
        while at < len(tokens):
            token = tokens[at]
            at += 1
            if isinstance(token, Group):
                binder = binder_of(token)
                if binder:
                    self.term(binder[1], bound)
                    bound |= set(binder[0])
                elif token.bracket == "{" and "=" in token:
                    self.labelled(token, bound)
                else:
                    self.term(token, bound)
            elif token == "λ":
                at, bound = self.lambda_pattern(tokens, at, bound)
            elif token == "let":
                at, bound = self.let_pattern(tokens, at, bound)
            elif token not in (",", ";", "."):
                self.word(token, bound)
        return bound
