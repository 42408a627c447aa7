"""The tokens of Rattle's code. pygments finds comments and string literals, as in Rust."""

from __future__ import annotations

import re

from pygments.lexers import RustLexer
from pygments.token import Comment, String

# A token of a source in which string literals are `""` and comments are blanks.
TOKEN = re.compile(r'""|\'\w+|\w+|::|=>|==|!=|[^\w\s]')
# pygments counts attributes as comments, but they are code.
ATTRIBUTE = Comment.Preproc


class Token(str):
    """The text of a token, with the number of its line, counted from 0."""

    line = 0


def without_comments(source: str) -> str:
    """Replaces comments by blanks, and each string or character literal by `""`. Line numbers don't
    change.
    """
    parts: list[str] = []
    in_text = False
    depth = 0
    for kind, part in RustLexer(stripnl=False, ensurenl=False).get_tokens(source):
        was_in_text, in_text = in_text, kind in String and kind not in String.Doc
        if in_text:
            parts.append(("" if was_in_text else '""') + "\n" * part.count("\n"))
        elif kind in Comment and kind not in ATTRIBUTE or kind in String.Doc:
            parts.append(" " + "\n" * part.count("\n"))
        else:
            parts.append(part)
        if kind in Comment.Multiline or kind in String.Doc and not part.startswith("//"):
            depth += part.count("/*") - part.count("*/")
    if depth > 0:
        raise ValueError("a comment doesn't end")
    return "".join(parts)


def tokens_of(source: str) -> list[Token]:
    """Returns the tokens of a source, without comments. Every string or character literal is the
    token `""`.
    """
    tokens = []
    for number, line in enumerate(without_comments(source).split("\n")):
        for found in TOKEN.findall(line):
            token = Token(found)
            token.line = number
            tokens.append(token)
    return tokens
