"""Colours Rattle code on the site, as a hook of mkdocs: Rust's lexer, to which the words and signs of contracts are no
errors."""
from pygments import lexers
from pygments.lexers.rust import RustLexer
from pygments.token import Error, Keyword, Name, Operator

CONTRACT_WORDS = ("requires", "ensures", "ghost", "sem")


class RattleLexer(RustLexer):
    """Rust, with contracts."""

    def get_tokens_unprocessed(self, text):
        for place, kind, value in super().get_tokens_unprocessed(text):
            if kind is Error:
                kind = Operator
            elif kind in Name and value in CONTRACT_WORDS:
                kind = Keyword
            yield place, kind, value


# a block of code that begins with ```rust is then read by this lexer
lexers._lexer_cache[RustLexer.name] = RattleLexer
