"""An independent reader of the type language: what the library's `parse` is held against.

It is written from the specification of October 2021 alone: a lexer over code points (lexer.py), the productions of the appendix as they stand there
(grammar.py), and a recogniser that takes any grammar (earley.py). Nothing is factored, so that no slip of a factored grammar can be repeated here;
tools/cards has no part in it. reading.py says what the answer for a text is."""
