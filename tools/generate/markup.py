"""HTML of code, with links to what its words stand for, and of comments."""

import re
from html import escape

# A name can contain `'`, and `-` before another letter; an operator is a word too.
TOKEN = re.compile(r"""
    (?P<comment> -- .* | // .* )
  | (?P<string> "(?:[^"\\]|\\.)*" )
  | (?P<keyword> \b (?:abbrev|as|const|data|else|enum|extern|fn|for|if|impl|in|let|mut|pub|record|struct|then|trait|type|Type
                      |unfoldable|unsafe|use|where) \b (?!') | λ )
  | (?P<number> 0x[0-9A-Fa-f]+ | \d+ )
  | (?P<word> ◌\S+ | [^\W\d][\w']*(?:-[^\W\d][\w']*)* | [^\s\w(){}\[\],;."']+ )
  | [\s\S]
""", re.X)
CODE = re.compile(r"\[?`([^`]+)`\]?(?:\([^)]*\))?")
TERM = re.compile(r"(?<!\w)\*([a-z][a-z ]*)\*(?!\w)")
RFC = re.compile(r"RFC (\d+)(?:, sections? (\d[\d.]*\d|\d)(?: to \d+)?)?")
# A step of a standard in a definition's comment ends before another one, or before a sentence.
STEP = re.compile(r"^(steps? \d.*)\n(?=[A-Z]|step)", re.M)


def code(text, meaning=lambda head, word: None, own=None):
    """HTML of code, and the list of what it names besides its own item. `meaning` gives what a word stands for, after another
    word and a dot if `head` is one. A word before a colon is a variable, and one in small letters before an equals sign."""
    bound, named = set(re.findall(r"([^\s({]+) :(?!\S)", text)), []

    def marked(token):
        word, style, html = token[0], token.lastgroup, escape(token[0], quote=False)
        if style != "word":
            return f'<span class="{style}">{html}</span>' if style else html
        dot = re.search(r"([\w']*)\.$", text[: token.start()])
        head = dot and dot[1]
        is_variable = word in bound or word[0].islower() and re.match(r" =(?!\S)", text[token.end() :])
        if head == "" or is_variable and not dot:
            return html
        it = meaning(head, word) or meaning(head, f"◌{word}◌")
        if it in (None, own) or not it.shown:
            return html
        named.append(it)
        return f'<a href="{escape(it.href)}">{html}</a>'

    return TOKEN.sub(marked, text), named


def plain(text):
    """HTML of a line with code and *terms* in it."""
    return TERM.sub(r"<em>\1</em>", CODE.sub(r"<code>\1</code>", escape(text, quote=False)))


def words(text):
    """HTML of a paragraph, with links to the standards that it names."""
    def link(found):
        place = f"#section-{found[2]}" if found[2] else ""
        return f'<a href="https://www.rfc-editor.org/rfc/rfc{found[1]}.html{place}">{found[0]}</a>'

    return RFC.sub(link, plain(" ".join(text.split())))


def first_sentence(text):
    """HTML of the first sentence of a comment."""
    return words(re.split(r"\n\s*\n|(?<=\.)\s", text.replace("-- ", "").strip(), maxsplit=1)[0])


def definition_comment(text):
    """HTML of the lines of a comment above a definition."""
    lines = STEP.sub(r"\1\n\n", re.sub("^-- *", "", text.strip(), flags=re.M)).split("\n\n")
    return f"<p>{'<br>'.join(map(words, lines))}</p>" if text else ""


def doc(text):
    """HTML of a doc comment, its paragraphs and blocks of code."""
    out = ""
    for at, part in enumerate(re.split(r"^```\w*\n(.*?)\n```$", text, flags=re.M | re.S)):
        paragraphs = filter(None, re.split(r"\n\s*\n", part.strip()))
        out += f"<pre><code>{code(part)[0]}</code></pre>" if at % 2 else "".join(f"<p>{words(it)}</p>" for it in paragraphs)
    return out
