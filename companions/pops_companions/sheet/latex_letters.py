"""Letters beyond ASCII in a LaTeX document, which LaTeX, pdfLaTeX, LuaLaTeX and XeLaTeX set."""

from pops_companions.sheet.latex_commands import CYRILLIC, in_commands

_HEAD = "\\usepackage{iftex}\n\\ifPDFTeX\n"
# (Cyrillic's encoding needs a package of its own, Debian's texlive-lang-cyrillic)
_LATIN = "\\usepackage[T1]{fontenc}\n"
_LATIN_AND_CYRILLIC = "\\usepackage[T2A,T1]{fontenc}\n"
_INPUT = "\\usepackage[utf8]{inputenc}\n"
# A letter of Cyrillic, which LaTeX has in its encoding, T2A; another one, which it may not have.
_MACROS = r"""\usepackage{graphicx}
\newcommand*\cyrillicletter[3]{\ifcsname u8:\detokenize{#2}\endcsname
  \expandafter\let\csname letter#1\expandafter\endcsname\csname u8:\detokenize{#2}\endcsname
  \DeclareUnicodeCharacter{#1}{{\fontencoding{T2A}\selectfont\csname letter#1\endcsname}}%
  \else\DeclareUnicodeCharacter{#1}{{\fontencoding{T2A}\selectfont#3}}\fi}
\newcommand*\otherletter[3]{\ifcsname u8:\detokenize{#2}\endcsname\else
  \DeclareUnicodeCharacter{#1}{#3}\fi}
\newcommand*\stroked[1]{{\ooalign{#1\cr\hidewidth--\hidewidth\cr}}}
\newcommand*\horned[1]{#1\kern-.1em\raisebox{.3ex}{'}}
\newcommand*\hooked[1]{{\setbox0=\hbox{#1}\ooalign{\copy0\cr\hidewidth\raisebox{\dimexpr\ht0+.1ex}{\hook}\hidewidth\cr}}}
\newcommand*\hook{\raisebox{\depth}{\rotatebox[origin=c]{180}{\fontencoding{T1}\selectfont\char12}}}
\newcommand*\belowletter[2]{{\ooalign{#2\cr\hidewidth\raisebox{-2ex}{#1{}}\hidewidth\cr}}}
\newcommand*\overlast[1]{\leavevmode\llap{\hbox to.5em{\hss#1{}\hss}}}
"""
# Fonts with more letters than Latin Modern, for engines that take any font.
_FONTS = ("CMU Serif", "Libertinus Serif", "Linux Libertine O", "FreeSerif", "DejaVu Serif")
_COMMON = range(0x00A0, 0x0180)
_OTHER_ENGINES = "\\else\n\\usepackage{fontspec}\n"


def letters_of(text: str) -> str:
    """Returns the lines of a preamble that let a document with this text be set."""
    others = _beyond_ascii(text)
    has_cyrillic = any(ord(character) in CYRILLIC for character in others)
    lines = [_HEAD, _LATIN_AND_CYRILLIC if has_cyrillic else _LATIN, _INPUT]
    if others:
        lines.append(_MACROS)
    lines += [f"{_declared(character)}\n" for character in others]
    lines.append(_OTHER_ENGINES)
    if any(ord(character) not in _COMMON for character in others):
        lines.append(_font_choice())
    return "".join([*lines, "\\fi\n"])


def _font_choice() -> str:
    """Returns the line that takes the first of the fonts that is there."""
    choice = ""
    for font in reversed(_FONTS):
        choice = f"\\IfFontExistsTF{{{font}}}{{\\setmainfont{{{font}}}}}{{{choice}}}"
    return choice + "\n"


def beyond_latex(text: str) -> str:
    """Returns the letters of a text that plain LaTeX lacks: it sets another for them, or `?`."""
    return "".join(it for it in _beyond_ascii(text) if it.isalpha() and not in_commands(it)[1])


def _beyond_ascii(text: str) -> list[str]:
    return sorted({character for character in text if ord(character) > 0x7F})


def _declared(character: str) -> str:
    kind = "cyrillicletter" if ord(character) in CYRILLIC else "otherletter"
    text, _ = in_commands(character)
    return rf"\{kind}{{{ord(character):04X}}}{{{character}}}{{{text}}}"
