"""Man pages of the scripts for users, made from what each says with --help. No script: tools/install imports it.

A script's help has a first paragraph, which says what it does, and then paragraphs and indented lines, which stay as they are.
"""

import ast
import re


def help_of(text):
    """What a script, given as its text, says with --help."""
    return ast.get_docstring(ast.parse(text)).strip()


def escaped(line):
    """A line as roff has it."""
    line = line.replace("\\", "\\e").replace("-", "\\-")
    return "\\&" + line if line[:1] in (".", "'") else line


def body_of(lines):
    """Lines of a help: what is indented stays as it is, and the rest is filled."""
    found, kept = [], False
    for line in lines:
        indented = line.startswith(" ")
        if indented != kept and line:
            found.append(".nf" if indented else ".fi")
            kept = indented
        found.append(escaped(line) if line else ".PP" if not kept else "")
    return found + ([".fi"] if kept else [])


def page_of(command, text, names):
    """The man page of a command, from its script's text; `names` are the commands of scripts, by the scripts' names."""
    told = help_of(text)
    for script, other in names.items():
        told = re.sub(rf"(?<![\w/])tools/{re.escape(script)}(?![\w.])", other, told)
    first, _, rest = told.partition("\n\n")
    summary = re.split(r"(?<=[.:])\s", " ".join(first.split()))[0].rstrip(".:")
    more = " ".join(first.split())[len(summary) :].lstrip(".: ")
    lines = [f".TH {command.upper()} 1 \"\" \"\" \"User Commands\"", ".SH NAME", f"{escaped(command)} \\- {escaped(summary[0].lower() + summary[1:])}"]
    lines += [".SH DESCRIPTION", *body_of([more, ""] if more else []), *body_of(rest.split("\n"))]
    lines += [".SH SEE ALSO", ".BR tav (1)"]
    return "\n".join(lines) + "\n"
