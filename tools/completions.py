"""Completions of the words of `tav` for bash, zsh and fish, all made from one table, which is read off its usage line. No
script: tools/install imports it.

A form of the usage line is a command, the words it takes at their places, and its options. What a word completes to hangs on
its kind, the word in capitals: a file whose name ends so, the name of a pattern of FILE (PATTERN, or NAME behind an option), or a
number of guards.
"""

import re
from collections import namedtuple

USAGE = "tav: usage: "
PART = r"[a-z][a-z-]*( [A-Z0-9]+)*( \[--[a-z]+( [A-Z0-9]+)?\])*"
OPTION = r"--[a-z]+( [A-Z]+)? with [a-z][a-z-]*((, | or )[a-z][a-z-]*)*"  # behind the forms, an option of these commands
Form = namedtuple("Form", "command places options text")  # options: (name, kind of its value or None)
ENDINGS = {"FILE": "ta", "CERT": "cert", "RUN": "run", "VALUES": "values"}
WRITTEN = ("OUT", "OUT2")
GUARDS = "1 2 3 4 5 6 7"
PATTERNS = r"s/^[[:space:]]*pattern[[:space:]]\{1,\}\([A-Za-z_0-9]*\).*/\1/p"
HEAD = "Completions of tav for {}. Made by tools/install from the usage line of tav."


def is_usage(line):
    return bool(re.fullmatch(f"{USAGE}{PART}(, {PART})*(, {OPTION})*", line))


def options_behind(text):
    """The options that stand behind the forms: of each command, (name, kind of its value or None)."""
    found = {}
    for name, kind, commands in re.findall(r", (--[a-z]+)(?: ([A-Z]+))? with ([a-z][a-z-]*(?:(?:, | or )[a-z][a-z-]*)*)", text):
        for command in re.split(", | or ", commands):
            found.setdefault(command, []).append((name, kind or None))
    return found


def forms_of(line):
    """The table of forms, from a usage line."""
    forms = []
    whole, mark, behind = line[len(USAGE) :].partition(", --")
    others = options_behind(mark + behind)
    for text in whole.split(", "):
        head, *options = text.split(" [")
        command, *places = head.split()
        pairs = [(it.rstrip("]").split() + [None])[:2] for it in options] + [list(it) for it in others.get(command, [])]
        told = "".join(f" [{' '.join(it for it in pair if it)}]" for pair in others.get(command, []))
        forms.append(Form(command, places, pairs, text[len(command) + 1 :] + told))
    return forms


def ending_of(form, kind):
    """What the names of files of a kind end with; of `search`, FILE is a template."""
    return "template" if form.command == "search" and kind == "FILE" else ENDINGS.get(kind, "")


# ---- bash
BASH = r"""# {head}

# The files that end so, and folders; all files where there are none, and for no ending.
_tav_files() {{
    compopt -o filenames 2>/dev/null
    [[ $1 ]] && mapfile -t COMPREPLY < <(compgen -f -X "!*.$1" -- "$current"; compgen -d -- "$current")
    ((${{#COMPREPLY[@]}})) || mapfile -t COMPREPLY < <(compgen -f -- "$current")
}}

_tav_words() {{
    mapfile -t COMPREPLY < <(compgen -W "$1" -- "$current")
}}

_tav() {{
    local current=${{COMP_WORDS[COMP_CWORD]}} value="" file="" place=0 at word option
    local -a places=() options=()
    COMPREPLY=()
    if ((COMP_CWORD == 1)); then
        _tav_words "{commands}"
        return
    fi
    case ${{COMP_WORDS[1]}} in
{cases}
    *) return ;;
    esac
    for ((at = 2; at < COMP_CWORD; at++)); do
        word=${{COMP_WORDS[at]}}
        if [[ $word == --* ]]; then
            value=""
            for option in "${{options[@]}}"; do
                [[ $option == "$word="* ]] && value=${{option#*=}}
            done
        elif [[ $word == = ]]; then
            continue # bash takes --nodes=5 for three words
        elif [[ $value ]]; then
            value=""
        else
            [[ ${{places[place]}} == FILE* ]] && file=$word
            place=$((place + 1))
        fi
    done
    [[ $current == = ]] && current=""
    if [[ ! $value && $current == -* ]]; then
        _tav_words "${{options[*]%%=*}}"
        return
    fi
    word=${{value:-${{places[place]}}}}
    case $word in
    *.*) _tav_files "${{word#*.}}" ;;
    {written}) _tav_files "" ;;
    PATTERN | NAME) _tav_words "$(sed -n '{patterns}' "$file" 2>/dev/null)" ;;
    K) _tav_words "{guards}" ;;
    esac
}}

complete -F _tav tav
"""


def bash(forms):
    cases = []
    for form in forms:
        places = " ".join(".".join(filter(None, (kind, ending_of(form, kind)))) for kind in form.places)
        options = " ".join(f"{name}={kind}" if kind else name for name, kind in form.options)
        cases.append(f"    {form.command}) places=({places}) options=({options}) ;;")
    commands = " ".join(form.command for form in forms)
    told = {"commands": commands, "cases": "\n".join(cases), "written": " | ".join(WRITTEN)}
    return BASH.format(head=HEAD.format("bash"), patterns=PATTERNS, guards=GUARDS, **told)


# ---- zsh
ZSH = r"""#compdef tav
# {head}

_tav_patterns() {{
    compadd -- ${{(f)"$(sed -n '{patterns}' ${{(Q)words[2]}} 2>/dev/null)"}}
}}

_tav() {{
    local -a commands
    commands=(
{commands}
    )
    if ((CURRENT == 2)); then
        _describe command commands
        return
    fi
    shift words
    ((CURRENT--))
    case $words[1] in
{cases}
    esac
}}

_tav "$@"
"""


def zsh_action(form, kind):
    if kind in ENDINGS:
        return f'_files -g "*.{ending_of(form, kind)}"'
    if kind in WRITTEN:
        return "_files"
    return {"PATTERN": "_tav_patterns", "NAME": "_tav_patterns", "K": f"({GUARDS})"}.get(kind, " ")


def zsh(forms):
    commands, cases = [], []
    for form in forms:
        commands.append(f"        '{form.command}:{form.text}'")
        specs = [f"'{at}:{kind}:{zsh_action(form, kind)}'" for at, kind in enumerate(form.places, 1)]
        specs += [f"'{name}=:{kind}:{zsh_action(form, kind)}'" if kind else f"'{name}'" for name, kind in form.options]
        cases.append(f"    {form.command}) _arguments {' '.join(specs)} ;;")
    return ZSH.format(head=HEAD.format("zsh"), patterns=PATTERNS, commands="\n".join(commands), cases="\n".join(cases))


# ---- fish
FISH = r"""# {head}

function __tav_is_at --description 'Whether this command stands there, and the word at this place behind it is due'
    set -l words (commandline -opc)
    test (count $words) -ge 2; and test $words[2] = $argv[1]; or return 1
    set -l place 1
    set -l skips no
    for word in $words[3..-1]
        if test $skips = yes
            set skips no
        else if contains -- $word {valued}
            set skips yes
        else if not string match -q -- '--*' $word
            set place (math $place + 1)
        end
    end
    test $skips = no -a $place = $argv[2]
end

function __tav_is_first
    test (count (commandline -opc)) -eq 1
end

function __tav_patterns
    set -l words (commandline -opc)
    sed -n '{patterns}' $words[3] 2>/dev/null
end

complete -c tav -f
{lines}
"""


def fish(forms):
    lines = []
    for form in forms:
        lines.append(f"complete -c tav -n __tav_is_first -a {form.command} -d '{form.text}'")
        for at, kind in enumerate(form.places, 1):
            offered = {"PATTERN": "(__tav_patterns)", "K": GUARDS}.get(kind)
            if kind in ENDINGS:
                offered = f"(__fish_complete_suffix .{ending_of(form, kind)})"
            if offered:
                lines.append(f"complete -c tav -n '__tav_is_at {form.command} {at}' -a '{offered}' -d {kind}")
        for name, kind in form.options:
            more = f" -r -F -d {kind}" if kind in WRITTEN else f" -x -d {kind}" if kind else ""
            more += " -a '(__tav_patterns)'" if kind == "NAME" else ""
            lines.append(f"complete -c tav -n '__fish_seen_subcommand_from {form.command}' -l {name[2:]}{more}")
    valued = sorted({name for form in forms for name, kind in form.options if kind})
    return FISH.format(head=HEAD.format("fish"), patterns=PATTERNS.replace("\\", "\\\\"), valued=" ".join(valued), lines="\n".join(lines))
