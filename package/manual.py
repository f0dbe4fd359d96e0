"""The man page and the completions of `spiffs`, made of what `spiffs --help` prints. Python 3.9, standard library alone."""

import re

import terms

# What may stand for a word of a form, where a shell can tell.
KINDS = {
    "PAGE": "128 256 512 1024 2048 4096",
    "BLOCK": "4096 8192 16384 32768 65536",
    "META": "0 4",
    "MAGIC": "len plain",
    "tables": "tables",
}
# Where a completion lies below `share`: unpacked from a tar file, and installed by a package.
SHELLS = {
    "bash": ("bash-completion/completions/spiffs", "bash-completion/completions/spiffs"),
    "zsh": ("zsh/site-functions/_spiffs", "zsh/vendor-completions/_spiffs"),
    "fish": ("fish/vendor_completions.d/spiffs.fish", "fish/vendor_completions.d/spiffs.fish"),
}
FILES, FOLDERS = "CHIP|IMAGE|FILE", "FOLDER"
# The paragraphs that begin a section of the man page, by their first words.
SECTIONS = (("PAGE ", "WORDS"), ("A script is", "SCRIPTS"), ("A list is", "OUTPUT"), ("Statuses: ", "EXIT STATUS"))


class Form:
    """A line of the command: its words behind `spiffs`, what it does, and an example."""

    def __init__(self, line):
        self.line = line
        self.text = []
        self.example = ""

    @property
    def verb(self):
        word = self.line.split()[0]
        return word if word.isalpha() else None

    @property
    def words(self):
        """The words behind the verb, up to what the shell reads itself; one in brackets may be left out."""
        return [word.strip("[]") for word in self.line.split(" <")[0].split()[1:]]


class Help:
    """What `--help` prints, parted: its first line, the forms, and the paragraphs behind them."""

    def __init__(self, text):
        paragraphs = [part.split("\n") for part in text.strip("\n").split("\n\n")]
        name, _, self.what = paragraphs[0][0].partition(": ")
        if name != "spiffs" or len(paragraphs) < 3:
            raise ValueError("this isn't the help of spiffs")
        self.forms = []
        for line in paragraphs[1]:
            if line.startswith("  spiffs "):
                self.forms.append(Form(line[9:]))
            elif line.startswith("      spiffs "):
                self.forms[-1].example = line.strip()
            else:
                self.forms[-1].text.append(line.strip())
        self.paragraphs = paragraphs[2:]

    @property
    def verbs(self):
        return [form for form in self.forms if form.verb]

    @property
    def options(self):
        return sorted({word for form in self.forms for word in form.line.split() if word.startswith("--")})


def in_roff(text):
    """A line as roff shows it: nothing in it is a request or an escape."""
    text = text.replace("\\", "\\e").replace("-", "\\-").replace("'", "\\(aq").replace("^", "\\(ha").replace("`", "\\(ga")
    return "\\&" + text if text.startswith(".") else text


def is_table(paragraph):
    return all(line.startswith("  ") for line in paragraph)


def words_of(paragraph):
    """The entries of a table of words: each begins at the third column, and what is told of it further right."""
    entries = []
    for line in paragraph:
        if not line.startswith("   "):
            name, _, text = line.strip().partition(" ")
            entries.append((name, [text.strip()]))
        else:
            entries[-1][1].append(line.strip())
    return entries


def statuses_of(paragraph):
    """The statuses, each with its meaning, and the sentences behind them."""
    text = " ".join(paragraph)[len("Statuses: "):]
    listed, _, rest = text.partition(". ")
    # (a number behind a semicolon begins a status; `7 .., 8 .., 9 ..` are parted by commas)
    return [part.split(" ", 1) for part in re.split(r"[;,] (?=\d+ [a-z`])", listed)], rest


def section_of(paragraph):
    first = paragraph[0].strip()
    return next((name for begin, name in SECTIONS if first.startswith(begin)), None)


def man_page(text, version, day):
    """The man page, in roff. `version` is what `--version` prints first, as `spiffs 0.1.0`; `day` is that of the commit."""
    told = Help(text)
    out = [f'.TH SPIFFS 1 "{day}" "{version}" "User Commands"', ".SH NAME", f"spiffs \\- {in_roff(told.what)}", ".SH SYNOPSIS", ".nf"]
    out += [f"\\fBspiffs\\fR {in_roff(form.line)}" for form in told.forms]
    out += [".fi", ".SH COMMANDS"]
    for form in told.verbs:
        out += [".TP", f"\\fB{in_roff(form.line)}\\fR", *map(in_roff, form.text)]
        if form.example:
            out += [".IP", ".EX", in_roff(form.example), ".EE"]
    for form in told.forms:
        if not form.verb and form.text:
            out += [".TP", f"\\fB{in_roff(form.line)}\\fR", *map(in_roff, form.text)]
    for paragraph in told.paragraphs:
        section = section_of(paragraph)
        out += [f".SH {section}"] if section else [".PP"]
        if section == "WORDS":
            for name, lines in words_of(paragraph):
                out += [".TP", f"\\fB{in_roff(name)}\\fR", *map(in_roff, lines)]
        elif section == "EXIT STATUS":
            listed, rest = statuses_of(paragraph)
            for number, meaning in listed:
                out += [".TP", f"\\fB{number}\\fR", in_roff(meaning)]
            out += [".PP", in_roff(rest)] if rest else []
        elif is_table(paragraph):
            out += [".nf", *map(in_roff, paragraph), ".fi"]
        else:
            out += map(in_roff, paragraph)
    licence = f"{terms.AUTHORS}. Licence: {terms.LICENCE}; see LICENSE-MIT and LICENSE-APACHE, or the package's file copyright."
    out += [".SH COPYRIGHT", in_roff(licence)]
    out += [".SH SEE ALSO", "The pages beside the program: README.md, COMMANDS.md, SCRIPTS.md, PROVED.md, POWER\\-CUTS.md."]
    return "\n".join(out) + "\n"


def quoted(text):
    return "'" + text.replace("'", "'\\''") + "'"


BASH = """\
# Completes the words of spiffs. Made of what `spiffs --help` prints.
_spiffs() {
  local word=${COMP_WORDS[COMP_CWORD]} at=1 kind
  local -A words=(
%(words)s
  )
  local -A values=(
%(values)s
  )
  COMPREPLY=()
  [ "${COMP_WORDS[1]-}" = --force ] && [ "$COMP_CWORD" -gt 1 ] && at=2
  if [ "$COMP_CWORD" -eq "$at" ]; then
    local first="${!words[*]}"
    [ "$at" -eq 2 ] || first+=" %(options)s"
    mapfile -t COMPREPLY < <(compgen -W "$first" -- "$word")
    return
  fi
  local kinds
  read -r -a kinds <<<"${words[${COMP_WORDS[at]}]-}"
  kind=${kinds[COMP_CWORD - at - 1]-}
  case $kind in
    %(files)s)
      local front=
      case $word in *,*) front=${word%%,*}, ;; esac
      compopt -o filenames
      mapfile -t COMPREPLY < <(compgen -P "$front" -f -- "${word#"$front"}")
      ;;
    %(folders)s)
      compopt -o filenames
      mapfile -t COMPREPLY < <(compgen -d -- "$word")
      ;;
    *) mapfile -t COMPREPLY < <(compgen -W "${values[${kind:-none}]-}" -- "$word") ;;
  esac
}
complete -F _spiffs spiffs
"""

ZSH = """\
#compdef spiffs
# Completes the words of spiffs. Made of what `spiffs --help` prints.
local at=2
local -A words_of values
local -a told kinds
words_of=(
%(words)s
)
values=(
%(values)s
)
told=(
%(told)s
)
[[ $words[2] == --force && $CURRENT -gt 2 ]] && at=3
if (( CURRENT == at )); then
  _describe command told
  (( at == 2 )) && compadd -- %(options)s
  return
fi
kinds=(${=words_of[$words[$at]]})
case $kinds[CURRENT-at] in
  %(files)s) compset -P '*,'; _files ;;
  %(folders)s) _files -/ ;;
  *)
    if [[ -n $values[$kinds[CURRENT-at]] ]]; then
      compadd -- ${=values[$kinds[CURRENT-at]]}
    else
      _message "$kinds[CURRENT-at]"
    fi
    ;;
esac
"""


FISH = """\
# Completes the words of spiffs. Made of what `spiffs --help` prints.
function __spiffs_words
    set -l words (commandline -opc)
    set -e words[1]
    test "$words[1]" = --force; and set -e words[1]
    set -q words[1]; and printf '%%s\\n' $words
end

function __spiffs_first
    test (count (__spiffs_words)) -eq 0
end

function __spiffs_kind
    set -l words (__spiffs_words)
    set -l kinds
    switch "$words[1]"
%(words)s
    end
    set -l at (count $words)
    test $at -gt 0; and set -q kinds[$at]; and contains -- $kinds[$at] $argv
end

complete -c spiffs -f
%(told)s
complete -c spiffs -n 'test (count (commandline -opc)) -eq 1' -a '%(options)s'
complete -c spiffs -n '__spiffs_kind %(files)s' -F
complete -c spiffs -n '__spiffs_kind %(folders)s' -a '(__fish_complete_directories)'
%(values)s
"""


def in_fish(text):
    return "'" + text.replace("\\", "\\\\").replace("'", "\\'") + "'"


def fish_completion(told):
    """The completion for fish."""
    parts = {"options": " ".join(told.options), "files": FILES.replace("|", " "), "folders": FOLDERS.replace("|", " ")}
    parts["words"] = "\n".join(f"        case {form.verb}\n            set kinds {' '.join(map(in_fish, form.words))}" for form in told.verbs)
    parts["told"] = "\n".join(f"complete -c spiffs -n __spiffs_first -a {form.verb} -d {in_fish(' '.join(form.text))}" for form in told.verbs)
    parts["values"] = "\n".join(f"complete -c spiffs -n '__spiffs_kind {kind}' -a {in_fish(values)}" for kind, values in KINDS.items())
    return FISH % parts


def completion(text, shell):
    """The completion for a shell of SHELLS."""
    told = Help(text)
    if shell == "fish":
        return fish_completion(told)
    parts = {"options": " ".join(told.options), "files": FILES, "folders": FOLDERS}
    if shell == "bash":
        parts["words"] = "\n".join(f"    [{form.verb}]={quoted(' '.join(form.words))}" for form in told.verbs)
        parts["values"] = "\n".join(f"    [{kind}]={quoted(values)}" for kind, values in KINDS.items())
        return BASH % parts
    parts["words"] = "\n".join(f"  {form.verb} {quoted(' '.join(form.words))}" for form in told.verbs)
    parts["values"] = "\n".join(f"  {kind} {quoted(values)}" for kind, values in KINDS.items())
    parts["told"] = "\n".join("  " + quoted(f"{form.verb}:{' '.join(form.text).replace(':', chr(92) + ':')}") for form in told.verbs)
    return ZSH % parts
