"""What else Rust has otherwise than Rattle, text by text. Each rule names the form that it is for."""

import re

from contracts import Refused, tokens_of, words_of

# The crate that stands in the place of Rattle's standard library where that differs from Rust's.
HOST = "rattle_host"

# Comments above an item.
DOCS = r"(?:^[ ]*//[^\n]*\n)*"

# A function with no body, no parameter and no result is a law.
LAW = re.compile(DOCS + r"^pub fn (\w+)\(\)\s*\{\}\n?", re.M)

# A trait that only had ghost members, as `NorState`.
EMPTY_TRAIT = re.compile(DOCS + r"^pub trait (\w+)\s*\{(?:\s|//[^\n]*\n)*\}\n?", re.M)

GROUP = re.compile(r"^((?:pub )?use [\w:]*)\{([^}]*)\};", re.M)


def names_left(match, gone):
    """A `use a::{b, c};` without some names; nothing where none is left."""
    kept = [name.strip() for name in match.group(2).split(",")]
    kept = [name for name in kept if name and name not in gone]
    return f"{match.group(1)}{{{', '.join(kept)}}};" if kept else ""


def idle_names(text):
    """The names of laws and of traits that only had ghost members."""
    return set(LAW.findall(text)) | set(EMPTY_TRAIT.findall(text))


def without(text, idle):
    """Laws and empty traits go, where they are made, called, implemented, asked for and brought in."""
    if not idle:
        return text
    one = f"(?:{'|'.join(sorted(idle))})"
    text = EMPTY_TRAIT.sub("", LAW.sub("", text))
    text = re.sub(rf"^ *{one}\(\);\n", "", text, flags=re.M)
    text = re.sub(rf"{DOCS}^impl(?:<[^\n]*>)? {one} for [^\n{{]*\{{\s*\}}\n?", "", text, flags=re.M)
    text = re.sub(rf":\s*{one}\s*\+\s*", ": ", text)
    text = re.sub(rf":\s*{one}\b(?=\s*[{{,>])", "", text)
    text = re.sub(rf"^(?:pub )?use [\w:]*\b{one};\n", "", text, flags=re.M)
    return GROUP.sub(lambda match: names_left(match, idle), text)


def still_used(before, after):
    """What is brought in for contracts alone goes: a name that stood elsewhere too, and stands there no more."""
    was, now = words_of(before), words_of(after)
    idle = {name for name in set(now) if now.count(name) == 1 < was.count(name)}
    after = re.sub(r"^use [\w:]*:(\w+);\n", lambda match: "" if match.group(1) in idle else match.group(), after, flags=re.M)
    return GROUP.sub(lambda match: names_left(match, idle), after)


def models(text):
    """`impl Model for ..`, what a type is to contracts, goes."""
    text = re.sub(r"^impl(<[^\n]*>)? Model for [^\n]*\{\s*\}\n", "", text, flags=re.M)
    return re.sub(r"^use std::marker::Model;\n", "", text, flags=re.M)


def drops(text):
    """`Drop` is neither derived nor a bound: in Rust every value may be let go."""

    def one(match):
        names = [name.strip() for name in match.group(1).split(",")]
        names = [name for name in names if name and name != "Drop"]
        return f"#[derive({', '.join(names)})]\n" if names else ""

    text = re.sub(r"#\[derive\(([^)]*)\)\]\n", one, text)
    text = re.sub(r"\s*\+\s*Drop\b", "", text)
    return re.sub(r":\s*Drop\b", "", text)


# A type that is an error, up to its body, or whole where it has none.
ERROR = re.compile(r"^#\[derive\((.*), Error\)\]\n((?:#\[.*\]\n)*)((?:pub )?(?:enum|struct) (\w+))( \{|;)\n?", re.M)

# The words of an error and the variant that they are of: a name, and the fields in parentheses or braces.
VARIANT = re.compile(r'^ *#\[error\(("(?:\\.|[^"\\])*")\)\]\n((?: *(?:///|#\[).*\n)*) *(\w+)(?:\(([^()]*)\)| \{([^{}]*)\})?,$', re.M)


def error_form(name, words, in_parens, in_braces):
    """The pattern of an error whose words are told, and the words as Rust's macros take them: fields that the words name are bound."""
    named = set(re.findall(r"\{(\w+)[:}]", words))
    if in_parens is not None:
        count = in_parens.count(",") + 1
        bound = [f"_{at}" if str(at) in named else "_" for at in range(count)]
        return f"{name}({', '.join(bound)})", re.sub(r"\{(?=\d)", "{_", words)
    if in_braces is not None:
        return f"{name} {{ {', '.join([*sorted(named), '..'])} }}", words
    return name, words


def error_texts(match, body, root):
    """What `thiserror` derives, by macros of the engine's crate: the words of a type, and what it is made of."""
    _, attributes, _, name, _ = match.groups()
    forms, made = [], []
    whole = re.search(r'#\[error\(("(?:\\.|[^"\\])*")\)\]\n', attributes)
    if whole:
        forms.append(error_form(name, whole[1], None, body if body.strip() else None))
    for words, _, variant, in_parens, in_braces in VARIANT.findall(body):
        fields = (in_parens or None, in_braces or None)
        forms.append(error_form(f"{name}::{variant}", words, *fields))
        if in_parens.startswith("#[from]"):
            made.append(f"{variant}({in_parens.removeprefix('#[from]').strip()})")
    if len(forms) != max(body.count("#[error("), 1) or body.count("#[from]") != len(made):
        raise Refused(f"the error {name} has words in a form that no rule is for")
    text = f"\n{root}::error_texts!({name} {{\n" + "".join(f"    {form} => {words},\n" for form, words in forms) + "});\n"
    return text + (f"\n{root}::error_from!({name} {{ {', '.join(made)} }});\n" if made else "")


def errors(text, root):
    """`thiserror`: a type that derives `Error` has the same impls by macros of the engine's crate, which `root` names, so no crate is needed."""
    text = re.sub(r"^use thiserror::Error;\n", "", text.replace("#[from(alloc)]", "#[from]"), flags=re.M)
    out, at = "", 0
    for match in ERROR.finditer(text):
        end = text.index("\n}\n", match.end()) + 3 if match[5] == " {" else match.end()
        body = text[match.end() : end - 2] if match[5] == " {" else ""
        kept = re.sub(r" *#\[error\(.*\)\]\n", "", match[2] + "\0" + body).replace("#[from] ", "")
        attributes, _, inside = kept.partition("\0")
        closed = f" {{\n{inside}}}\n" if match[5] == " {" else ";\n"
        out += f"{text[at : match.start()]}#[derive({match[1]})]\n{attributes}{match[3]}{closed}{error_texts(match, body, root)}"
        at = end
    if "Error)]\n" in text[at:] or "#[error(" in text[at:]:
        raise Refused("an error stands in a form that no rule is for")
    return out + text[at:]


# Functions that firmware calls in constants: of these modules all that aren't a trait's.
CONST = {("geometry", "geometry"), ("geometry", "rules"), ("fd_table", "slot")}


def constant(text, crate, stem):
    """Functions of arithmetic alone become `const`, so that a `static` can be of the size that a volume needs."""
    if (crate, stem) not in CONST:
        return text
    text = re.sub(r"\bu64::from\(([^()]*)\)", r"(\1) as u64", text)
    text = text.replace("(block / page * 2 / page).max(1)", "max1(block / page * 2 / page)")
    if "max1(" in text:
        text += "\n// (`Ord::max` isn't const)\nfn max1(count: u32) -> u32 {\n    if count == 0 { 1 } else { count }\n}\n"
    return re.sub(r"^( *(?:pub |pub\(crate\) )?)fn (?=\w)", r"\1const fn ", text, flags=re.M)


def closed(text, crate, stem):
    """The fields of a volume are the crate's alone, but for those that only tell: what is said of it holds whatever a caller does."""
    if (crate, stem) != ("volume", "volume"):
        return text
    head = re.search(r"^pub struct Volume<.*?^\}", text, re.M | re.S)
    own = re.sub(r"^    pub (?=(?:nor|work|cache|slots|window|held|numbers|stage):)", "    pub(crate) ", head.group(), flags=re.M)
    return text[: head.start()] + own + text[head.end() :]


# What callers owe, in words, by the formula that says it.
OWED = {
    "`N.unit nor.old ≡ g.phys`": "the chip's erase unit is that of the numbers (`accept` tests it)",
    "`g.blocks * g.block ≤ N.size nor.old`": "the chip is at least as large as the volume (`accept` tests it)",
    "`work_need g ≤ length lent.work.now`": "`work` has at least `Geometry::work_need` bytes (`accept` tests it)",
    "`cache_need g ≤ length lent.cache.now`": "`cache` has at least `Geometry::cache_need` bytes (`accept` tests it)",
    "`g.page ≤ length lent.window.now`": "`window` has at least a page (`accept` tests it)",
    "`is_mounted self.old.stage ≡ true`": "`mount` answered `Ok` since the volume was made or last unmounted, and nothing was called since",
    "`check_need self.old.geometry ≤ length lent.old`": "`lent` has at least `Geometry::check_need` bytes (`accept_check` tests it); else this panics",
    "`(1 ≤ limit) × (limit ≤ 32767)`": "`limit` is from 1 to 32767",
    "`HasRoomFor (asked call.now) (length into.old)`": "`into` has as many bytes as a read or a fill asks for; else this panics",
    "`block_ix < self.now.blocks`": "`block_ix` is below `blocks`",
}


def in_words(text):
    """What callers owe is told in words where there are some; the formula stays behind them."""
    return re.sub(r"^( *///) - \w+: (`[^\n]*`)$", lambda m: f"{m[1]} - {OWED[m[2]]}: {m[2]}" if m[2] in OWED else m[0], text, flags=re.M)


def displays(text):
    """A text of `Display` is generic over what it is written to: Rust's isn't."""
    generic = r"fn fmt<W: fmt::Write>\(&self, f: &mut fmt::Formatter<W>\)"
    return re.sub(generic, "fn fmt(&self, f: &mut fmt::Formatter<'_>)", text)


def starts(text):
    """`main` and tests are passed the runtime: they get a name of their own, and what starts them has theirs."""
    main = f"{HOST}::main!(main_with);\n\nfn main_with("
    text = re.sub(r"^fn main\((?=rt: HostRuntime)", main, text, flags=re.M)
    test = rf"#[test]\nfn \1() {{ {HOST}::test::run(\1_with) }}\n\nfn \1_with("
    return re.sub(r"#\[test\]\s*fn (\w+)\((?=\s*rt: HostRuntime)", test, text)


# --- what takes memory or reaches the host ------------------------------------------------------------------------------

HOSTED = {"alloc", "Vec", "String", "Box", "HostRuntime", "Abort", "Env", "Fail", "Files", "OpenOptions"}

# Macros that are passed the allocator or the runtime first.
MACROS = ("assert", "eprintln", "format", "vec")

# Methods that are passed the allocator, where Rust has one of the same name that isn't.
TAKES_ALLOC = {"to_vec", "collect", "to_string"}


def uses_host(text):
    return not HOSTED.isdisjoint(words_of(text))


def docs_end(text):
    """The place behind what is said of a whole file: its docs and attributes."""
    return re.match(r"(?:\s*//![^\n]*\n)*(?:\s*#!\[[^\n]*\n)*", text).end()


def with_attribute(text, attribute):
    end = docs_end(text)
    return f"{text[:end]}{attribute}\n{text[end:]}"


def hosted(text):
    """The names of Rattle's prelude are brought in, and calls that are passed the allocator get their names."""
    macros = "".join(f"use {HOST}::{name};\n" for name in MACROS if re.search(rf"\b{name}!", text))
    text = re.sub(r"^mod \w+ \{\n", lambda match: match.group() + macros, text, flags=re.M)
    text = re.sub(r"\bBox::new\((?=[\w.()]*alloc)", f"{HOST}::boxed(", text)
    text = re.sub(rf"\.({'|'.join(TAKES_ALLOC)})\((?=[^)])", r".\1_by(", text)
    end = docs_end(text)
    return f"{text[:end]}\n{macros}#[allow(unused_imports)]\nuse {HOST}::prelude::*;\n{text[end:]}"


# --- paths ----------------------------------------------------------------------------------------------------------------


def with_roots(text, root_of):
    """The text with the first name of each path changed."""
    tokens = tokens_of(text)
    out = []
    in_use = False
    for at, (kind, word) in enumerate(tokens):
        if kind == "word" and begins_path(tokens, at, in_use):
            word = root_of(word)
        if word in ("use", ";"):
            in_use = word == "use"
        out.append(word)
    return "".join(out)


# (in a `use` only the first name begins a path: the others stand in its braces)
def begins_path(tokens, at, in_use):
    if tokens[at + 1 : at + 3] != [("mark", ":"), ("mark", ":")]:
        return False
    before = tokens[at - 1][1] if at else ""
    return before == " " if in_use else before not in (":", ".")
