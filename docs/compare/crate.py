"""The scratch crate of a comparison: one function for each case, over the libraries of this checkout."""
import pathlib
import re
import shutil
import subprocess

NAME = "compared"
CHECKOUT = pathlib.Path(__file__).resolve().parent.parent.parent

# The modules whose words the checker looks through to compute a run: of the kit, of std and of this repository.
KIT_MODULES = {
    "hex": ["Hex"],
    "json": ["Lex", "Json", "Word", "Text", "Print"],
    "serde_json": ["Read"],
    "fast_float": ["Text"],
    "toml": ["Parse", "Tables"],
    "toml_parser": ["Lexical", "Numbers", "Strings"],
    "sha2": ["Sha256"],
}
STD_WORDS = {"std.specs.Fmt": ["digits"], "std.specs.Str": ["is_utf8", "chars"], "std.specs.Char": ["encode_utf8"]}
OUR_CRATES = ["mega_base", "mega_ballot", "mega_keys", "mega_syntax", "mega_cluster", "mega_entry", "mega_schedule"]


def unfoldable_in(path):
    """Returns the words that a file of definitions marks as unfoldable; those of types begin with a capital letter."""
    return sorted({*re.findall(r"^ *unfoldable pub (?:use .*\bas )?([a-z]\w*)", path.read_text(encoding="utf-8"), re.M)})


def words_to_unfold():
    kit = pathlib.Path(subprocess.run(["rt", "doc"], capture_output=True, text=True, check=True).stdout.strip()).parent
    found = dict(STD_WORDS)
    for crate, modules in KIT_MODULES.items():
        for module in modules:
            found[f"{crate}.specs.{module}"] = unfoldable_in(kit / "rlibs" / f"{crate}.rlib/lang/antt/specs/{module}.antt")
    for crate in OUR_CRATES:
        for path in sorted((CHECKOUT / "crates" / crate / "specs").glob("*.antt")):
            found[f"{crate}.specs.{path.stem}"] = unfoldable_in(path)
    return {module: words for module, words in found.items() if words}


def text_of(data):
    """Returns a text of bytes as a term: a quoted text where it is ASCII, and numbers elsewhere."""
    parts = []
    for plain, others in re.findall(rb"([\x20-\x7e\n]+)|([^\x20-\x7e\n]+)", data):
        quoted = plain.decode().replace("\\", "\\\\").replace('"', '\\"').replace("\n", "\\n")
        parts.append(f'codes "{quoted}"' if plain else "(" + "".join(f"{byte} ∷ " for byte in others) + "[])")
    return " ++ ".join(parts) or "[]"


def list_of(name, kind, items):
    """Returns the definition of a list, in pieces of forty items."""
    pieces = [items[at : at + 40] for at in range(0, len(items), 40)]
    told = []
    for number, piece in enumerate(pieces, 1):
        rows = [f"    ({it}) ∷" for it in piece]
        told += [f"abbrev pub {name}_{number} : List {kind}", f"{name}_{number} =", *rows, "    []", ""]
    joined = " ++ ".join(f"{name}_{number}" for number in range(1, len(pieces) + 1)) or "[]"
    return told + [f"abbrev pub {name} : List {kind}", f"{name} = {joined}", ""]


class Claim:
    """That the first lines of a case's run, so many or all of them, are those of its transcript; or that one of them is the first that is not."""

    def __init__(self, case, front=None, other="None"):
        self.case, self.front, self.other = case, front, other
        self.name = case.name if front is None else f"{case.name}_{front}"

    def clause(self):
        both = "told expected" if self.front is None else f"(take {self.front} told) (take {self.front} expected)"
        return f"first_other 1 {both} ≡ {self.other}"


class ScratchCrate:
    """A crate with one function for each claim."""

    def __init__(self, folder):
        self.folder = folder / "crates" / NAME

    def given(self, case):
        """Returns the definitions of a case: its input, and what it must lead to."""
        cuts = [f"record {{ items = {items}; left = {left} }}" for items, left in case.cuts]
        return "\n".join([
            "use Rattle.std.specs.Prelude.{ℕ, List, [], ◌∷◌, ◌++◌, codes}",
            "use Rattle.mega_cluster.specs.Header.{read_of}",
            "use Rattle.mega_promises.specs.Runs.{AsItWas, Recorded}",
            f"use Rattle.{NAME}.specs.Computed.{{DataCut, replayed, without_mark}}",
            "",
            "abbrev pub header : List ℕ",
            f"header = {text_of(case.header)}",
            "",
            *list_of("lines", "(List ℕ)", [text_of(it) for it in case.lines]),
            *list_of("cuts", "DataCut", cuts),
            *list_of("expected", "(List ℕ)", [text_of(it) for it in case.expected]),
            "abbrev pub told : List (List ℕ)",
            f"told = replayed ({'' if case.has_mark else 'without_mark '}(read_of 1 header)) cuts lines",
            "",
        ])

    def source(self, claim):
        return f"""//! {claim.name}
ghost use Rattle.std.specs.Prelude.{{◌≡◌, None, Some, take}};
ghost use Rattle.{NAME}.specs.Computed.{{first_other}};
ghost use Rattle.{NAME}.specs.Given_{claim.case.name}.{{expected, told}};

/// The run of the definitions is told by this transcript.
pub fn agrees()
    ensures {{ {claim.clause()} }}
{{}}
"""

    def answers(self, claim, words):
        """Returns the proof: both sides compute to the same."""
        imports, names = [], []
        for module, found in words.items():
            renamed = [(word, f"w{len(names) + number}") for number, word in enumerate(found)]
            names += [name for _, name in renamed]
            imports.append(f"use Rattle.{module}.{{{', '.join(f'{word} as {name}' for word, name in renamed)}}}")
        return "\n".join([
            "use Rattle.std.proofs.Common.{refl}",
            *imports,
            f"use Rattle.{NAME}.proofs.case_{claim.name}.agrees.Goals as goal",
            "",
            "pub returns : goal.returns",
            f"unfolding {' '.join(names)}",
            "returns c = refl",
            "",
        ])

    def write(self, claims, words):
        for part in ("src", "specs", "proofs"):
            shutil.rmtree(self.folder / part, ignore_errors=True)
        cases = sorted({it.case.name: it.case for it in claims}.items())
        modules = "".join(f"pub mod case_{it.name};\n" for it in claims)
        write(self.folder / "src/lib.rt", f"//! Cases, as contracts of functions that do nothing.\n#![tactic(auto)]\n\n{modules}")
        write(self.folder / "specs/Lib.antt", "pub mod Computed\n" + "".join(f"pub mod Given_{name}\n" for name, _ in cases))
        write(self.folder / "specs/Computed.antt", (pathlib.Path(__file__).parent / "computed.txt").read_text(encoding="utf-8"))
        for name, case in cases:
            write(self.folder / f"specs/Given_{name}.antt", self.given(case))
        for claim in claims:
            write(self.folder / f"src/case_{claim.name}.rt", self.source(claim))
            write(self.folder / f"proofs/case_{claim.name}/agrees/Answers.antt", self.answers(claim, words))

    def check(self, claims):
        """Runs the checker, whose words stay in said.txt, and returns what they mean: proved, refused, or too large."""
        run = subprocess.run(["rt", "check"], cwd=self.folder, stdout=subprocess.PIPE, stderr=subprocess.STDOUT)
        said = run.stdout.decode("utf-8", "replace")
        write(self.folder / "said.txt", said)
        return {it.name: self.verdict_on(it, said) for it in claims}

    def verdict_on(self, claim, said):
        told = re.search(rf"^fn {NAME}::case_{claim.name}::agrees: (.*)$", said, re.M)
        if told and told.group(1) == "proved":
            return "proved"
        faults = re.findall(rf"^[^\n]*case_{claim.name}/agrees/Answers.antt:\d[^\n]*(?:\n  [^\n]*)*", said, re.M)
        if not faults:
            return f"unknown: {told.group(1) if told else 'the checker said nothing'}"
        return "too large" if re.search("step limit|ResourceLimit", faults[0]) else "refused"


def write(path, text):
    path.parent.mkdir(parents=True, exist_ok=True)
    path.write_text(text, encoding="utf-8")


def crates_below(name, listed):
    """Returns the crates of the checkout that a crate stands on, itself among them."""
    found = {name}
    for below in re.search(rf"^{name}:(.*)$", listed, re.M).group(1).split():
        if re.search(rf"^{below}:", listed, re.M):
            found |= crates_below(below, listed)
    return found


def is_scratch(folder):
    """Returns whether a folder is one that this script made."""
    return (folder / "crates" / NAME).is_dir() and CHECKOUT not in (folder, *folder.parents)


def make(folder):
    """Makes the folder of the scratch crate, or brings it up to date: it has copies of the libraries below. `rt` takes what the checkout proved."""
    listed = (CHECKOUT / "crates.txt").read_text(encoding="utf-8")
    below = crates_below("mega_promises", listed) | crates_below("mega_meanings", listed)
    for name in below:
        for part in ("src", "specs", "proofs"):
            shutil.rmtree(folder / "crates" / name / part, ignore_errors=True)
            if (CHECKOUT / "crates" / name / part).is_dir():
                shutil.copytree(CHECKOUT / "crates" / name / part, folder / "crates" / name / part)
    lines = [line for line in listed.splitlines() if line.split(":")[0] in below]
    libraries = " ".join(sorted({*below, *KIT_MODULES}))
    write(folder / "crates.txt", "\n".join([*lines, f"{NAME}: {libraries}", ""]))
    shutil.copy(CHECKOUT / "HANDLES", folder / "HANDLES")
    write(folder / "crates" / NAME / "src/lib.rt", "//! Cases.\n")
    # (one after another, lowest first: `rt check` would read all sources of libraries that are not built)
    for line in lines:
        subprocess.run(["rt", "lib"], cwd=folder / "crates" / line.split(":")[0], stdout=subprocess.DEVNULL, check=True)
