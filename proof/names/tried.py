"""Names changed, hidden, passed on and brought in under other names, on copies of the files in memory: what the list has to make of each."""
import re

from antt import Unclear

STANDS, FIRSTS = "crates/acd_desk/specs/Contents/SoundContent.antt", "crates/acd_desk/specs/Contents/AbstractDesk.antt"
LIMITS, WORKING = "crates/acd_terms/specs/Limits.antt", "crates/acd_desk/src/working.rt"
READING, LIB = "crates/acd_codec/specs/RequestReading.antt", "crates/acd_terms/src/lib.rt"
COMMAND, CODEC_TEXTS = "crates/acd_terms/src/command.rt", "crates/acd_codec/specs/RequestTexts.antt"
FOUND = "crates/acd_program/specs/Commands/AuditFindings.antt"
FITS = "  pub fits : limits_fit c.rows.limits ≡ true\n"
USE = "use Rattle.acd_terms.specs.Limits.{limits_fit}\n"
ARRIVALS = "arrivals_of kept = map (λ (k : Kept). record { moment = k.moment; request = k.request }) kept\n"
# a definition that nothing uses, at the end of a file
EXTRA = "\nabbrev pub extra : Content → Content\nextra c = c\n"


def everywhere(old, new):
    """A name renamed in each file where it stands."""
    return [(None, rf"(?<![\w-]){old}(?![\w-])", new)]


# What is done to which files (each a file, a text that stands there once, and what takes its place), which names come, which go, and what it says where it can't follow.
CASES = [
    ("a definition renamed, and all who use it", everywhere("ran_after", "run_behind"), {"run_behind"}, {"ran_after"}, None),
    ("a definition renamed alone", [(STANDS, "abbrev pub ran_after : ", "abbrev pub run_behind : "), (STANDS, "ran_after start list = desk_run", "run_behind start list = desk_run")], None, None, "ran_after"),
    ("a root that is there twice", [(FOUND, "", "\nabbrev pub TaskEnded : Finding → Type 0\nTaskEnded found = ⊤\n")], None, None, "TaskEnded"),
    ("a definition that nothing uses", [(STANDS, "", EXTRA)], set(), set(), None),
    ("one that a field uses", [(STANDS, "", EXTRA), (STANDS, FITS, FITS.replace("c.rows", "(extra c).rows"))], {"extra"}, set(), None),
    ("one that an earlier field hides", [(STANDS, "", EXTRA), (STANDS, FITS, f"  pub extra : Content\n{FITS.replace('c.rows', 'extra.rows')}")], set(), set(), None),
    ("one that a parameter hides", [(STANDS, "", EXTRA), (STANDS, "ran_after start list = desk_run start.rows.limits (arrivals_of start.kept ++ list)", "ran_after extra list = desk_run extra.rows.limits (arrivals_of extra.kept ++ list)")], set(), set(), None),
    ("one that a λ hides", [(STANDS, "", EXTRA), (STANDS, ARRIVALS, ARRIVALS.replace("(k : Kept)", "(extra : Kept)").replace("k.m", "extra.m").replace("k.r", "extra.r"))], set(), set(), None),
    ("one behind a λ that hides it", [(STANDS, "", EXTRA), (STANDS, FITS, f"  pub fits : ((λ (extra : Content). extra) (extra c)).rows ≡ c.rows\n{FITS.replace('pub fits', 'pub again')}")], {"extra"}, set(), None),
    ("one that a `let` hides", [(STANDS, "", EXTRA), (STANDS, FITS, FITS.replace("limits_fit c.rows", "let extra = c in limits_fit extra.rows"))], set(), set(), None),
    ("one that a bound type's name hides", [(STANDS, "", EXTRA), (STANDS, FITS, FITS.replace("limits_fit c.rows.limits", "(extra : Content) → limits_fit extra.rows.limits"))], set(), set(), None),
    ("one that a line of a `do` hides", [(READING, "", "\nabbrev pub extra : ℕ\nextra = 0\n"), (READING, "  call ← serial_in member.Call d\n  device ← device_in member.Device d\n  Ok (call, device)", "  extra ← serial_in member.Call d\n  device ← device_in member.Device d\n  Ok (extra, device)")], set(), set(), None),
    ("one in the line of a `do` that binds its name", [(READING, "", "\nabbrev pub extra : Member\nextra = member.Call\n"), (READING, "  call ← serial_in member.Call d\n  device ← device_in member.Device d\n  Ok (call, device)", "  extra ← serial_in extra d\n  device ← device_in member.Device d\n  Ok (extra, device)")], {"extra"}, set(), None),
    ("a label, and a field, of its name", [(STANDS, "", "\nabbrev pub moment : Content → Content\nmoment c = c\n")], set(), set(), None),
    ("a comment and a text of its name", [(STANDS, "", "\n-- extra\n" + EXTRA), (STANDS, ARRIVALS, ARRIVALS.rstrip("\n") + "  -- extra\n")], set(), set(), None),
    ("one brought in under another name", [(STANDS, USE, USE.replace("limits_fit", "limits_fit as extra")), (STANDS, FITS, FITS.replace("limits_fit", "extra"))], set(), set(), None),
    ("another one brought in under its name", [(LIMITS, "", "\nabbrev pub extra : Limits → Bool\nextra l = nat_le l.calls l.calls\n"), (STANDS, USE, USE.replace("limits_fit", "extra as limits_fit"))], {"extra"}, set(), None),
    ("one by its module", [(STANDS, USE, "use Rattle.acd_terms.specs.Limits\n"), (STANDS, FITS, FITS.replace("limits_fit", "Limits.limits_fit"))], set(), set(), None),
    ("one by its module under another name", [(STANDS, USE, "use Rattle.acd_terms.specs.Limits as extra\n"), (STANDS, FITS, FITS.replace("limits_fit", "extra.limits_fit"))], set(), set(), None),
    ("one by its whole path", [(STANDS, USE, ""), (STANDS, FITS, FITS.replace("limits_fit", "Rattle.acd_terms.specs.Limits.limits_fit"))], set(), set(), None),
    ("one through a name of the header", [(STANDS, USE, "use Rattle.acd_terms.specs.Limits as extra\nuse extra.{limits_fit}\n")], set(), set(), None),
    ("one that another file passes on", [(STANDS, USE, "use Rattle.acd_desk.specs.Contents.AbstractDesk.{limits_fit}\n"), (FIRSTS, "use ", "pub use Rattle.acd_terms.specs.Limits.{limits_fit}\nuse ")], set(), set(), None),
    ("one that another file passes on under another name", [(STANDS, USE, "use Rattle.acd_desk.specs.Contents.AbstractDesk.{extra as limits_fit}\n"), (FIRSTS, "use ", "pub use Rattle.acd_terms.specs.Limits.{limits_fit as extra}\nuse ")], set(), set(), None),
    ("one that another file has, and doesn't pass on", [(STANDS, USE, "use Rattle.acd_desk.specs.Contents.AbstractDesk.{limits_fit}\n"), (FIRSTS, "use ", "use Rattle.acd_terms.specs.Limits.{limits_fit}\nuse ")], None, None, "limits_fit"),
    ("a name that a child brings by a glob", [("crates/acd_desk/specs/Contents/SoundContent/More.antt", "", "use Rattle.acd_book.specs.Content.{Content}\n" + EXTRA), (STANDS, USE, USE + "mod More\nuse More.*\n"), (STANDS, FITS, FITS.replace("c.rows", "(extra c).rows"))], {"extra"}, set(), None),
    ("a glob's name that the file's own covers", [("crates/acd_desk/specs/Contents/SoundContent/More.antt", "", "use Rattle.acd_book.specs.Content.{Content}\n\nabbrev pub IsSound : Content → Content\nIsSound c = c\n"), (STANDS, USE, USE + "mod More\nuse More.*\n")], set(), set(), None),
    ("a name that isn't bound", [(STANDS, FITS, FITS.replace("c.rows", "(extra c).rows"))], None, None, "extra is bound nowhere"),
    ("a variant brought in under another name", [(CODEC_TEXTS, "use Rattle.acd_codec.specs.declared.member.Member.TheVariants as m\n", "use Rattle.acd_codec.specs.declared.member.Member.TheVariants as extra\n"), (CODEC_TEXTS, r"\bm\.(?=[A-Z])", "extra.")], set(), set(), None),
    ("a type of src/ under another name", [(WORKING, "use acd_switch::{RowFault, Switch};", "use acd_switch::{RowFault, Switch as Inner};"), (WORKING, "pub(crate) switch: Box<Switch>,", "pub(crate) switch: Box<Inner>,")], set(), set(), None),
    ("a type of src/ that its crate passes on under another name", [(LIB, "pub use command::{Arrival, Command, Request, Requested, Turn};", "pub use command::{Arrival, Command, Request as WebRequest, Requested, Turn};")], None, None, "no type Request"),
    ("another type in a type of src/", [(COMMAND, "", "\npub struct Extra {\n    pub moment: u32,\n}\n"), (COMMAND, "pub struct Arrival {\n    pub moment: u32,", "pub struct Arrival {\n    pub moment: Extra,")], {"Extra"}, set(), None),
]


def changed(files, edits):
    """The files with what was done to them."""
    found = dict(files)
    for name, old, new in edits:
        if name is None:
            found = {name: re.sub(old, new, text) for name, text in found.items()}
        elif old == "":
            found[name] = found.get(name, "") + new
        elif old.startswith("\\b"):
            found[name] = re.sub(old, new, found[name])
        elif found[name].count(old) == 0 or old != "use " and found[name].count(old) > 1:
            raise SystemExit(f"{name}: {old!r} stands there {found[name].count(old)} times")
        else:
            found[name] = found[name].replace(old, new, 1)
    return found


def tried(files, names):
    """How many cases there are, and how many went otherwise; `names` gives the names in the list of files."""
    before, wrong = names(files), 0
    for what, edits, come, gone, fault in CASES:
        try:
            after = names(changed(files, edits))
            told = (after - before, before - after, None)
        except Unclear as error:
            told = (None, None, str(error))
        if fault is None and told != (come, gone, None) or fault is not None and (told[2] is None or fault not in told[2]):
            wrong += 1
            print(f"{what}: {told}", flush=True)
    return len(CASES), wrong
