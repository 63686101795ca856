//! What is behind the statements of a small made-up tree of files, and what is wrong with damaged ones.

use definitions::files::Files;
use definitions::reach::{self, Promise};
use definitions::repository::{Repository, Target};
use definitions::twins::Twin;
use definitions::{Fault, page};

const PROMISES: &str = "crates/top/proofs/Promises.antt";
const RULES: &str = "crates/low/specs/Rules.antt";
const TWINS: [Twin; 1] = [Twin { file: RULES, name: "is_even", promises: &["even_told"], line: 7 }];

/// A tree of two crates. Dashes in a text are no comment, a quote behind a backslash is no end of it, and a quote behind two is;
/// `unused` is behind nothing.
fn tree() -> Files {
    let files = [
        (
            PROMISES,
            r#"-- The promises.
use Prim.Nat.{ℕ, ◌≤◌}
use kit.Path.{◌≡◌, true}
use Rattle.low.specs.Rules.{Even, is_even, one, Size as Measure}
use Rattle.low.specs.Rules as rules
use Rattle.low.specs.declared.Shape.{Shape}
use Rattle.low.proofs.Laws as laws

-- ---- demand 1: even numbers

-- a comment that names Odd
pub even_told : (n : ℕ) → (is_even n ≡ true) → Even n -- and Odd
even_told = laws.even

-- ---- demand 2: sizes

pub shape_small : (s : Shape) (odd : ℕ)
    → rules.size_of s ≡ one "a -- \" Odd" "\\" -- " Odd
    → odd ≤ 3
shape_small = laws.small

pub measured : Measure ≡ Measure
measured = laws.measured
"#,
        ),
        (
            RULES,
            r#"-- Rules.
use Prim.Nat.{ℕ, suc}
use kit.Bool.{Bool, true, false}
use Rattle.low.specs.declared.Shape.{Shape}
use Rattle.low.specs.declared.Shape.TheVariants.{Round}
use Rattle.low.specs.Marks.{mark, ◌⊕◌}

mutual
  pub data Even : ℕ → Type 0 where
    even_zero : Even 0
    -- the next
    even_next : {n : ℕ} → Odd n
        → Even (suc n)

  pub data Odd : ℕ → Type 0 where
    odd_next : {n : ℕ} → Even n → Odd (suc n)

unfoldable pub is_even : ℕ → Bool
is_even n = unused

abbrev pub unused : Bool
unused = true

pub record Size : Type 0 where
  pub width : ℕ
  pub mark : ℕ

pub data Counted : Type 0 where
  one two : Counted

abbrev pub size_of : Shape → Counted
size_of Round = helper (λ x. x ⊕ one)
size_of other = by_mark (record { width = mark; mark = 1 } .width)
  where
    by_mark : ℕ → Counted
    by_mark m = one

helper : Counted
helper = two
"#,
        ),
        (
            "crates/low/specs/Marks.antt",
            "abbrev pub mark : Type 0\nmark = mark\n\ninfixl 20 ◌⊕◌\npub ◌⊕◌ : Type 0\na ⊕ b = a\n",
        ),
        ("crates/low/specs/Lib.antt", "pub mod Rules\npub mod Marks\n"),
        (
            "crates/low/src/lib.rt",
            "// Shapes.\npub enum Shape {\n    Round, // a disk\n    Other(Corner),\n}\n\nstruct Corner {\n    pub x: i64,\n}\n",
        ),
    ];
    files.map(|(file, text)| (file.into(), text.into())).into()
}

fn promises(files: Files) -> Result<Vec<Promise>, Fault> {
    reach::promises(&Repository::read(files, &[PROMISES])?, &[PROMISES], &TWINS)
}

/// What is behind a statement, as `FILE NAME`.
fn behind(name: &str) -> Vec<String> {
    let promises = promises(tree()).unwrap();
    let promise = promises.iter().find(|promise| promise.name == name).unwrap();
    promise.behind.iter().map(|id| format!("{} {}", id.file.rsplit('/').next().unwrap(), id.name)).collect()
}

/// The fault of the tree with a part of a file changed.
fn fault(file: &str, old: &str, new: &str) -> String {
    let mut files = tree();
    let text = files.get_mut(file).unwrap();
    assert_eq!(text.matches(old).count(), 1, "{old}");
    *text = text.replace(old, new);
    promises(files).unwrap_err().to_string()
}

#[test]
fn a_twin_is_not_followed() {
    assert_eq!(behind("even_told"), ["Rules.antt Even", "Rules.antt Odd"]);
    let told = &promises(tree()).unwrap()[0];
    assert_eq!(told.twins.iter().map(|id| id.name.as_str()).collect::<Vec<_>>(), ["is_even"]);
}

#[test]
fn all_kinds_of_names_are_followed() {
    let found = behind("shape_small");
    let expected = [
        "Marks.antt mark",
        "Marks.antt ◌⊕◌",     // by a part of its name
        "Rules.antt Counted", // by its constructor
        "Rules.antt helper",
        "Rules.antt size_of", // behind a module's name
        "lib.rt Corner",      // inside another type
        "lib.rt Shape",       // by a variant
    ];
    assert_eq!(found, expected);
    assert_eq!(behind("measured"), ["Marks.antt mark", "Rules.antt Size"]);
}

/// What is behind the last statement but one where a part of its file is changed.
fn behind_with(old: &str, new: &str) -> Vec<String> {
    let mut files = tree();
    let text = files.get_mut(PROMISES).unwrap();
    assert_eq!(text.matches(old).count(), 1, "{old}");
    *text = text.replace(old, new);
    promises(files).unwrap()[1].behind.iter().map(|id| id.name.clone()).collect()
}

#[test]
fn a_field_is_followed_by_its_value() {
    let small = behind_with("odd ≤ 3", "odd ≤ 3");
    assert_eq!(behind_with("odd ≤ 3", "s.corner.x ≤ 3"), small);
    let measured = behind_with("odd ≤ 3", "one.width ≤ Measure.mark");
    assert!(measured.contains(&"Size".into()) && !small.contains(&"Size".into()), "{measured:?}");
    assert!(behind_with("odd ≤ 3", "rules.Size.mark ≤ 3").contains(&"Size".into()));
    let told = fault(PROMISES, "odd ≤ 3", "t.corner ≤ 3");
    assert_eq!(told, format!("{PROMISES}:19: t.corner in shape_small is not imported, defined here or bound"));
}

#[test]
fn an_import_may_go_on() {
    let small = behind_with("odd ≤ 3", "odd ≤ 3");
    assert_eq!(
        behind_with("{Even, is_even, one, Size as Measure}", "{\n  Even,\n  is_even,\n  one, Size as Measure,\n}"),
        small
    );
    let told = fault(PROMISES, "{Even, is_even, one, Size as Measure}", "{\n  Even,");
    assert_eq!(told, format!("{PROMISES}:4: this import cannot be read: use Rattle.low.specs.Rules.{{ Even,"));
}

#[test]
fn a_type_of_another_crate_is_followed() {
    for import in ["use base::Edge;", "use base::{Edge, measure};"] {
        let mut files = tree();
        let shapes = files.get_mut("crates/low/src/lib.rt").unwrap();
        *shapes = format!("{import}\n{}", shapes.replace("(Corner)", "(Edge)"));
        files.insert("crates/base/src/lib.rt".into(), "pub struct Edge {\n    pub y: i64,\n}\n".into());
        let promises = promises(files).unwrap();
        let behind = promises.iter().flat_map(|promise| &promise.behind);
        assert!(behind.into_iter().any(|id| id.file == "crates/base/src/lib.rt" && id.name == "Edge"), "{import}");
    }
}

#[test]
fn a_proof_is_no_part_of_a_statement() {
    let promises = promises(tree()).unwrap();
    let names = promises.iter().flat_map(|promise| &promise.names);
    assert!(names.into_iter().all(|target| !matches!(target, Target::Own(id) if id.file.contains("proofs"))));
}

#[test]
fn names_of_the_prover_are_told_apart() {
    let kit: Vec<String> = promises(tree()).unwrap()[0].kit.iter().map(|target| format!("{target:?}")).collect();
    assert!(kit.iter().any(|name| name.contains("kit.Path") && name.contains("◌≡◌")), "{kit:?}");
    let mut files = tree();
    let text = files[PROMISES].replace("kit.Path", "Rattle.std.specs.Prelude");
    files.insert(PROMISES.into(), text);
    let kit: Vec<String> = promises(files).unwrap()[0].kit.iter().map(|target| format!("{target:?}")).collect();
    assert!(kit.iter().any(|name| name.contains("Rattle.std.specs.Prelude") && name.contains("◌≡◌")), "{kit:?}");
}

#[test]
fn the_page_has_totals_statements_and_files() {
    let repository = Repository::read(tree(), &[PROMISES]).unwrap();
    let page = page::page(&repository, &[PROMISES], &promises(tree()).unwrap(), &TWINS);
    for line in [
        "**10 definitions, 30 lines in 3 files.**",
        "| `is_even` | `crates/low/specs/Rules.antt` | `even_told` |",
        "### Demand 1: even numbers",
        "| `even_told` | low/Rules `Even`, *`is_even`* | 2 | 6 |",
        "### Demand 2: sizes",
        "| `measured` | low/Rules `Size` | 2 | 5 |",
        "| `crates/low/src/lib.rt` | 7 | `Corner`, `Shape` |",
    ] {
        assert!(page.lines().any(|found| found == line), "{line}\n{page}");
    }
}

#[test]
fn what_cannot_be_resolved_is_told_with_its_line() {
    let told = fault(PROMISES, "→ Even n -- and", "→ Prime n -- and");
    assert_eq!(told, format!("{PROMISES}:12: Prime in even_told is not imported, defined here or bound"));
    let told = fault(PROMISES, "{Even,", "{Prime as Even,");
    assert_eq!(told, format!("{PROMISES}:12: {RULES} does not define Prime"));
    let told = fault(PROMISES, "rules.size_of", "rules.size");
    assert_eq!(told, format!("{PROMISES}:18: {RULES} does not define size"));
    let told = fault(RULES, "specs.Marks", "specs.Mark");
    assert_eq!(
        told,
        format!(
            "{RULES}:32: ◌⊕◌ is in Rattle.low.specs.Mark, and crates/low/specs/Mark.antt is no file of specifications"
        )
    );
    let told = fault(PROMISES, "declared.Shape.{", "declared.Form.{");
    assert_eq!(told, format!("{PROMISES}:17: no code declares Rattle.low.specs.declared.Form"));
    let told = fault("crates/low/src/lib.rt", "(Corner)", "(Edge)");
    let nowhere =
        "crates/low/src/lib.rt:4: the type Edge in Shape is not declared in this file, or in a crate's that it uses";
    assert_eq!(told, nowhere);
}

#[test]
fn a_file_that_does_not_parse_is_told_with_its_line() {
    let told = fault(RULES, "is_even n = unused", "is_odd n = unused");
    assert_eq!(
        told,
        format!("{RULES}:19: this line neither begins a definition nor goes on with one: is_odd n = unused")
    );
    let told = fault(RULES, "abbrev pub unused", "abbrev pub is_even");
    assert_eq!(told, format!("{RULES}:21: is_even is defined in line 18 too"));
    let told = fault("crates/low/specs/Lib.antt", "pub mod Rules\n", "  pub mod Rules\n");
    assert_eq!(told, "crates/low/specs/Lib.antt:1: this line is indented, and no definition stands before it");
    let told = fault(RULES, "{mark, ◌⊕◌}", "{mark, ◌⊕◌");
    assert_eq!(told, format!("{RULES}:6: this import cannot be read: use Rattle.low.specs.Marks.{{mark, ◌⊕◌"));
}

#[test]
fn a_twin_has_to_be_there_and_tied() {
    let list = "tests/definitions/src/twins.rs:7";
    let mut files = tree();
    let renamed = files[RULES].replace("is_even", "evenness");
    files.insert(RULES.into(), renamed);
    let text = files[PROMISES].replace("is_even", "evenness");
    files.insert(PROMISES.into(), text);
    assert_eq!(promises(files).unwrap_err().to_string(), format!("{list}: {RULES} does not define the twin is_even"));
    let told = fault(PROMISES, "pub even_told", "pub told");
    assert!(told.starts_with(&format!("{PROMISES}:13: this line neither")), "{told}");
    let told = fault(PROMISES, "(is_even n ≡ true)", "(n ≡ true)");
    assert_eq!(told, format!("{list}: the promise even_told does not speak of the twin is_even in {RULES}"));
}

#[test]
fn the_promises_have_to_be_there() {
    let mut files = tree();
    files.remove(PROMISES);
    assert_eq!(promises(files).unwrap_err().to_string(), format!("{PROMISES}: there is no such file"));
}
