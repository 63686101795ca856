//! The book of a small made-up tree of files, and what is wrong with damaged templates.

use definitions::book::{Book, Library};
use definitions::files::Files;
use definitions::repository::{Id, Repository};
use definitions::twins::Twin;
use definitions::{operations, quote, reach, template};

const PROMISES: &str = "crates/top/proofs/Promises.antt";
const RULES: &str = "crates/low/specs/Rules.antt";
const TEMPLATE: &str = "book.md";
const TWINS: [Twin; 1] = [Twin { file: RULES, name: "is_even", promises: &["even_told"], line: 7 }];

/// A tree of two crates: a function whose contract is `Halves`, a statement about it, and one that ties the twin `is_even`.
fn tree() -> Files {
    let files = [
        (
            PROMISES,
            r"use Prim.Nat.{ℕ}
use kit.Path.{◌≡◌, true}
use Rattle.low.specs.Rules.{Even, is_even}
use Rattle.low.specs.Rules as rules

-- ---- demand 1: halves

-- a half
pub half_even : (n : ℕ) → rules.Passes n → n ≡ n
half_even = proved

-- ---- second statements

-- the test for even numbers passes
-- exactly for them
pub even_told : (n : ℕ) → (is_even n ≡ true) → Even n
even_told = proved
",
        ),
        (
            RULES,
            r"-- Rules of numbers,
-- in two lines. Assumes nothing.
use Prim.Nat.{ℕ, suc}
use kit.Bool.{Bool, true}
use kit.Path.{◌≡◌}
use Rattle.low.specs.Marks.{◌⊕◌}
use Rattle.low.specs.declared.Answer.{Answer}

-- ---- even numbers

-- both at once
mutual
  -- even
  pub data Even : ℕ → Type 0 where
    even_zero : Even 0
    -- the next
    even_next : {n : ℕ} → Odd n → Even (suc n)

  pub data Odd : ℕ → Type 0 where
    odd_next : {n : ℕ} → Even n → Odd (suc n)

-- ---- tests

abbrev pub is_even : ℕ → Bool
is_even n = unused

abbrev pub unused : Bool
unused = true

-- what passes
abbrev pub Passes : ℕ → Type 0
Passes n = is_even (n ⊕ n) ≡ true

-- what the function answers
abbrev pub Halves : ℕ → Answer → Type 0
Halves n (Answer.Half h) = Passes n
Halves n Answer.None = n ≡ n
",
        ),
        (
            "crates/low/specs/Marks.antt",
            "-- Marks.\nuse Prim.Nat.{ℕ, ◌+◌}\ninfixl 20 ◌⊕◌\ninfixl 20 ◌⊖◌\n\n-- a sum\npub ◌⊕◌ : ℕ → ℕ → ℕ\na ⊕ b = a + b\n\npub ◌⊖◌ : ℕ → ℕ → ℕ\na ⊖ b = a\n",
        ),
        (
            "crates/low/src/lib.rt",
            "// Answers.\n\n// An answer.\npub enum Answer {\n    Half(u8), // of it\n    None,\n}\n",
        ),
        (
            "crates/top/src/lib.rt",
            r"ghost use Rattle.low.specs.Rules.{Halves, Passes as Fine};

// The half of a number.
pub fn half(n: u8) -> Answer
    ensures { Halves n result }
{
    one(n)
}

pub fn silent(n: u8) -> u8
{
    n
}
",
        ),
        ("crates/top/src/more.rt", "pub fn silent(n: u8) -> u8\n{\n    n\n}\n"),
    ];
    files.map(|(file, text)| (file.into(), text.into())).into()
}

/// The book that a template makes, or what is wrong with it.
fn book(text: &str) -> Result<String, String> {
    with_library(|library| {
        let book = Book::of(library, TEMPLATE, text).map_err(|fault| fault.to_string())?;
        let made = book.text().map_err(|fault| fault.to_string())?;
        book.check_examples(TEMPLATE, text, &made).map_err(|fault| fault.to_string())?;
        Ok(made)
    })
}

fn with_library<T>(then: impl FnOnce(Library) -> T) -> T {
    let repository = Repository::read(tree(), &[PROMISES]).unwrap();
    let promises = reach::promises(&repository, &[PROMISES], &TWINS).unwrap();
    then(Library { repository: &repository, files: &[PROMISES], promises: &promises, twins: &TWINS })
}

#[test]
fn a_statement_has_its_comment_and_no_proof() {
    let quote = "# One\n\n```\n-- a half\npub half_even : (n : ℕ) → rules.Passes n → n ≡ n\n```\n";
    let link = "[crates/top/proofs/Promises.antt](../crates/top/proofs/Promises.antt)\n";
    assert_eq!(book("# One\n\n{statements half_even}\n").unwrap(), format!("{quote}{link}"));
}

#[test]
fn a_function_has_its_contract_and_no_body() {
    let quote = "```\n// The half of a number.\npub fn half(n: u8) -> Answer\n    ensures { Halves n result }\n```\n";
    let link = "[crates/top/src/lib.rt](../crates/top/src/lib.rt)\n";
    assert_eq!(book("{operations half}").unwrap(), format!("{quote}{link}"));
}

#[test]
fn each_clause_of_a_contract_counts() {
    let mut files = tree();
    let code = files.get_mut("crates/top/src/lib.rt").unwrap();
    let clauses = "ensures half { Halves n result }\n    ensures passes { Fine n }";
    *code = code.replace("ensures { Halves n result }", clauses);
    let repository = Repository::read(files, &[PROMISES]).unwrap();
    let contract = operations::contract(&repository, &[PROMISES], "half", &Default::default()).unwrap();
    let names: Vec<String> = contract.names.iter().map(|target| format!("{target:?}")).collect();
    assert!(
        names.iter().any(|name| name.contains("Halves")) && names.iter().any(|name| name.contains("Passes")),
        "{names:?}"
    );
    let quote = format!("// The half of a number.\npub fn half(n: u8) -> Answer\n    {clauses}\n");
    assert_eq!(quote::function(&repository, &contract), quote);
}

#[test]
fn a_type_has_its_attributes_and_comment() {
    let mut files = tree();
    let code = files.get_mut("crates/low/src/lib.rt").unwrap();
    *code = code.replace("pub enum Answer", "#[derive(Clone, Copy)]\npub enum Answer");
    let repository = Repository::read(files, &[PROMISES]).unwrap();
    let id = Id { file: "crates/low/src/lib.rt".into(), name: "Answer".into() };
    let quote = "// An answer.\n#[derive(Clone, Copy)]\npub enum Answer {\n    Half(u8), // of it\n    None,\n}\n";
    assert_eq!(quote::definitions(&repository, &id.file, [&id]), quote);
}

#[test]
fn twins_are_tied_and_not_shown() {
    let ties = book("{statements half_even}\n--\n{ties}\n").unwrap();
    let (_, ties) = ties.split_once("--\n").unwrap();
    assert!(
        ties.starts_with("```\n-- the test for even numbers passes\n-- exactly for them\npub even_told : "),
        "{ties}"
    );
    assert_eq!(book("{ties}").unwrap(), "There are none.\n");
    let definitions = book("{statements half_even}\n{definitions}").unwrap();
    assert!(!definitions.contains("pub is_even") && !definitions.contains("unused"), "{definitions}");
}

#[test]
fn definitions_are_quoted_in_reading_order() {
    let made = book("{statements half_even}\n--\n{definitions}").unwrap();
    let (_, definitions) = made.split_once("--\n").unwrap();
    let expected = r#"### <a id="low-Rules"></a>low/Rules

Rules of numbers, in two lines.
[crates/low/specs/Rules.antt](../crates/low/specs/Rules.antt)

```
-- ---- even numbers

mutual
  -- even
  pub data Even : ℕ → Type 0 where
    even_zero : Even 0
    -- the next
    even_next : {n : ℕ} → Odd n → Even (suc n)

  pub data Odd : ℕ → Type 0 where
    odd_next : {n : ℕ} → Even n → Odd (suc n)

-- ---- tests

-- what passes
abbrev pub Passes : ℕ → Type 0
Passes n = is_even (n ⊕ n) ≡ true
```

From [the statements that tie them](#ties) `is_even`; [low/Marks](#low-Marks) `⊕`.

### <a id="low-Marks"></a>low/Marks

Marks.
[crates/low/specs/Marks.antt](../crates/low/specs/Marks.antt)

```
infixl 20 ◌⊕◌

-- a sum
pub ◌⊕◌ : ℕ → ℕ → ℕ
a ⊕ b = a + b
```
"#;
    assert_eq!(definitions, expected);
}

#[test]
fn what_the_code_needs_stands_by_itself() {
    let made = book("{operations half}\n{statements half_even}\n{count}\n--\n{bridge}\n--\n{index}").unwrap();
    let parts: Vec<&str> = made.split("--\n").collect();
    let count = "**4 definitions, 9 lines** behind the statements, and **2 definitions, 7 lines** from the code's answers to theirs; \
                 from 3 files, and counted without comments.";
    assert!(made.lines().any(|line| line == count), "{made}");
    let bridge = made.split("--\n### ").nth(1).unwrap();
    assert!(bridge.starts_with("<a id=\"code-low-Rules\"></a>low/Rules\n"), "{bridge}");
    assert!(bridge.contains("-- what the function answers\nabbrev pub Halves : ℕ → Answer → Type 0\n"), "{bridge}");
    assert!(bridge.contains("From [low/lib](#code-low-lib) `Answer`; [low/Rules](#low-Rules) `Passes`.\n"), "{bridge}");
    assert!(
        bridge.contains("```\n// An answer.\npub enum Answer {\n    Half(u8), // of it\n    None,\n}\n```\n"),
        "{bridge}"
    );
    let index = "`◌⊕◌` [low/Marks](#low-Marks), `Answer` [low/lib](#code-low-lib), `Even` [low/Rules](#low-Rules), \
                 `Halves` [low/Rules](#code-low-Rules), `Odd` [low/Rules](#low-Rules),\n`Passes` [low/Rules](#low-Rules).\n";
    assert_eq!(*parts.last().unwrap(), index);
}

#[test]
fn names_of_the_prover_are_explained() {
    let kit = book("{statements half_even}\n{kit}").unwrap();
    for line in [
        "| name | what it is | module |",
        "| `ℕ` | the natural numbers 0, 1, 2, .. | `Prim.Nat` |",
        "| `◌≡◌` | both sides are equal | `kit.Path` |",
    ] {
        assert!(kit.lines().any(|found| found == line), "{line}\n{kit}");
    }
}

#[test]
fn a_template_is_held_to_what_is_there() {
    assert_eq!(book("\n{all}").unwrap_err(), "book.md:2: nothing is known of {all}");
    assert_eq!(book("{statements}").unwrap_err(), "book.md:1: nothing is known of {statements}");
    let told = book("{statements half_even even}").unwrap_err();
    assert_eq!(told, "book.md:1: there is no statement even among the promises");
    let told = book("a\n{operations third}").unwrap_err();
    let found = |number: u32, name: &str| {
        format!("{PROMISES}: {number} public functions {name} are in the crates with promises, and there has to be one")
    };
    assert_eq!(told, format!("book.md:2: {}", found(0, "third")));
    assert_eq!(book("{operations silent}").unwrap_err(), format!("book.md:1: {}", found(2, "silent")));
}

#[test]
fn an_example_has_to_be_in_the_book() {
    let table =
        |example: &str| format!("| sign | as in |\n|---|---|\n| `≡` | `{example}` |\n\n{{statements half_even}}\n");
    assert!(book(&table("n ≡ n")).is_ok());
    let told = book(&table("n ≡ m")).unwrap_err();
    assert_eq!(told, "book.md:3: no definition of the book has the example n ≡ m");
    let other = "| sign | other |\n|---|---|\n| a | `b \\| c` |\n";
    assert_eq!(template::examples(other), []);
    assert_eq!(template::examples(&other.replace("other", "as in")), [(3, "b | c".into())]);
}

#[test]
fn a_book_on_demand_is_of_a_statement_or_a_heading() {
    let template = |words: &str| with_library(|library| library.template(words));
    assert!(template("even_told").unwrap().contains("{statements even_told}"));
    assert!(template("Halves").unwrap().contains("{statements half_even}"));
    assert!(template("demand 1").unwrap().starts_with("# What one has to believe for: demand 1\n"));
    let told = "no statement is called odd, and no heading of the promises has it. These are:\n  demand 1: halves\n  second statements";
    assert_eq!(template("odd").unwrap_err(), told);
}
