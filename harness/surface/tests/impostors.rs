//! The check itself: it passes a page that is right, and finds what is wrong with others.

use surface::{asking_as_traits, declared, wrong, Function, Library, Page};

const LIB: &str = r#"
// pub fn in_a_comment() {}
ghost use lib.ListN.{length};
use checks::canonical;
pub mod below;
pub const P: [u64; 2] = [1, 2];
const BRACE: u8 = b'{';
const TEXT: &[u8] = b"} pub fn in_a_text(";

pub struct Pair<'a, 'b> {
    pub lv: &'a [u64],
    nv: &'b [u64],
}

impl<'a, 'b> Pair<'a, 'b> {
    pub fn of(lv: &'a [u64], nv: &'b [u64]) -> Pair<'a, 'b>
        ensures { λ r. ⌜ r ≡ pairOf (now lv) (now nv) ⌝ }
    {
        Pair { lv: lv, nv: nv }
    }

    fn inner(self) -> u64 {
        0
    }
}

fn private(n: u64) -> u64
    requires { ⌜ n < 8 ⌝ }
{
    n
}

#[no_mangle]
pub extern "C" fn exported(
    x: &mut [u64; 2],
) -> [u64; 2]
    ensures number { λ r. ⌜ r ≡ lawOf {requires} x ⌝ }
{
    while x[0] < 2
        invariant { ⌜ requires ⌝ }
    {
    }
    [1; 2]
}

pub fn asking(n: u64) -> u64
    ensures { λ r. ⌜ r ≡ n ⌝ }
    requires small { ⌜ n < 8 ⌝ }
{
    n
}
"#;

const PAGE: &str = "\
# Contracts

## One thing (`crates/one/src/lib.rt`)

`exported(x)`, and `Pair::of(lv, nv) -> Pair`. Not code: asking.

## Another thing (`crates/two/src/lib.rt`)

`asking(n)`

## Public surface

| Crate | Entries | Core without `requires` | Core with `requires` |
|---|---|---|---|
| `one` | `exported`, `Pair::of` | | `asking` |
";

fn one() -> Library {
    Library {
        name: "one".into(),
        functions: declared(LIB).expect("a file").functions,
    }
}

/// What is wrong with the page when a part of it is another.
fn altered(old: &str, new: &str) -> String {
    assert!(PAGE.contains(old), "{old}");
    let page = Page::read(&PAGE.replace(old, new)).expect("a page");
    wrong(&page, &[one()]).join("\n")
}

#[test]
fn a_file_is_read() {
    let declared = declared(LIB).expect("a file");
    let function = |name: &str, asks| Function {
        name: name.into(),
        asks,
    };
    let functions = [
        function("Pair::of", false),
        function("exported", false),
        function("asking", true),
    ];
    assert_eq!(declared.functions, functions);
    assert_eq!(declared.modules, ["below"]);
}

#[test]
fn an_item_of_an_unknown_sort_is_an_error() {
    for text in [
        "pub static N: u64 = 1;",
        "pub mod m { pub fn f() {} }",
        "impl T for S { static N: u64 = 1; }",
        "pub unsafe fn f() {}",
        "pub fn f(",
        "extern \"C\" { fn f(); }",
    ] {
        assert!(declared(text).is_err(), "{text}");
    }
}

#[test]
fn the_functions_of_a_trait_and_of_what_a_type_has_by_it_are_read() {
    let text = "pub trait T { ghost m: { Self }; fn f(&self) requires { A }; fn g() { h(); } }
        trait Hidden { fn f(); }
        pub type S = Pair<'static, { N }>;
        impl<'a, const N: usize> T for Pair<'a, N> { type Output = u64; fn f(&self) { } }";
    let functions = declared(text).expect("a file").functions;
    let names: Vec<_> = functions
        .iter()
        .map(|f| (f.name.as_str(), f.asks))
        .collect();
    let expected = [
        ("<T>::f", true),
        ("<T>::g", false),
        ("<Pair as T>::f", false),
    ];
    assert_eq!(names, expected);
}

#[test]
fn what_a_type_has_by_a_trait_asks_as_the_trait_does() {
    let library = |name: &str, text: &str| Library {
        name: name.into(),
        functions: declared(text).expect("a file").functions,
    };
    let libraries = asking_as_traits(vec![
        library(
            "impls",
            "impl<const N: usize> T<N> for Pair { fn f() {} fn g() {} }",
        ),
        library(
            "traits",
            "pub trait T<const N: usize> { fn f() requires { A }; fn g(); }",
        ),
    ]);
    let asks: Vec<_> = libraries[0]
        .functions
        .iter()
        .map(|f| (f.name.as_str(), f.asks))
        .collect();
    assert_eq!(
        asks,
        [("<Pair as T<N>>::f", true), ("<Pair as T<N>>::g", false)]
    );
}

#[test]
fn a_page_that_is_right_passes() {
    assert_eq!(altered("Contracts", "Contracts"), "");
}

#[test]
fn a_missing_function_is_found_with_the_row_that_is_right() {
    let told = altered("`exported`, `Pair::of`", "`Pair::of`");
    assert!(told.contains("`exported` is named neither as an entry nor as core"));
    assert!(told.contains("| `one` | `Pair::of` | `exported` | `asking` |"));
}

#[test]
fn a_missing_row_is_found() {
    let told = altered("| `one` | `exported`, `Pair::of` | | `asking` |\n", "");
    assert!(told.contains("| `one` | | `Pair::of`, `exported` | `asking` |"));
}

#[test]
fn a_missing_table_is_found() {
    let told = altered("## Public surface", "## Another");
    assert!(told.contains("`asking` is named neither as an entry nor as core"));
}

#[test]
fn an_entry_with_a_requires_is_found() {
    let told = altered("`Pair::of` | | `asking`", "`Pair::of`, `asking` | |");
    assert!(told.contains("the entry `asking` has a `requires`"));
}

#[test]
fn an_entry_that_no_section_of_its_crate_describes_is_found() {
    let told = altered("`exported(x)`", "exported(x)");
    assert!(
        told.contains("no section whose heading has crates/one/ describes the entry `exported`")
    );
    let told = altered("`asking(n)`", "`exported(n)`");
    assert_eq!(told, "");
}

#[test]
fn core_in_the_wrong_column_is_found() {
    let told = altered("| | `asking` |", "| `asking` | |");
    assert!(told.contains("`asking` has a `requires`"));
    let told = altered(
        "`exported`, `Pair::of` | | `asking`",
        "`exported` | | `asking`, `Pair::of`",
    );
    assert!(told.contains("`Pair::of` has no `requires`"));
}

#[test]
fn a_name_that_no_crate_has_is_found() {
    let told = altered("`exported`, ", "`exported`, `of`, ");
    assert!(told.contains("it has no public function `of`"));
    let told = altered("| `one` |", "| `two` | | | |\n| `one` |");
    assert!(told.contains("no library crate is `two`"));
}

#[test]
fn a_function_or_a_crate_listed_twice_is_found() {
    let told = altered("| | `asking` |", "| | `asking`, `asking` |");
    assert!(told.contains("`asking` is listed twice"));
    let told = altered("| `one` |", "| `one` | | | |\n| `one` |");
    assert!(told.contains("it has 2 rows, not one"));
}

#[test]
fn a_row_that_is_no_list_is_an_error() {
    for row in [
        "| `one` | | |",
        "| `one` | exported | | |",
        "| `one` | `a` `b` | | |",
    ] {
        let page = format!("{PAGE}{row}\n");
        assert!(Page::read(&page).is_err(), "{row}");
    }
}
