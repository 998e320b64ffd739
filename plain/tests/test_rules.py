"""Each change by its name, and each form that is refused."""
import unittest

from plain import known
from plain.reader import Scope, plain
from plain.rules import RULES
from plain.tokens import Refused

SCOPE = Scope(frozenset({'osm_base', 'anyhow', 'indexmap', 'thiserror'}), frozenset({'put', 'act'}))
HEAD = 'use rattle_std::prelude::*;\n\n'

# A rule, what is written in Rattle, and what stands in its place in Rust. Both are a whole file
# without the prelude.
CASES = (
    ('ghost-use', 'ghost use Rattle.std.specs.Prelude.{◌≡◌, ℕ};\nfn f() {}\n', 'fn f() {}\n'),
    (
        'ghost-use',
        'mod a;\n\nghost use Rattle.osm_base.specs.Rank.{rank};\n\nuse osm_base::Key;\n',
        'mod a;\n\nuse osm_base::Key;\n',
    ),
    (
        'ghost-member',
        'trait T {\n    /// The size.\n    ghost size: { Self → ℕ };\n\n    fn f(&self);\n}\n',
        'trait T {\n    fn f(&self);\n}\n',
    ),
    (
        'ghost-member',
        'struct S {\n    a: u8,\n    ghost fits: { a ≤ 9 } by { auto },\n}\n',
        'struct S {\n    a: u8,\n}\n',
    ),
    (
        'ghost-member',
        'impl T for S {\n    ghost size = { λ s. s.a };\n\n    fn f(&self) {}\n}\ntrait T {}\nstruct S;\n',
        'impl T for S {\n    fn f(&self) {}\n}\ntrait T {}\nstruct S;\n',
    ),
    (
        'contract',
        'fn f(a: u8) -> u8\n    requires { a < 9 }\n    // As it was.\n    ensures same { result ≡ a }\n{\n    a\n}\n',
        'fn f(a: u8) -> u8 {\n    a\n}\n',
    ),
    (
        'contract',
        'trait T {\n    fn f(&self) -> u8\n        ensures { result ≡ codes "}" };\n}\n',
        'trait T {\n    fn f(&self) -> u8;\n}\n',
    ),
    (
        'contract',
        'fn f<A>(a: A) -> A\nwhere\n    A: Copy,\n    requires { ⊤ }\n{\n    a\n}\n',
        'fn f<A>(a: A) -> A\nwhere\n    A: Copy,\n{\n    a\n}\n',
    ),
    (
        'model',
        'use std::marker::Model;\n\nstruct S {\n    a: u8,\n}\n\n// What is seen.\nimpl Model for S {\n'
        '    ghost Value = { ℕ };\n\n    ghost view = { λ s. s.a };\n}\n\nfn f() {}\n',
        'struct S {\n    a: u8,\n}\n\nfn f() {}\n',
    ),
    ('tactic', '#![tactic(auto)]\n\n#[tactic(auto, using(a::b))]\nfn f() {}\n', 'fn f() {}\n'),
    (
        'tactic',
        'fn f(a: u8) -> u8 {\n    match a {\n        #[tactic(none)]\n        0 => 1,\n        _ => 2,\n    }\n}\n',
        'fn f(a: u8) -> u8 {\n    match a {\n        0 => 1,\n        _ => 2,\n    }\n}\n',
    ),
    ('cycle', '#[cycle(query)]\nfn f() {}\n', 'fn f() {}\n'),
    (
        'derive-drop',
        '#[derive(Drop)]\npub struct S {\n    a: u8,\n}\n',
        'pub struct S {\n    a: u8,\n}\n',
    ),
    ('derive-drop', '#[derive(Debug, Drop)]\nstruct S;\n', '#[derive(Debug)]\nstruct S;\n'),
    (
        'drop-bound',
        'trait T: Drop {\n    type File: Read + Drop;\n}\n',
        'trait T {\n    type File: Read;\n}\n',
    ),
    (
        'drop-bound',
        'struct S<A: Drop, B: Drop + Copy> {\n    a: A,\n    b: Box<dyn T + Drop>,\n}\n',
        'struct S<A, B: Copy> {\n    a: A,\n    b: Box<dyn T>,\n}\n',
    ),
    (
        'derive-copy',
        '#[derive(Clone, Copy)]\nenum E {\n    A,\n}\n',
        '#[derive(Clone, Copy)]\nenum E {\n    A,\n}\n\nimpl rattle_std::Clone for E {\n'
        '    fn clone(&self) -> Result<Self, rattle_std::alloc::AllocError> {\n        Ok(*self)\n    }\n}\n',
    ),
    (
        'derive-copy',
        "#[derive(Clone, Copy)]\nstruct S<'a, T: Ord>(&'a T, T);\n",
        "#[derive(Clone, Copy)]\nstruct S<'a, T: Ord>(&'a T, T);\n\nimpl<'a, T: Ord + Copy> rattle_std::Clone for S<'a, T> {\n"
        '    fn clone(&self) -> Result<Self, rattle_std::alloc::AllocError> {\n        Ok(*self)\n    }\n}\n',
    ),
    (
        'derive-error',
        'use thiserror::Error;\n\n#[derive(Error, Debug, Drop)]\npub enum E {\n    #[error("line {line} is none")]\n'
        '    Bad { line: u64 },\n\n    #[error("full")]\n    Full(u8),\n}\n',
        '#[derive(Debug)]\npub enum E {\n    Bad { line: u64 },\n\n    Full(u8),\n}\n\nimpl ::core::fmt::Display for E {\n'
        "    fn fmt(&self, f: &mut ::core::fmt::Formatter<'_>) -> ::core::fmt::Result {\n        match self {\n"
        '            E::Bad { line, .. } => write!(f, "line {line} is none"),\n            E::Full(..) => write!(f, "full"),\n'
        '        }\n    }\n}\n\nimpl ::std::error::Error for E {}\n',
    ),
    (
        'std-path',
        'use std::alloc::{AllocError, Global};\n',
        'use rattle_std::alloc::{AllocError, Global};\n',
    ),
    (
        'std-path',
        'fn f(a: &[u8]) -> bool {\n    std::str::from_utf8(a).is_ok()\n}\n',
        'fn f(a: &[u8]) -> bool {\n    rattle_std::str::from_utf8(a).is_ok()\n}\n',
    ),
    ('kit-path', 'use indexmap::IndexMap;\n', 'use rattle_std::indexmap::IndexMap;\n'),
    (
        'kit-path',
        'fn f() -> anyhow::Result<()> {\n    Ok(())\n}\n',
        'fn f() -> rattle_std::anyhow::Result<()> {\n    Ok(())\n}\n',
    ),
    (
        'str-path',
        'fn f(a: &[u8]) -> bool {\n    str::from_utf8(a).is_ok()\n}\n',
        'fn f(a: &[u8]) -> bool {\n    core::str::from_utf8(a).is_ok()\n}\n',
    ),
    (
        'collect',
        'fn f() {\n    a.iter().collect(alloc)\n}\n',
        'fn f() {\n    a.iter().collect_in(alloc)\n}\n',
    ),
    ('to-vec', 'fn f() {\n    a.to_vec(alloc)\n}\n', 'fn f() {\n    a.vec_in(alloc)\n}\n'),
    (
        'box-new',
        'fn f() {\n    Box::new(alloc, 1)\n}\n',
        'fn f() {\n    rattle_std::boxed::new(alloc, 1)\n}\n',
    ),
    (
        'none-or',
        'fn f() {\n    a.is_none_or(|it| it > 1)\n}\n',
        'fn f() {\n    a.map_or(true, |it| it > 1)\n}\n',
    ),
    (
        'print',
        'fn f() {\n    println!(rt; "a {b}")\n}\n',
        'fn f() {\n    rattle_std::println_to!(rt; "a {b}")\n}\n',
    ),
    (
        'print',
        'fn f() {\n    println!(rt; "a")\n}\n',
        'fn f() {\n    rattle_std::println_to!(rt; "a")\n}\n',
    ),
    (
        'format',
        'fn f() {\n    format!(in alloc; "{a}")\n}\n',
        'fn f() {\n    rattle_std::format_in!(alloc; "{a}")\n}\n',
    ),
    (
        'vec',
        "fn f() {\n    vec![in rt.alloc(); b'a'; 3]\n}\n",
        "fn f() {\n    rattle_std::vec_in![rt.alloc(); b'a'; 3]\n}\n",
    ),
    (
        'assert',
        'fn f() {\n    assert!(rt; a, "b");\n    assert_eq!(rt; a, b);\n}\n',
        'fn f() {\n    assert!(a, "b");\n    assert_eq!(a, b);\n}\n',
    ),
    (
        'fmt',
        'use std::fmt;\n\nimpl fmt::Display for S {\n    fn fmt<W: fmt::Write>(&self, f: &mut fmt::Formatter<W>) -> fmt::Result {\n'
        '        write!(f, "a")\n    }\n}\nstruct S;\n',
        "use rattle_std::fmt;\n\nimpl fmt::Display for S {\n    fn fmt(&self, f: &mut fmt::Formatter<'_>) -> fmt::Result {\n"
        '        write!(f, "a")\n    }\n}\nstruct S;\n',
    ),
    (
        'main',
        'fn main(rt: HostRuntime) -> ExitCode {\n    run(&rt)\n}\n',
        'fn main() -> ExitCode {\n    let rt = HostRuntime::of_process();\n    run(&rt)\n}\n',
    ),
    (
        'test',
        '#[cfg(test)]\nmod tests {\n    use std::test::Fail;\n\n    #[test]\n    fn f(rt: HostRuntime) -> Result<(), Fail> {\n'
        '        put(rt)?;\n        Ok(())\n    }\n}\n',
        '#[cfg(test)]\nmod tests {\n    use rattle_std::prelude::*;\n    use rattle_std::test::Fail;\n\n    #[test]\n    fn f() {\n'
        '        rattle_std::test::run(|rt: HostRuntime| -> Result<(), Fail> {\n        put(rt)?;\n        Ok(())\n    })\n    }\n}\n',
    ),
)

# What is refused: a form, and words of the refusal. Line 2 has it, in each.
REFUSED = (
    ('ghost fn f() {}', 'a ghost item `fn`'),
    ('ghost law: { 1 ≡ 1 };', 'a ghost item `law` of a module'),
    ('trait T { ghost size: { ℕ } measure { 1 }; }', 'goes on with `measure`'),
    ('fn f() requires a b { 1 } {}', 'a clause that goes on with `b`'),
    ('fn f() ensures* { 1 } {}', 'a clause that goes on with `*`'),
    ("fn f() ensures { a' ≡ 1 } {}", 'a quote within a term'),
    ('fn f() ensures { a -- } \n } {}', 'a comment within a term'),
    ('fn f() { let g = |x: u8| requires { x < 9 } { x }; }', '`requires` within'),
    ('fn f() { ghost let a = 1; }', '`ghost` within'),
    ('final fn f() {}', 'begins with `final`'),
    ('unsafe fn f() {}', 'begins with `unsafe`'),
    ('fn f() { unsafe { g() } }', '`unsafe` within'),
    ('static A: u8 = 1;', 'begins with `static`'),
    ('macro_rules! m { () => {} }', 'begins with `macro_rules`'),
    ('extern "C" { }', 'begins with `extern`'),
    ('union U { a: u8 }', 'begins with `union`'),
    ('async fn f() {}', 'begins with `async`'),
    ('#[inline]\nfn f() {}', 'the attribute `#[inline]`'),
    ('#[repr(C)] struct S;', 'the attribute `#[repr]`'),
    ('#[cfg(unix)] fn f() {}', 'the attribute `#[cfg]`'),
    ('#[test] struct S;', 'the attribute `#[test]`'),
    ('fn f() { #[allow(a)] let b = 1; }', 'the attribute `#[allow]` within a body'),
    ('#[derive(Default)] struct S;', 'a derive of `Default`'),
    ('#[derive(Clone)] struct S;', 'a derive of one of Clone and Copy alone'),
    ('enum E { #[error("a")] A }', '`#[error(..)]` without'),
    ('#[derive(Error, Debug)] enum E { #[error(transparent)] A(B) }', 'of a variant in this form'),
    ('#[derive(Error, Debug)] enum E { #[error("{0}")] A(B) }', 'a message of an error with {0}'),
    ('use std::sync::Mutex;', 'the path std::sync::Mutex'),
    ('use std::io::*;', 'the path std::io::*'),
    ('use osm_base::*;', 'an import of all names'),
    ('use serde::Serialize;', 'an import of `serde`'),
    ('use clap::Arg;', 'the library clap, which crates.txt doesn\'t name'),
    ('use indexmap::map::Entry;', 'the path indexmap::map::Entry'),
    ('fn f() { std::process::abort() }', 'the path std::process::abort'),
    ('fn f() { Vec::from(a) }', 'the path std::vec::Vec::from'),
    ('fn f() { u64::pow(a, b) }', 'the path u64::pow'),
    ('use std::mem;\nfn g() { mem::zeroed() }', 'the path std::mem::zeroed'),
    ('fn f() { a.sort_unstable() }', 'the method `.sort_unstable(..)`'),
    ('fn f() { a.collect::<B>(alloc) }', '`.collect::<..>(..)`'),
    ('fn f() { panic!("a") }', 'the macro `panic!`'),
    ('fn f() { vec![1, 2] }', '`vec!` without'),
    ('fn f() { println!("a") }', '`println!` without'),
    ('fn f() { assert!(a) }', '`assert!` without'),
    ('fn f() { for a in (b..) {} }', 'a range without an end'),
    ('fn f() { for a in b.. {} }', 'a range without an end'),
    ('fn f() -> impl Iterator { a }', '`impl Trait`'),
    ('impl Drop for S { fn drop(self) {} }\nstruct S;', '`Drop` that isn\'t a bound'),
    ('impl Default for S {}\nstruct S;', 'an impl of `Default`'),
    ('impl Iterator for S {}\nstruct S;', 'an impl of `Iterator`'),
    ('impl Model for S { fn f() {} }', 'a function in an impl of Model'),
    ('fn f(a: Drop) {}', '`Drop` that isn\'t a bound'),
    ('fn f() { let a = ≡; }', '`≡` outside of a clause'),
    ('fn main() {}', '`main` with other parameters'),
    (
        'impl fmt::Display for S { fn fmt(&self, f: &mut fmt::Formatter<W>) {} }',
        'a formatter in another form',
    ),
    ('#[test] fn f(rt: HostRuntime) {}', 'a test that doesn\'t return'),
    ('fn f() { /* a */ }', 'a comment of the form'),
    ('fn f() { g("a\nb") }', 'a string over several lines'),
    ('fn f() {', 'a bracket that isn\'t closed'),
    ('fn f() { (a] }', 'closes another bracket'),
    ('pub(in crate::a) fn f() {}', 'a form of `pub(..)`'),
    ('fn f() { fn g() {} }', '`fn` within'),
    ('struct S { a: u8 } trait T { struct U; }', '`struct` within a trait or an impl'),
    ('#![feature(a)]', 'the attribute `#![feature..]`'),
)


def without_head(text):
    """The text without the import of the prelude."""
    return text.replace(HEAD, '', 1)


class Rules(unittest.TestCase):
    def test_each_case(self):
        for rule, before, after in CASES:
            with self.subTest(rule=rule, before=before):
                written = plain('a.rt', before, SCOPE)
                self.assertEqual(after, without_head(written.text))
                self.assertGreater(written.rules[rule], 0)

    def test_each_rule_has_a_case(self):
        self.assertEqual(set(RULES), {it[0] for it in CASES} | {'prelude', 'forbid-unsafe'})

    def test_the_prelude_and_no_unsafe_code(self):
        written = plain(
            'a.rt',
            '//! A crate.\n//!\n//! More.\n#![tactic(auto)]\n\n// Of f.\nfn f() {}\n',
            SCOPE,
            True,
        )
        self.assertEqual(
            '//! A crate.\n//!\n//! More.\n#![forbid(unsafe_code)]\n#![allow(unused_imports, unused_variables)]\n\n'
            'use rattle_std::prelude::*;\n\n// Of f.\nfn f() {}\n',
            written.text,
        )
        self.assertEqual({'prelude': 1, 'forbid-unsafe': 1, 'tactic': 1}, dict(written.rules))

    def test_a_doc_comment_stays_with_its_item(self):
        written = plain('a.rt', '/// Of f.\nfn f() {}\n', SCOPE)
        self.assertEqual(HEAD + '/// Of f.\nfn f() {}\n', written.text)

    def test_the_real_thiserror(self):
        before = 'use thiserror::Error;\n\n#[derive(Error, Debug, Drop)]\npub enum E {\n    #[error("a")]\n    A,\n}\n'
        written = plain('a.rt', before, Scope(SCOPE.libraries, real=frozenset({'thiserror'})))
        self.assertEqual(
            before.replace(', Drop', '').replace('Error, Debug', 'Error, Debug'),
            without_head(written.text),
        )

    def test_strings_and_comments_stay(self):
        code = 'fn f() -> &\'static [u8] {\n    // ghost use std::x; requires { 1 }\n    b"ghost { std::a .collect( Drop"\n}\n'
        self.assertEqual(code, without_head(plain('a.rt', code, SCOPE).text))

    def test_a_trait_of_a_crate_may_be_implemented(self):
        code = 'use osm_base::Rule;\n\nimpl Rule for S {}\n\nimpl osm_base::Other for S {}\n\nstruct S;\n'
        self.assertEqual(code, without_head(plain('a.rt', code, SCOPE).text))

    def test_a_method_that_a_crate_declares(self):
        code = 'fn f() {\n    a.act(1)\n}\n'
        self.assertEqual(code, without_head(plain('a.rt', code, SCOPE).text))
        with self.assertRaises(Refused):
            plain('a.rt', code, Scope(frozenset()))


class Refusals(unittest.TestCase):
    def test_each_with_its_line(self):
        for form, words in REFUSED:
            with self.subTest(form=form):
                with self.assertRaises(Refused) as why:
                    plain('crates/a/src/b.rt', '// A file.\n' + form + '\n', SCOPE)
                self.assertIn(words, str(why.exception))
                self.assertRegex(str(why.exception), r'^crates/a/src/b\.rt:[23]: ')

    def test_nothing_is_known_that_is_refused(self):
        self.assertFalse(known.METHODS & known.REFUSED_WORDS)
        self.assertFalse(set(known.MACROS) & known.REFUSED_WORDS)


if __name__ == '__main__':
    unittest.main()
