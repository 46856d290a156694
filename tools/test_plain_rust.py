"""Tries the making of plain Rust on small texts, each rule and each stop:
python3 tools/test_plain_rust.py"""
import tempfile
import unittest
from pathlib import Path
from typing import Iterable, List

from plain_rust import package
from plain_rust.source import PRELUDE, Source, erased
from plain_rust.stop import Refusal, Stop


def source(text: str) -> Source:
    """The source of the module `m` in the crate `a`, which stands on `b`."""
    return erased(text, "m", "a", {"b"})


def plain(text: str) -> str:
    """The text in Rust, without the line that brings in Rattle's names."""
    return source(text).text.replace(PRELUDE, "", 1).lstrip("\n")


class Rule(unittest.TestCase):
    def assert_plain(self, text: str, wanted: str) -> None:
        self.assertEqual(plain(text), wanted)

    def assert_stays(self, text: str) -> None:
        self.assert_plain(text, text)


class Erasing(Rule):
    def test_what_has_no_ghosts_stays(self) -> None:
        self.assert_stays(
            "fn f<'a>(x: &'a [u8]) -> u8 {\n    // requires nothing; a ghost; x: Drop; collect(y)\n"
            "    let c = '{';\n    let s = \"ensures { \\\" } std::x\";\n    let d = b'\\'';\n"
            "    x[0..2][1]\n}\n"
        )

    def test_clauses_go_with_what_tells_of_them(self) -> None:
        self.assert_plain(
            "fn f(x: u8) -> u8\n    // Why.\n    requires a { x ≡ { y } }\n"
            "    ensures* b { length \"}\" ≡ 1 }\n{\n    x\n}\n",
            "fn f(x: u8) -> u8 {\n    x\n}\n",
        )
        self.assert_plain("fn f() -> u8\n    requires { a }\n{ 1 }\n", "fn f() -> u8 { 1 }\n")

    def test_ghosts_go_with_what_tells_of_them(self) -> None:
        self.assert_plain(
            "//! The file.\nghost use A.{b};\n\nuse std::io;\n\nstruct S {\n    a: u8,\n"
            "    // Says what.\n    pub(crate) ghost b: { ℕ },\n    /// Stays.\n    c: u8,\n}\n",
            "//! The file.\n\nuse crate::rattle_std::io;\n\nstruct S {\n    a: u8,\n"
            "    /// Stays.\n    c: u8,\n}\n",
        )
        self.assert_plain(
            "trait T {\n    /// Gone.\n    ghost a: { Self → Bool } = { λ _. false };\n\n"
            "    /// Stays.\n    fn f(&self);\n}\n",
            "trait T {\n    /// Stays.\n    fn f(&self);\n}\n",
        )
        self.assert_plain("fn f(a: u8)\n    ghost b: { ℕ }\n    requires { a }\n{}\n",
                          "fn f(a: u8) {}\n")

    def test_a_ghost_argument_goes(self) -> None:
        self.assert_plain("fn f() {\n    g(1, ghost b = { 2 });\n}\n",
                          "fn f() {\n    g(1,);\n}\n")

    def test_models_go(self) -> None:
        self.assert_plain(
            "use std::marker::Model;\nuse std::marker::{Brand, Model};\n\nstruct S<'a>(&'a u8);\n"
            "\n// The view.\nimpl<'a> Model for S<'a> {\n    ghost view = { λ a. a };\n}\n\n"
            "fn f() {}\n",
            "use crate::rattle_std::marker::Brand;\n\nstruct S<'a>(&'a u8);\n\nfn f() {}\n",
        )

    def test_attributes_of_proofs_go(self) -> None:
        self.assert_plain(
            "#![tactic(auto)]\n\n#[derive(Drop)]\nstruct S;\n\n#[tactic(auto, using(x::y))]\n"
            "#[inline]\n#[derive(Clone, Copy, Drop)]\nfn f() {}\n",
            "struct S;\n\n#[inline]\n#[derive(Clone, Copy)]\nfn f() {}\n",
        )


class Docs(Rule):
    def test_clauses_of_public_functions_stay(self) -> None:
        self.assert_plain(
            "impl A {\n    /// It.\n    #[inline]\n    pub fn f(&self)\n        requires { p }\n"
            "        ensures a { x\n            ≡ y }\n    {}\n}\n",
            "impl A {\n    /// It.\n    ///\n    /// # Requires\n    ///\n    /// ```text\n"
            "    /// { p }\n    /// ```\n    ///\n    /// # Ensures\n    ///\n    /// ```text\n"
            "    /// a { x\n    ///     ≡ y }\n    /// ```\n    #[inline]\n"
            "    pub fn f(&self) {}\n}\n",
        )

    def test_those_of_a_trait_stay_too(self) -> None:
        self.assert_plain(
            "trait T {\n    fn f(&self)\n        ensures { «data» ≡ 1 };\n}\n",
            "trait T {\n    /// # Ensures\n    ///\n    /// ```text\n    /// { «data» ≡ 1 }\n"
            "    /// ```\n    fn f(&self);\n}\n",
        )


class Words(Rule):
    def test_bounds(self) -> None:
        rows = [
            ("fn f<A: Drop, B: Drop>() {}\n", "fn f<A, B>() {}\n"),
            ("fn f<A: Drop + Copy>() {}\n", "fn f<A: Copy>() {}\n"),
            ("fn f<A: Copy + Drop>() {}\n", "fn f<A: Copy>() {}\n"),
            ("trait T: Drop {}\n", "trait T: Sized {}\n"),
            ("pub(crate) trait T: Copy + Drop {}\n", "pub(crate) trait T: Copy {}\n"),
            ("trait T {\n    type F: Copy + Drop;\n}\n", "trait T {\n    type F: Copy;\n}\n"),
        ]
        for text, wanted in rows:
            self.assert_plain(text, wanted)

    def test_paths(self) -> None:
        self.assert_plain(
            "use crate::x;\nuse b::{self, y};\nuse itoa::z;\n"
            "fn f(b: u8) {\n    b::g();\n    A::b::c();\n    c::d();\n    b\n}\n",
            "use crate::a::x;\nuse crate::b::{self, y};\nuse crate::rattle_std::itoa::z;\n"
            "fn f(b: u8) {\n    crate::b::g();\n    A::b::c();\n    c::d();\n    b\n}\n",
        )

    def test_macros(self) -> None:
        self.assert_plain(
            "const _: () = prove!(A == 1);\nfn f(x: u8) {\n    prove!(x);\n"
            "    let v = vec![in alloc; 0; n]?;\n}\n",
            "const _: () = assert!(A == 1);\nfn f(x: u8) {\n    debug_assert!(x);\n"
            "    let v = crate::rattle_std::try_vec![in alloc; 0; n]?;\n}\n",
        )

    def test_collecting(self) -> None:
        self.assert_plain("fn f() {\n    i.collect(alloc)?;\n    i.collect();\n}\n",
                          "fn f() {\n    i.collect_in(alloc)?;\n    i.collect();\n}\n")

    def test_tests_that_take_the_runtime(self) -> None:
        self.assert_plain(
            "#[test]\nfn t(rt: HostRuntime) {\n    assert!(rt; x == [1; 2]);\n}\n\n"
            "#[test]\nfn u() {\n    assert!(x == [1; 2]);\n}\n",
            "fn t(rt: HostRuntime) {\n    assert!(x == [1; 2]);\n}\n\n#[test]\nfn t_runs() {\n"
            "    crate::rattle_std::test::pass(t(HostRuntime::of_tests()));\n}\n\n"
            "#[test]\nfn u() {\n    assert!(x == [1; 2]);\n}\n",
        )

    def test_errors(self) -> None:
        got = plain(
            "use thiserror::Error;\n\n/// Why.\n#[derive(Clone, Error, Drop)]\npub enum E {\n"
            "    /// One.\n    #[error(\"one, {0} and {1}\")]\n    A(u8, u32),\n"
            "    #[error(\"two #[error {n}\")]\n    B { n: u8, m: u8 },\n"
            "    #[error(\"three\")]\n    C,\n}\n"
        )
        self.assertTrue(got.startswith(
            "/// Why.\n#[derive(Clone)]\npub enum E {\n    /// One.\n    A(u8, u32),\n"
            "    B { n: u8, m: u8 },\n    C,\n}\n\nimpl std::fmt::Display for E {\n"
        ), got)
        self.assertIn("E::A(x0, x1) => write!(f, \"one, {x0} and {x1}\"),\n", got)
        self.assertIn("E::B { n, m } => write!(f, \"two #[error {n}\"),\n", got)
        self.assertIn("E::C => write!(f, \"three\"),\n", got)
        self.assertTrue(got.endswith("}\n\nimpl std::error::Error for E {}\n"), got)


class Exports(Rule):
    def test_a_function_with_pointers_stands_over_a_plain_one(self) -> None:
        got = source(
            "/// It.\n#[unsafe(no_mangle)]\npub extern \"C\" fn f(\n    alloc: Global,\n"
            "    s: &[u8],\n    out: &mut [u32],\n    n: &mut u64,\n    k: u32,\n    l: &L,\n"
            ") -> u32\n    requires { p }\n{\n    1\n}\n"
        )
        self.assertIn("/// ```\npub fn f(\n    alloc: Global,\n    s: &[u8],", got.text)
        self.assertNotIn("extern", got.text)
        [made] = got.exports
        self.assertIn("#[no_mangle]\npub unsafe extern \"C\" fn f(\n    s: *const u8,\n"
                      "    s_len: usize,\n    out: *mut u32,\n    out_len: usize,\n"
                      "    n: *mut u64,\n    k: u32,\n    l: *const L,\n) -> u32 {\n", made)
        self.assertIn(
            "super::m::f(Global, array(s, s_len), array_mut(out, out_len), &mut *n, k, &*l)", made)

    def test_a_function_of_nothing_takes_nothing(self) -> None:
        got = source("#[unsafe(no_mangle)]\npub extern \"C\" fn f() -> u32\n{\n    1\n}\n")
        [made] = got.exports
        self.assertIn("\npub extern \"C\" fn f() -> u32 {\n    super::m::f()\n}\n", made)


class Stops(unittest.TestCase):
    def assert_stops(self, texts: Iterable[str]) -> None:
        for text in texts:
            with self.assertRaises((Stop, Refusal), msg=text) as caught:
                plain("\n\n" + text)
            self.assertTrue(str(caught.exception).startswith("3: "), str(caught.exception))

    def test_what_rust_runs_differently(self) -> None:
        self.assert_stops([
            "fn f() { for i in 3.. { } }", "fn f() { g((a..).take(3)) }", "fn f() { [x..] }",
            "fn f() { let r = f()..; }", "fn f() { S { a: 1, ..b } }", "fn f() { S { a, ..(b) } }",
            "fn f() { S { a: 1, ..b::new(c) } }", "fn f() { S { a: 1, ..b.c() } }",
            "fn f(x: &dyn T) {}", "fn f() { x.clone(); }", "fn f() { x.map(T::clone(y)) }",
            "fn f() { iter::once(1) }", "fn f() { iter::empty() }", "fn f() { thread::spawn(x) }",
            "fn f() { s.try_send(x) }", "fn f<T: Send>() {}", "use anyhow::Error;",
            "macro_rules! m { () => {} }", "static A: u8 = 1;", "impl Drop for S {}",
            "fn f() { write!(s, x); }", "fn f() { format!(in a; x); }",
        ])  # fmt: skip

    def test_a_base_that_is_made_there_goes(self) -> None:
        self.assertIn("..T::new()", plain("fn f() -> T { T { a: 1, ..T::new() } }"))

    def test_what_isnt_known(self) -> None:
        self.assert_stops([
            'fn f() { r"a" }', 'fn f() { br#"a"# }', "fn f() { /* a */ }", "ghost let x = 1;",
            "fn f() requires x {}", "fn f() ensures { -- why\n }\n{}", "#[strange]\nfn f() {}",
            "fn f() ensures { x", "#[inline\nfn f() {}", "fn f() ensures { x } where T: Copy {}",
            "use ::std::io;", "mod b;", "fn f() { x.drop(Drop) }", "fn f() { `x` }",
            "#[test]\nfn f(a: u8) {}", "#[test]\npub fn f() {}", "extern \"C\" fn f() {}",
            "#[unsafe(no_mangle)] pub extern \"C\" fn f(a: Vec<u8>) {}",
            "#[error(\"x\")]\nstruct S;",
            "#[derive(Error)] enum E { A }", "#[derive(Error)] enum E { #[error(transparent)] A }",
        ])  # fmt: skip

    def test_what_only_looks_like_one(self) -> None:
        for text in (
            "fn f() { let (a, ..) = x[1..]; match y { [b, .., c] => S { d, .. } } }\n",
            "fn once(empty: u8) { x.send; }\n",
            "fn f() { let [a, ..] = y; &z[f()..] }\n",
            "fn f() { 0..=n; 1..2; ..3; }\n",
        ):
            self.assertEqual(plain(text), text)


class Package(unittest.TestCase):
    def setUp(self) -> None:
        room = tempfile.TemporaryDirectory(prefix="plain-rust-")
        self.addCleanup(room.cleanup)
        self.out = Path(room.name) / "out"

    def files(self) -> List[str]:
        return sorted(it.relative_to(self.out).as_posix() for it in self.out.rglob("*.*"))

    def test_only_what_changed_is_written(self) -> None:
        mark = f"{package.MARK}\n".encode()
        package.write({"Cargo.toml": mark, "src/a.rs": b"1", "src/b/c.rs": b"2"}, self.out)
        (self.out / "target").mkdir()
        (self.out / "target/kept.o").write_bytes(b"3")
        was = (self.out / "src/a.rs").stat().st_mtime_ns
        package.write({"Cargo.toml": mark, "src/a.rs": b"1", "src/d.rs": b"2"}, self.out)
        self.assertEqual((self.out / "src/a.rs").stat().st_mtime_ns, was)
        self.assertEqual(self.files(), ["Cargo.toml", "src/a.rs", "src/d.rs", "target/kept.o"])

    def test_another_folder_is_left_alone(self) -> None:
        self.assertTrue(package.is_made(self.out))
        self.out.mkdir()
        self.assertTrue(package.is_made(self.out))
        (self.out / "Cargo.toml").write_text("[package]\n")
        self.assertFalse(package.is_made(self.out))

    def test_a_stop_names_file_and_line(self) -> None:
        path = self.out / "crates/a/src/lib.rt"
        path.parent.mkdir(parents=True)
        path.write_text("fn f() {}\nfn g() { r\"x\" }\n")
        (self.out / "crates.txt").write_text("a:\n")
        with self.assertRaises(package.Unknown) as caught:
            package.module_of(self.out, "a")
        self.assertTrue(str(caught.exception).startswith("crates/a/src/lib.rt:2: "))


if __name__ == "__main__":
    unittest.main()
