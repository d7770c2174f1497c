"""The reader of public functions, on texts made up for each rule."""
import unittest

from face import Crate, Unread


def read(**modules):
    """The functions of a crate by module and name, with a ! behind those that have a `requires`; `a__b` is the file a/b.rt."""
    found = Crate(lambda path: modules['__'.join(path) or 'lib']).functions
    return [f'{function.module} {function.name}{"!" if function.requires else ""}' for function in found]


class Modules(unittest.TestCase):
    def test_a_public_function_of_a_public_module_counts(self):
        self.assertEqual(read(lib='pub mod a;', a='pub fn f() {}\nfn own() {}\npub(crate) fn near() {}'), ['a f'])

    def test_a_function_of_the_root_counts(self):
        self.assertEqual(read(lib='// all\n#![tactic(auto)]\nuse x::y;\npub fn f(n: u32) -> u32 { n }'), ['lib f'])

    def test_an_exported_function_counts(self):
        self.assertEqual(read(lib='pub mod a;', a='#[unsafe(no_mangle)]\npub extern "C" fn f() {}\nextern "C" fn g() {}\npub const fn h() {}'), ['a f', 'a h'])

    def test_an_exported_function_of_a_private_module_counts(self):
        self.assertEqual(read(lib='mod a;', a='#[unsafe(no_mangle)]\npub extern "C" fn f() requires { P } {}\npub fn g() {}'), ['a f!'])

    def test_a_private_module_hides_all_below_it(self):
        self.assertEqual(read(lib='mod a;\npub mod c;', a='pub mod b;\npub fn f() requires { P } {}', a__b='pub fn g() {}', c='fn h() {}'), [])

    def test_a_public_module_below_a_public_one_counts(self):
        self.assertEqual(read(lib='pub mod a;', a='pub mod b;\nmod c;', a__b='pub fn f() {}', a__c='pub fn g() {}'), ['a::b f'])

    def test_a_module_written_in_place_counts(self):
        self.assertEqual(read(lib='pub mod a { mod b { pub fn f() {} } pub fn g() {} }\nmod c { pub fn h() {} }'), ['a g'])


class Contracts(unittest.TestCase):
    def test_a_requires_of_several_lines_is_seen(self):
        text = 'pub fn f(xs: &[u8; 4], n: usize) -> [u8; 4]\n    ensures { result ≡ record { a = 1 } }\n    requires {\n        (n < 4)\n        × Q\n    }\n{\n    g()\n}\n'
        self.assertEqual(read(lib=text), ['lib f!'])

    def test_a_requires_with_a_name_is_seen(self):
        self.assertEqual(read(lib='pub fn f() ghost { T } ensures met { P } requires low { Q } {}\npub fn g() {}'), ['lib f!', 'lib g'])

    def test_a_requires_in_a_comment_is_none(self):
        text = '// pub fn e() requires { P } {}\npub fn f() // requires { P }\n    /* requires { P } */\n    ensures { requires } // } requires\n{ g(b"requires {", b\'{\') }\npub fn h() {}'
        self.assertEqual(read(lib=text), ['lib f', 'lib h'])

    def test_a_requires_of_another_function_is_its_own(self):
        self.assertEqual(read(lib='fn e() requires { P } {}\npub fn f() { e() }\nfn g() requires { P } {}'), ['lib f'])


class Methods(unittest.TestCase):
    def test_methods_of_a_public_type_count(self):
        text = '#[repr(C)]\npub struct S { pub n: u32 }\nimpl S {\n    // new\n    pub fn m(self) requires { P } { if x { y } }\n    fn own(self) {}\n    pub(crate) fn near(self) {}\n    pub extern "C" fn n() {}\n    pub const K: u32 = 1;\n    fn last() {}\n}'
        self.assertEqual(read(lib=text), ['lib S::m!', 'lib S::n'])

    def test_methods_of_a_type_with_a_lifetime_count(self):
        self.assertEqual(read(lib="pub struct S<'a> { xs: &'a [u8] }\nimpl<'a> S<'a> { pub fn m<'b>(x: &'b u8) {} }"), ['lib S::m'])

    def test_methods_of_a_private_type_do_not(self):
        self.assertEqual(read(lib='struct S { n: u32 }\npub(crate) enum E { A }\nimpl S { pub fn m() {} }\nimpl E { pub fn m() {} }\npub struct T(u8);'), [])

    def test_methods_in_a_private_module_do_not(self):
        self.assertEqual(read(lib='mod a;', a='pub struct S { n: u32 }\nimpl S { pub fn m() {} }'), [])

    def test_methods_of_a_trait_count_where_their_type_does(self):
        block = 'impl<const N: usize> From<u8> for S<N> {\n    ghost from_gives = { λ n s. s.n ≡ n };\n    type E = u8;\n    fn from(n: u8) -> S<N> requires { P } { S { n } }\n    fn of() {}\n}'
        self.assertEqual(read(lib='pub struct S<const N: usize> { n: u8 }\n' + block), ['lib S::from!', 'lib S::of'])
        self.assertEqual(read(lib='struct S<const N: usize> { n: u8 }\n' + block), [])

    def test_a_model_has_no_method(self):
        self.assertEqual(read(lib='pub struct S { n: u8 }\nimpl Model for S { ghost Value = { ℕ }; ghost view = { λ s. s.n }; }'), [])

    def test_a_block_may_stand_in_another_module(self):
        self.assertEqual(read(lib='pub mod a;\nmod b;', a='pub struct S { n: u32 }\nstruct T { n: u32 }', b='impl S { pub fn m() requires { P } {} pub(crate) fn near() {} }\nimpl T { pub fn m() {} }'), ['b S::m!'])

    def test_a_trait_s_functions_count_where_the_type_that_they_are_for_does(self):
        text = 'pub struct S(u8);\nstruct P(u8);\nimpl From<S> for u8 { ghost from_gives = { λ s n. n ≡ s }; fn from(s: S) -> u8 { s.0 } }\nimpl From<P> for S { fn from(p: P) -> S { S(p.0) } }\nimpl From<S> for P { fn from(s: S) -> P { P(s.0) } }'
        self.assertEqual(read(lib=text), ['lib u8::from', 'lib S::from'])

    def test_a_type_that_is_given_to_it_may_be_hidden(self):
        a, b = 'pub struct P;', 'pub struct S<T>(T);\nimpl Go for S<P> { fn go(self) requires { R } {} }\nimpl Go<P> for u8 { fn on(self) requires { R } {} }\npub fn make() -> S<P> { S(P) }'
        self.assertEqual(read(lib='mod a;\npub mod b;', a=a, b=b), ['b make', 'b S::go!', 'b u8::on!'])


class Others(unittest.TestCase):
    def test_what_is_no_function_is_passed_over(self):
        text = 'ghost use a.b.{◌≡◌};\nuse a::{b, c};\npub const T: [S; 2] = [S { n: 1 }, S { n: 2 }];\nconst U: u32 = 1;\npub type V = [u8; 4];\npub enum E { A { n: u8 }, B }\npub fn f() {}'
        self.assertEqual(read(lib=text), ['lib f'])

    def test_what_could_hide_a_function_is_refused(self):
        for text in ('pub use a::f;\nmod a {}', 'impl S { pub fn m() {} }', 'impl From<u8> for u16 { fn from(n: u8) -> u16 { n } }', 'pub struct S;\nimpl Add for S { ghost can_add = { λ a b. R }; fn add(self, o: S) -> S { o } }', 'mod a { struct S; }\nuse other::S;\npub struct Q;\nimpl From<Q> for S { fn from(q: Q) -> S requires { R } { q.s } }', 'mod a { struct S; }\nmod b { struct S; }\nimpl S { pub fn m() {} }', 'macro f() {}'):
            with self.assertRaises(Unread):
                read(lib=text)


if __name__ == '__main__':
    unittest.main()
