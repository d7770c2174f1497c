"""In the specs that must be believed a name has one meaning; and the reader of names, on texts made up for each rule."""
import unittest

from meanings import clashes, given, trusted, used

TEXT = '''-- a file: of two words
use Rattle.std.specs.Prelude.{length, take as front}
use Rattle.part.specs.Numbers.{byte}
infix 40 ◌takes◌

pub data Kind (A : Type 0) : Type 0 where
  -- plain : not this
  plain : A → Kind A
  both : (one other : A) → Kind A

pub record Row (n : ℕ) : Type 0 where
  pub first second : ℕ
  pub third : (k : ℕ) →
      k < n

abbrev pub ◌takes◌ : {A : Type 0} → Row 1 → Bool
r takes n = let local : ℕ = n in local  -- inner : ℕ

module _ (n : ℕ) where
  unfoldable pub within : ℕ → ℕ
  within k = helped k
    where
      helped : ℕ → ℕ
      helped k = k

private : ℕ
private = 0

pub row-holds : within 1 2 ≡ 2
unfolding within
row-holds = refl
'''


class Read(unittest.TestCase):
    def test_names_are_read_with_kind_and_line(self):
        self.assertEqual([tuple(name) for name in given(TEXT)], [
            ('Kind', 'data', 6), ('plain', 'constructor', 8), ('both', 'constructor', 9),
            ('Row', 'record', 11), ('first', 'field', 12), ('second', 'field', 12), ('third', 'field', 13),
            ('◌takes◌', 'definition', 16), ('within', 'definition', 20), ('private', 'definition', 26), ('row-holds', 'definition', 29)])

    def test_the_kit_s_names_are_read_as_the_file_calls_them(self):
        self.assertEqual([(name.name, name.line) for name in used(TEXT)], [('length', 2), ('front', 2)])


class Clash(unittest.TestCase):
    def names(self, *texts):
        return [row.split(':')[0] for row in clashes({str(k): text for k, text in enumerate(texts)})]

    def test_two_definitions(self):
        self.assertEqual(clashes({'a': 'pub f : ℕ\nf = 0', 'b': '\nabbrev pub f : ℕ'}), ['f: definition a:1, definition b:2'])
        self.assertEqual(self.names('module _ (n : ℕ) where\n  pub f : ℕ\n\nmodule _ (k : ℕ) where\n  pub f : ℕ'), ['f'])

    def test_a_type_and_a_constructor(self):
        self.assertEqual(self.names('pub record A : Type 0 where\n  pub n : ℕ', 'pub data B : Type 0 where\n  A : B'), ['A'])

    def test_a_constructor_and_a_definition(self):
        self.assertEqual(self.names('pub data B : Type 0 where\n  a : B', 'pub a : ℕ'), ['a'])

    def test_a_field_may_share_its_name(self):
        field = 'pub record A : Type 0 where\n  pub n : ℕ'
        self.assertEqual(self.names(field, 'pub record B : Type 0 where\n  pub n : ℕ'), [])
        self.assertEqual(self.names(field, 'pub n : ℕ'), [])
        self.assertEqual(self.names(field, 'pub n : ℕ', 'pub data B : Type 0 where\n  n : B'), ['n'])

    def test_a_field_like_the_kit_s(self):
        self.assertEqual(clashes({'a': 'pub record A : Type 0 where\n  pub length : ℕ'}), ["length: field a:2, the kit's length"])

    def test_a_definition_like_a_name_of_the_kit_that_another_file_uses(self):
        self.assertEqual(self.names('use Rattle.std.proofs.lemmas.List.Edits.{sets}', 'use Rattle.part.specs.A.{g}\npub sets : ℕ\npub g : ℕ'), ['sets'])
        self.assertEqual(self.names('use Rattle.std.proofs.lemmas.List.Edits.{sets as put}', 'pub sets : ℕ'), [])


class Trusted(unittest.TestCase):
    def test_the_tables_are_read(self):
        self.assertIn('crates/part/specs/Numbers.antt', trusted())
        self.assertIn('crates/part/specs/Code.antt', trusted())

    def test_a_name_has_one_meaning(self):
        found = clashes(trusted())
        if found:
            self.fail('\n'.join(['these names have two meanings:', *found]))


if __name__ == '__main__':
    unittest.main()
