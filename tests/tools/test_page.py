"""tools/page: what it reads, where it puts characters and bars, and the picture as XML."""
import os
import subprocess
import sys
import unittest
import xml.etree.ElementTree as ElementTree

import paths
from page.inks import DEFAULT, ink
from page.listing import Rule, Text
from page.placing import bar, glyphs
from pictures import SVG, drawn, group, having, of, of_text, sheet, spans, tree_of
from ptoca.widths import every, read
from ptoca.words import Wrong


def characters(shown):
    return sum(len(item.characters) for item in shown.items if isinstance(item, Text))


def rules(shown):
    return [item for item in shown.items if isinstance(item, Rule)]


class Reading(unittest.TestCase):
    def test_the_documents_example(self):
        shown = sheet('example')
        self.assertEqual((shown.part, shown.items), (12, [Text(720, 480, 0, 65287, 0, 65535, b'\xC1\xC2')]))
        self.assertEqual(shown.end, {'i': 1008, 'b': 480, 'elements': 3, 'added': 18})

    def test_a_refusal(self):
        self.assertEqual(sheet('outside').refused, (27, 6))

    def test_jobs_among_replays_other_lines(self):
        first, second = of(paths.listing('job'))
        self.assertEqual((first.key, first.open, second.open), (17, 1, 0))
        self.assertEqual((first.end['margin'], first.end['next'], first.descriptor['hidden']), (720, 3, 5))

    def test_a_job_tells_what_was_taken_or_is_of_an_edition_without(self):
        line = paths.listing('job').splitlines()[4]
        self.assertEqual([of(f'{row}\nEND\n')[0].end['taken'] for row in (line, f'{line} 7580')], [0, 7580])
        self.assertEqual(of(f'{line} 7580\nEND\n')[0].end['used'], 51)
        for wrong in (line.rsplit(' ', 1)[0], f'{line} 7580 1', f'{line} 4294967296', f'{line} -1'):
            self.assertRaises(Wrong, of, f'{wrong}\nEND\n')

    def test_what_is_no_listing_is_refused(self):
        for wrong in ('PART 1\n', 'PART x\nEND 0 0 0 0\n', 'PART 1\nT 1 2\nEND 0 0 0 0\n', 'PART 1\nR 1 2 0 0 1\nEND 0 0 0 0\n', 'JOB 1 2\nEND\n', 'PART 1\nPART 1\n'):
            self.assertRaises(Wrong, of, wrong)


class Placing(unittest.TestCase):
    def places(self, record, widths=None):
        return [(glyph.i, glyph.width) for glyph in glyphs(record, widths or every())]

    def test_widths_add_up(self):
        self.assertEqual(self.places(Text(720, 480, 0, 0, 0, 65535, b'\xC1\x40\xC2')), [(720, 144), (864, 144), (1008, 144)])

    def test_the_variable_space_is_that_of_40(self):
        self.assertEqual(self.places(Text(0, 0, 0, 0, 0, 256, b'\xC1\x40\xC2')), [(0, 144), (144, 256), (400, 144)])

    def test_a_variable_space_of_0_is_one(self):
        self.assertEqual(self.places(Text(0, 0, 0, 0, 0, 0, b'\x40\xC2')), [(0, 0), (0, 144)])

    def test_the_adjustment_is_signed(self):
        self.assertEqual(self.places(Text(0, 0, 0, 0, -20, 65535, b'\xC1\xC2')), [(0, 144), (124, 144)])

    def test_each_font_has_its_row(self):
        table = every()
        table[256 * 2 + 0xC1] = 300
        self.assertEqual(self.places(Text(0, 0, 2, 0, 0, 65535, b'\xC1\xC1'), table), [(0, 300), (300, 300)])

    def test_dir_lies_along_i_and_dbr_along_b(self):
        self.assertEqual((bar(Rule(0, 0, 0, 0, 50, 3)), bar(Rule(0, 0, 1, 0, 50, 3))), ((50, 3), (3, 50)))


class Picture(unittest.TestCase):
    def test_as_many_letters_and_bars_as_the_listing_has(self):
        for name in ('c-table', 'payroll', 'example'):
            tree, shown = group(drawn(name), 'items'), sheet(name)
            self.assertEqual(len(spans(tree)) + len(having(tree, 'g', 'glyph')), characters(shown))
            self.assertEqual(len(having(tree, 'rect', 'rule')) + len(having(tree, 'path', 'rule')), len(rules(shown)))

    def test_letters_stand_at_their_places(self):
        self.assertEqual(spans(drawn('example')), [(720, 480, 'A'), (864, 480, 'B')])
        letters = spans(drawn('payroll'))
        self.assertEqual(letters[:3], [(1440, 1617, 'P'), (1584, 1617, 'A'), (1728, 1617, 'Y')])
        self.assertEqual(letters[-1], (1440 + 9 * 144, 7377, 'N'))

    def test_bars_stand_at_their_places(self):
        first, second = having(drawn('c-table'), 'rect', 'rule')[:2]
        self.assertEqual([first.get(key) for key in ('x', 'y', 'width', 'height')], ['1438', '1438', '1442', '5'])
        self.assertEqual([second.get(key) for key in ('x', 'y', 'width', 'height')], ['2878', '1440', '5', '376'])
        self.assertEqual(first.get('fill'), DEFAULT)

    def test_a_job_with_adjustment_space_margin_and_a_bare_rule(self):
        tree = drawn('job')
        self.assertEqual(spans(tree), [(1440, 720, 'A'), (1564, 720, ' '), (1800, 720, 'B')])
        self.assertEqual(len(having(group(tree, 'items'), 'path', 'bare')), 1)
        self.assertEqual([line.get('x1') for line in having(group(tree, 'guides'), 'line', 'margin')], ['720'])

    def test_of_a_rule_with_no_ink_nothing_is_drawn(self):
        tree = of_text(paths.text('..', 'listing', '180', 'no-ink-chained.out'))
        self.assertEqual([node.get('height') for node in having(group(tree, 'items'), 'rect', 'rule')], ['14', '11'])
        self.assertEqual((len(group(tree, 'items')), having(tree, 'path', 'bare')), (2, []))

    def test_the_viewbox_is_in_units_and_the_size_in_inches(self):
        tree = drawn('example')
        left, top, width, height = map(int, tree.get('viewBox').split())
        self.assertEqual((left, top, width, height), (-720, -720, 13680, 18098))
        self.assertEqual((tree.get('width'), tree.get('height')), ('9.5in', '12.57in'))

    def test_the_code_page_changes_letters(self):
        self.assertEqual([char for _, _, char in spans(drawn('example', '1252'))], ['Á', 'Â'])

    def test_what_xml_reserves_is_escaped(self):
        tree = tree_of(of('PART 1\nT 0 0 0 65287 0 65535 4C506E7F\nEND 576 0 1 20\n')[0], name='<a & b>')
        self.assertEqual([char for _, _, char in spans(tree)], ['<', '&', '>', '"'])
        self.assertEqual(having(tree, 'text', 'name')[0].text, '<a & b>')

    def test_bytes_without_a_form_are_boxes(self):
        tree = of_text('PART 1\nT 0 0 0 65287 0 65535 C100FF\nEND 432 0 1 19\n')
        self.assertEqual([node.find(SVG + 'text').text for node in having(tree, 'g', 'glyph')], ['00', 'FF'])

    def test_a_text_of_no_characters(self):
        tree = of_text('PART 1\nT 0 0 0 65287 0 65535 -\nEND 0 0 1 16\n')
        self.assertEqual(spans(tree), [])

    def test_every_byte_of_every_code_page_is_well_formed(self):
        every_byte = bytes(range(256)).hex().upper()
        shown = of(f'PART 258\nT 0 0 0 65287 0 65535 {every_byte}\nEND 0 0 1 272\n')[0]
        for code_page in ('500', '1252'):
            tree = tree_of(shown, code_page)
            self.assertEqual(len(spans(tree)) + len(having(tree, 'g', 'glyph')), 256)


class Inks(unittest.TestCase):
    def test_the_hubs_three_colours_are_the_devices_default(self):
        self.assertEqual({ink(0), ink(0xFF00), ink(0xFF07)}, {DEFAULT})

    def test_named_colours(self):
        self.assertEqual((ink(2), ink(0xFF02), ink(16)), ('#ff0000', '#ff0000', '#903000'))


class Command(unittest.TestCase):
    def run_page(self, *words, given=''):
        return subprocess.run([sys.executable, '-B', os.path.join(paths.TOOLS, 'page'), *words], input=given, capture_output=True, text=True, check=False)

    def test_the_stored_picture_is_what_the_tool_draws(self):
        part = paths.real('c-table-p01o01x01.part')
        made = self.run_page('--increment', '180', '--part', part, given=paths.listing('c-table'))
        with open(os.path.join(paths.ROOT, 'docs', 'page.svg'), encoding='utf-8') as file:
            self.assertEqual(made.stdout, file.read())

    def test_widths_and_code_page_are_taken(self):
        made = self.run_page('--widths', paths.real('statement-p01.widths'), '--codepage', '1252', given=paths.listing('example'))
        table = read(paths.real('statement-p01.widths'))
        self.assertEqual(spans(ElementTree.fromstring(made.stdout.encode())), [(720, 480, 'Á'), (720 + table[0xC1], 480, 'Â')])


if __name__ == '__main__':
    unittest.main()
