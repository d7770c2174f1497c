"""The parameter that a refusal names: by the offset that the library gives, in every place that a sequence can have."""
import unittest

import paths
from library.loaded import Loaded
from library.served import Served
from library.shapes import AREA, Descriptor
from ptoca.cutting import element_with
from ptoca.sequences import SEQUENCES, parameter_at
from ptoca.sheet import INCREMENT, descriptor as sheet_at
from ptoca.widths import every

# for each parameter a sequence in which it is the first at fault, from LENGTH on
FAULTY = {
    'AMI displacement': '04C68000', 'AMB displacement': '04D2FFFF', 'SIM margin': '04C08000', 'SBI increment': '04D0FFFE',
    'SIA amount': '05C2100002', 'SIA direction': '05C2FFFF02', 'SVI space': '04C41000', 'SCFL font': '03F004', 'STC colour': '0574000100',
    'STO I-axis': '06F62D000000', 'STO B-axis': '06F6FFFF0000', 'BSU id': '03F200', 'ESU id': '03F480', 'DIR length': '07E4800000C100',
    'DIR width': '07E47FFF00C100', 'DBR length': '04E68000', 'DBR width': '07E60000FFFF00', 'RPS count': '05EE8000C1',
}
# faults of another kind, with the same places
MORE = [('DIR width', '07E40000000E01'), ('RPS count', '04EE0001'), ('SCFL font', '03F0FE'), ('SIA amount', '04C28000')]
NEVER = ['RMI increment', 'RMB increment', 'STC precision', 'NOP data']
# what may stand before a sequence and behind it, and where it begins then
AROUND = [('2BD3', '', 0), ('C1C22BD3', 'C3', 2), ('2BD302D9', '', 4), ('C12BD304C7000102D9', '2BD302D8', 9), ('C1' * 13 + '2BD3', 'C1' * 20, 13)]


class Named(unittest.TestCase):
    def library(self):
        return Loaded(paths.STANDIN)

    def refused(self, library, part):
        descriptor = Descriptor(**sheet_at(INCREMENT))
        _, state = library.opened(descriptor)
        answer, _ = library.interpret(part, every(), bytearray(AREA), descriptor, state)
        return answer

    def test_the_offset_is_where_the_parameter_begins(self):
        library = self.library()
        for name, sequence in [*FAULTY.items(), *MORE]:
            for before, behind, at in AROUND:
                part = bytes.fromhex(before + sequence + behind)
                answer = self.refused(library, part)
                element = element_with(part, answer.first)
                said = (answer.code, element.at, parameter_at(element, answer.first))
                self.assertEqual(said, (25 if name == 'SCFL font' else 24, at, name), part.hex())


class NamedByTheLibrary(Named):
    def library(self):
        host = Served([*paths.RUN.split(), paths.LIBRARY])
        self.addCleanup(host.close)
        return host


class Table(unittest.TestCase):
    def test_every_parameter_is_tried(self):
        names = [f'{sequence.mnemonic} {parameter.name}' for sequence in SEQUENCES.values() for parameter in sequence.parameters]
        self.assertEqual(sorted(names), sorted([*FAULTY, *NEVER]))

    def test_any_other_byte_is_no_parameters_first(self):
        part = bytes.fromhex('C12BD305C3000100' + '07E40001000E00' + '2BD305EE0001C1' + '2BD303720000' + '2BD304E60001' + '2BC1')
        named = {at: name for at in range(len(part)) if (name := parameter_at(element_with(part, at), at))}
        self.assertEqual(named, {5: 'SIA amount', 7: 'SIA direction', 10: 'DIR length', 12: 'DIR width', 19: 'RPS count', 32: 'DBR length'})


if __name__ == '__main__':
    unittest.main()
