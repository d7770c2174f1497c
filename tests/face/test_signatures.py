"""The header declares every exported function as the sources mean it; and the reader of both, on texts made up for it."""
import unittest

from face import Unread
from signatures import declared, exported, of_header, of_sources


class Signatures(unittest.TestCase):
    def test_the_header_is_the_sources(self):
        self.maxDiff = None
        self.assertEqual(of_header(), of_sources())

    def test_open_and_close_are_lent_the_number_by_its_address(self):
        for name in ('halviruso_open', 'halviruso_close'):
            self.assertEqual(of_header()[name][1:4], ['halviruso_entry *', 'size_t', 'uint32_t *'], name)

    def test_a_take_is_given_its_total_with_64_bits(self):
        self.assertEqual(of_header()['halviruso_take'][-3:], ['uint32_t', 'uint32_t', 'uint64_t'])


class Reading(unittest.TestCase):
    def test_what_is_lent(self):
        source = 'pub extern "C" fn f(t: &mut [Entry], n: &mut u32, p: &[u8], d: Descriptor, k: u16, m: u64,) -> Answer {}\nfn g() {}\nextern "C" fn h() -> u32 {}'
        header = '''/* halviruso_no f(int); */
            halviruso_answer halviruso_f(halviruso_entry *table, size_t table_length, uint32_t *n, const uint8_t *p,
                                         size_t p_length, halviruso_descriptor d, uint16_t k, uint64_t m);
            uint32_t halviruso_h(void);'''
        taken = ['halviruso_answer', 'halviruso_entry *', 'size_t', 'uint32_t *', 'const uint8_t *', 'size_t', 'halviruso_descriptor', 'uint16_t', 'uint64_t']
        self.assertEqual(exported(source), {'f': taken, 'h': ['uint32_t']})
        self.assertEqual(declared(header), {'halviruso_f': taken, 'halviruso_h': ['uint32_t']})

    def test_a_number_is_not_its_address(self):
        by_address, by_value = (exported(f'extern "C" fn f(n: {how}) -> u32 {{}}') for how in ('&mut u32', 'u32'))
        self.assertNotEqual(by_address, by_value)

    def test_what_c_is_not_told_of_is_refused(self):
        for text in ('extern "C" fn f(n: usize) -> u32 {}', 'extern "C" fn f(n: u32) {}', 'extern "C" fn f(n: &[[u8; 4]]) -> u32 {}'):
            with self.assertRaises(Unread):
                exported(text)


if __name__ == '__main__':
    unittest.main()
