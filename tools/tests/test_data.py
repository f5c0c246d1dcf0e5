"""What is told of data files: the place, and what is wrong there."""
import unittest

import common

GOOD = '{"mem": {"data": [5], "format": {"numeric_type": "bitnum", "is_signed": false, "width": 32}}}'
CASES = [
    ('}}}', '}},}', 'data not-json', '1:93: error: a `,` stands before `}`'),
    ('"mem"', "'mem'", 'data not-json', "1:2: error: a string stands between"),
    ('false', 'False', 'data not-json', '`False` is no word of JSON'),
    ('[5], ', '[5] ', 'data not-json', 'a `,` is missing here'),
    ('}}}', '}', 'data not-json', 'the text ends here, with 2 brackets still open'),
    (GOOD, '[1]', 'data not-json', 'the file holds a list'),
    ('"mem"', '"men"', 'data missing mem', 'there is no memory `mem` (line 5 of the design'),
    ('"format"', '"form"', 'data bad-format mem', '`mem` has no `format`'),
    ('bitnum', 'fixed_point', 'data bad-format mem', '`numeric_type` is "fixed_point", and only `"bitnum"` is read'),
    ('false', '0', 'data bad-format mem', '`is_signed` is neither `true` nor `false`'),
    ('32', '16', 'data width-differs mem', '`width` is 16, and the memory `mem` has 32'),
    ('[5]', '[5, 6]', 'data bad-shape mem', 'this list has 2, and 1 are wanted'),
    ('[5]', '[[5]]', 'data bad-shape mem', 'a list stands where a word does'),
    ('[5]', '[4294967296]', 'data out-of-range mem 0', '4294967296 is no word of 32 bits without a sign: 0 to 4294967295'),
    ('[5]', '[-1]', 'data out-of-range mem 0', '`"is_signed": true`'),
    ('[5]', '[5.0]', 'data out-of-range mem 0', 'a word is an integer without a point'),
]


class Data(unittest.TestCase):
    def test_faults_of_data_files(self):
        for old, new, begins, said in CASES:
            with self.subTest(new), common.Folder(d__futil=common.example('add_three.futil'), d__json=GOOD.replace(old, new, 1)) as folder:
                status, out, told = common.calyx('run', 'd.futil', 'd.json', '100', folder=folder)
                self.assertEqual((status, out), (2, ''))
                self.assertTrue(told.startswith(begins), told)
                self.assertIn(said, told)
                self.assertIn('d.json:', told)


if __name__ == '__main__':
    unittest.main()
