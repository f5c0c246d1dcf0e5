"""Mistakes that people make: one change in an example. What calyx_cli tells stays, and behind it stands what leads to the change."""
import os
import unittest

import common

# The example, what stands there, what is written in its place (each of two one line or more), how the line of calyx_cli begins, and what the explanation has to say.
TEXT = [
    ('add_three', 'r.in = mem.read_data;', 'r.in = mem.read_data', 'refused ', ['a `;` is missing here, behind `read_data`']),
    ('histogram', 'below = std_lt(5)', 'below = std_less(5)', 'refused 13:5 unknown-primitive std_less', ['`std_less` is neither a primitive', '`std_le` or']),
    ('histogram', '          load;', '          lode;', 'refused 57:11 unknown-name lode', ['there is no group `lode`', 'is `load` meant?']),
    ('histogram', 'shift.left = ', 'shift.lft = ', 'refused 30:7 unknown-name shift.lft', ['`shift` has no port `lft`; is `left` meant?', 'its ports: left, right, out']),
    ('histogram', 'next.right = 5\'d1', 'next.right = 4\'d1', 'refused ', ["`next.right` has 5 bits, and `4'd1` has 4 bits", "`5'd1` has the width of the other side"]),
    ('histogram', 'seq_mem_d1(8, 16, 5)', 'seq_mem_d1(8, 16, 4)', 'refused ', ['`samples.addr0` has 4 bits, and `i.out` has 5 bits', '`samples = seq_mem_d1(8, 16, 5)`: addresses of 5 bits reach its 16 words']),
    ('histogram', '      clear[done] = i.done;\n', '', 'refused 19:5 no-done clear', ['it writes i: `clear[done] = i.done;`']),
    ('histogram', 'bins.addr0 = bin.out;', 'bins.addr0 = bin.out; i.in = 5\'d1; i.write_en = 1\'d1;', 'refused 58:11 race i', ['arm 0 (`count`, line 58) drives it in group `count`', 'arm 1 (`advance`, line 58) drives it']),
    ('dot_product', 'sum.left = total.out;', 'sum.left = sum.out;', 'refused ', ['a circle in component `main` with group `accumulate`', '`sum.left` <- `sum.out`']),
    ('histogram', '@external samples', '@external i2 = std_reg(5); @external samples', 'refused ', ['`@external` is for a `std_mem`', 'stands on `std_reg(5)`']),
    ('shared_call', 'seq {\n      read_a;', 'seq {\n      is_greater; read_a;', 'refused ', ['there is no group `is_greater`']),
    ('histogram', '      clear;', '      in_range; clear;', 'refused 54:7 left-out in_range', ['`in_range` is a `comb group` (line 47)', 'control cannot enable it']),
    ('histogram', 'below.left = i.out;', 'below.left = i.out; i.write_en = 1\'d1;', 'refused ', ['driven in comb group `in_range`, which computes for one test']),
    ('histogram', '  wires {', '  wires { i.write_en = 1\'d1;', 'refused ', ['`i.write_en` would be driven in every cycle']),
    ('histogram', 'bin.in = shift.out', 'bin.in = shift.left', 'refused ', ['`shift.left` is an input, and is read here', 'inputs left, right; outputs out']),
    ('histogram', 'bin.in = shift.out', 'shift.out = shift.out', 'refused ', ['`shift.out` is an output, and is driven here']),
    ('histogram', '    }\n  }\n}', '    }\n  }\n', 'refused ', ['the text ends here, with a `{` that is still open, of line 7']),
    ('histogram', 'component main', 'component top', 'refused 1:1 no-main', ['no component is named `main`; there are `top`']),
    ('static_pipeline', 'static repeat 7', 'repeat 7', 'refused ', ['`repeat 7` is dynamic, and stands in static control', '`static repeat`']),
    ('static_pipeline', 'static seq {\n      read;', 'static<30> seq {\n      read;', 'refused ', ['`static<30> seq` has 33 cycles, and not 30', 'the sum of read 1, static par 3, static repeat 7 28, write 1']),
    ('static_pipeline', "pipe.go = 1'd1", "pipe.go = %[0:4] ? 1'd1", 'refused ', ['`%[0:4]` is beyond the cycles of group `multiply`, which has 3: 0 to 2']),
    ('call_tree', 'sums(x = a.out, y = b.out)', 'sums(x = a.out, z = b.out)', 'refused ', ['`sums` has no port `z`', 'with the ports go, x, y, sum, done']),
    ('call_tree', '(sum = c.in)', '(sum = result.write_data)', 'refused ', ['an output of an invoke goes to `r.in` of a `std_reg`, and `result.write_data` is none']),
    ('call_tree', 'invoke second(of = y)', 'invoke first(of = y)', 'refused ', ['meet at `first`', 'give each arm a cell of its own: `first_1 = square();`']),
    ('call_tree', 'sum = total.out;', 'sum = plus.out;', 'refused ', ['`sum` rests on `plus.out`, which is no state', '`plus.left` is driven in line 57 by group `add`']),
    ('call_tree', 'pipe = std_mult_pipe(32);', 'pipe = std_mult_pipe(32); again = square();', 'refused ', ['`square` has a cell of `product` has a cell of `square`']),
    ('histogram', 'i = std_reg(5);', 'i = std_reg(5); i = std_reg(5);', 'refused ', ['`i` stands here again', 'it is declared here first']),
    ('histogram', 'more.right = 32\'d1;', 'more.right = i.out ? 32\'d1;', 'refused ', ['`i.out` stands by itself in a guard or as a condition, and has 5 bits', "`i.out != 5'd0`"]),
    ('histogram', 'more.right = 32\'d1;', 'more.right = i.out = 5\'d1 ? 32\'d1;', 'refused ', ['in a guard equality is `==`']),
    ('histogram', "shift.right = 8'd6", 'shift.right = 6', 'refused ', ["`6` has no width", "`8'd6`"]),
    ('histogram', "i.in = 5'd0", "i.in = 5'd32", 'refused ', ["32 does not fit in 5 bits: `5'd32` is 0 to 31"]),
    ('histogram', 'clear[done] = i.done', "clear[done] = 1'd1", 'refused ', ['`clear[done]` is 1 from the first turn on', '`clear[done] = i.done;`']),
    ('histogram', 'clear[done] = i.done', 'clear[done] = below.out', 'refused ', ['`clear[done]` rests on `below.out`, which is no state']),
    ('histogram', '  cells {', '  cells { # names', 'refused 8:11 bad-byte', ['a `#` begins nothing here', 'a comment begins with `//`']),
    ('histogram', 'std_slice(8, 2)', 'std_slice(8 2)', 'refused ', ['a `,` or a `)` is missing here, behind `8`']),
    ('histogram', 'more = std_add(32)', 'more = std_add(256)', 'refused ', ['`std_add(256)`: WIDTH is 256', 'a width is 1 to 128']),
    ('histogram', 'more = std_add(32)', 'more = std_add()', 'refused ', ['`std_add` takes 1 numbers', 'and 0 stand here']),
    ('histogram', 'more = std_add(32);', 'more = std_add(32); repeat = std_reg(1);', 'refused ', ['`repeat` is a word of the language']),
    ('histogram', 'more = std_add(32);', 'more = std_add(32); far = std_mem_d1(8, 5000000, 23);', 'refused 7:1 limit words', ['at most 4,194,304 words', '5,000,000 words']),
    ('histogram', '// Counts', '/* Counts', 'refused 1:1 open-comment', ['this comment has no end']),
    ('histogram', "shift.right = 8'd6", "shift.right = 8'q6", 'refused ', ['`q` is no base']),
    ('histogram', 'clear;\n', 'clear; } else { clear;\n', 'refused ', ['unexpected']),
]
RUNS = [
    ('dot_product', '      sum.right = product.out;\n', '', 'fault undefined total.in ', ['nothing drives `sum.right`', 'drive `sum.right` in `accumulate`', 'group accumulate goes (line 37; enabled in line 67)']),
    ('histogram', 'while below.out with in_range', 'while below.out', 'fault undefined below.out ', ['`while below.out with in_range`', 'this test has no `with`']),
    ('add_three', "mem.addr0 = 1'd0;\n      mem.write_data", "mem.addr0 = 1'd1;\n      mem.write_data", 'fault range mem.addr0 ', ['mem.addr0 is 1, and `mem` has 1 word there', 'group write goes']),
    ('histogram', "next.right = 5'd1", "next.right = 5'd0", 'more 2000', ['the run has not ended after 2000 turns', 'control is in `while below.out`', '`i.out` (now 0; written in the loop by']),
    ('histogram', "      samples.content_en = 1'd1;\n", '', 'more 2000', ['group `load` waits for `samples.done`, and does not drive `samples.content_en`']),
    ('sorting_network', '!swap_0_1.out ? w0.out', 'w0.out', 'fault conflict w0.in ', ['is driven with different values', 'let the guards exclude each other']),
    ('call_tree', 'sums(x = a.out, y = b.out)', 'sums(x = a.out)', 'fault undefined sums.second.times.pipe.left ', ['nothing drives `sums.y`', 'this invoke does not bind `y`']),
    ('state_machine', "state.in = bits.read_data == 1'd0 & state.out != 2'd1 ? 2'd0;", '', 'fault undefined state.in ', ['nothing drives `state.in`', 'its guard is 0 in this turn']),
]


def changed(name, old, new):
    text = common.example(f'{name}.futil')
    assert old in text, (name, old)
    return text.replace(old, new, 1)


class Mistakes(unittest.TestCase):
    def test_refusals(self):
        for name, old, new, begins, said in TEXT:
            with self.subTest(f'{name}: {new}'), common.Folder(d__futil=changed(name, old, new)) as folder:
                status, out, told = common.calyx('check', 'd.futil', folder=folder)
                self.assertEqual((status, out), (2, ''))
                self.assertTrue(told.startswith(begins), told)
                self.assertIn('\nd.futil:', told)
                for part in said:
                    self.assertIn(part, told)

    def test_faults(self):
        for name, old, new, begins, said in RUNS:
            files = {'d__futil': changed(name, old, new), 'd__json': common.example(f'{name}.json')}
            with self.subTest(f'{name}: {new}'), common.Folder(**files) as folder:
                status, out, told = common.calyx('run', 'd.futil', 'd.json', '2000', folder=folder)
                self.assertEqual((status, out), (3 if begins.startswith('more') else 4, ''))
                self.assertTrue(told.startswith(begins), told)
                for part in said:
                    self.assertIn(part, told)

    def test_what_is_told_first_is_the_line_of_the_program(self):
        path = os.path.join(common.EXAMPLES, 'add_three')
        status, out, told = common.calyx('run', f'{path}.futil', f'{path}.json', '5')
        self.assertEqual((status, out), (3, ''))
        self.assertTrue(told.startswith('more 5\n'), told)
        self.assertIn('group write is done: its last turn', told)


if __name__ == '__main__':
    unittest.main()
