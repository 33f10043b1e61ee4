"""Tests of the tools. Some run the program, which is out/beliefdb or what the environment variable BELIEFDB names."""
import os
import subprocess
import sys
import tempfile
import unittest

import check_pages
from bsql import pieces_of, values_of

TOOLS = os.path.dirname(os.path.abspath(__file__))
ENVIRONMENT = {**os.environ, 'PATH': f'{os.path.dirname(sys.executable)}:/usr/bin:/bin', 'PYTHONDONTWRITEBYTECODE': '1'}


def run(words, text=''):
    """The status, the output and the errors of a command."""
    done = subprocess.run(words, input=text.encode(), stdout=subprocess.PIPE, stderr=subprocess.PIPE, env=ENVIRONMENT)
    return done.returncode, done.stdout.decode(), done.stderr.decode()


def tool(name, *words, text=''):
    return run([sys.executable, f'{TOOLS}/{name}.py', *words], text)


def program(text, *words):
    """What the program answers to a script."""
    path = check_pages.program_path()
    if not os.path.exists(path):
        raise AssertionError(f'no program at {path}: make it by bench/unproved.py out/beliefdb')
    return run([path, *(words or ['run'])], text)[1]


class Pages(unittest.TestCase):
    def test_pages_print_what_the_program_does(self):
        program('')
        wrong, count = check_pages.check(check_pages.PAGES, check_pages.program_path())
        self.assertEqual([], wrong)
        self.assertGreater(count, 40)

    def check_page(self, text):
        program('')
        with tempfile.TemporaryDirectory() as folder:
            with open(f'{folder}/page.md', 'w', encoding='utf-8') as it:
                it.write(text)
            return check_pages.check([os.path.relpath(f'{folder}/page.md', check_pages.ROOT)], check_pages.program_path())[0]

    def test_a_wrong_reply_is_found(self):
        page = "<!-- try\n$ beliefdb run\ncreate user 'A';\nok\n-->\ntext\n```console\nselect U.name from\nUsers U;\n'A'\nok 1\n```\n"
        self.assertEqual([], self.check_page(page))
        self.assertIn('+ok 1', self.check_page(page.replace('ok 1', 'ok 2')))
        self.assertIn("+'A'", self.check_page(page.replace("'A'\nok 1", "'B'\nok 1")))
        with self.assertRaises(ValueError):
            self.check_page(page.replace('console', 'sql'))

    def test_each_tool_has_a_page_of_help(self):
        for name in ('to_bsql', 'to_csv', 'explain_errors', 'draw', 'check_pages'):
            status, text, _ = tool(name, '--help')
            self.assertEqual((0, True), (status, len(text) > 400), name)


class Script(unittest.TestCase):
    def test_pieces_are_those_of_the_program(self):
        pieces = pieces_of("a 'x;''y'; -- it's; \n;\n b--;\n'z\n;';c")
        self.assertEqual([("a 'x;''y'", 1, True), ("b\n'z\n;'", 3, True), ('c', 5, False)],
                         [(it.code.strip(), it.line, it.ended) for it in pieces])
        self.assertEqual([4], pieces[1].open_texts)

    def test_values_are_read_back(self):
        self.assertEqual(["O'Brien, Ann", -7, ''], values_of("'O''Brien, Ann', -7, ''"))
        self.assertIsNone(values_of('ok 1'))


class ToBsql(unittest.TestCase):
    def convert(self, text, *words):
        return tool('to_bsql', '-', '--relation', 'R', *words, text=text)

    def test_rows_become_inserts_that_are_accepted(self):
        text = 'k,Jahr,v\na,-5,"it\'s, so"\nb,007,é\n'
        status, script, _ = self.convert(text, '--columns', 'k,year=Jahr,v', '--int', 'year', '--create')
        self.assertEqual(0, status)
        self.assertEqual("create relation R(k text, year int, v text);\ninsert into R values('a', -5, 'it''s, so');\n"
                         "insert into R values('b', 7, 'é');\n", script)
        self.assertEqual('ok\nok 1\nok 1\n', program(script))

    def test_curators_denials_and_keys(self):
        _, script, _ = self.convert('who,a,b\nAnna,x,y\n,x,z\n', '--by', 'who', '--users', '--create',
                                    '--key', '2', '--not', '--belief', 'Ben')
        self.assertEqual(["create user 'Ben';", "create user 'Anna';", 'create relation R(a text, b text) key 2;',
                          "insert into BELIEF 'Ben' BELIEF 'Anna' not R values('x', 'y');",
                          "insert into BELIEF 'Ben' not R values('x', 'z');"], script.splitlines())
        self.assertEqual('ok\nok\nok\nok 1\nok 1\n', program(script))

    def test_batches_for_many(self):
        text = 'a\n' + ''.join(f'{it}\n' for it in range(130))
        _, script, _ = self.convert(text, '--create', '--many', '3')
        self.assertEqual(1 + 130 + 2 * 3, len(script.splitlines()))
        self.assertTrue(program(script, 'many').endswith('3: committed 2\n'))

    def test_what_is_wrong_is_told_with_row_and_column(self):
        cases = [('a,n\nx,1.5\n', ['--int', 'n'], "row 2, column n: '1.5' is no whole number"),
                 ('a,n\nx,9223372036854775808\n', ['--int', 'n'], 'row 2, column n: 9223372036854775808 leaves 64 bits'),
                 ('a\nx\n' + 'y' * 256 + '\n', [], 'row 3, column a: 256 bytes'),
                 ('a\n"x\ny"\n', [], 'row 2, column a: a line break'),
                 ('a,b\nx,y\nx,z\n', [], "row 3: another row with the key 'x' is row 2"),
                 ('a,b\nx\n', [], 'row 2: 1 cells are too few'),
                 ('select\nx\n', [], "'select' is a word of the language"),
                 ('sheet no\nx\n', [], "'sheet no' is no name"),
                 ('a\n', ['--columns', 'b'], "no column is headed 'b'"),
                 ('a\n' + ''.join(f'{it}\n' for it in range(4001)), [], '4001 different rows')]
        for text, words, problem in cases:
            status, script, errors = self.convert(text, *words)
            self.assertEqual((1, ''), (status, script))
            self.assertIn(problem, errors)

    def test_rows_with_an_empty_cell_can_be_left_out(self):
        _, script, errors = self.convert('a,b\nx,\ny,z\n', '--skip-empty')
        self.assertEqual("insert into R values('y', 'z');\n", script)
        self.assertIn('1 rows', errors)

    def test_an_empty_text_is_told(self):
        status, script, errors = self.convert('a,b\nx,\ny,z\n')
        self.assertEqual((0, "insert into R values('x', '');\ninsert into R values('y', 'z');\n"), (status, script))
        self.assertIn('1 empty cells became empty texts', errors)

    def test_rows_of_another_csv_are_left_out(self):
        with tempfile.TemporaryDirectory() as folder:
            with open(f'{folder}/list.csv', 'w', encoding='utf-8') as it:
                it.write('n,who,Nr\n07,X,a\n,X,b\n8\n')
            known = ['--except', f'{folder}/list.csv', '--columns', 'k=Nr,n', '--int', 'n']
            text = 'by,Nr,n\nAnna,a,7\nBen,a,8\nBen,b,9\n'
            _, script, errors = self.convert(text, '--by', 'by', '--users', *known)
            self.assertEqual(["create user 'Anna';", "create user 'Ben';", "insert into BELIEF 'Ben' R values('a', 8);",
                              "insert into BELIEF 'Ben' R values('b', 9);"], script.splitlines())
            self.assertIn('1 rows are in', errors)
            self.assertIn('another row with the key', self.convert('by,Nr,n\nA,a,7\nA,a,8\n', '--by', 'by', *known)[2])
            self.assertEqual((1, ''), self.convert(text, '--not', *known)[:2])
            self.assertIn("no column headed 'm'", self.convert('m\nx\n', *known[:2])[2])


class ToCsv(unittest.TestCase):
    SCRIPT = """create user 'Ann'; create relation R(k text, n int); create relation S(k text);
        insert into R values('it''s, so', -1); insert into BELIEF 'Ann' not R values('it''s, so', -1); insert into S values('"');"""

    def test_answers(self):
        replies = program(self.SCRIPT + 'select R.k, R.n from R;')
        self.assertEqual((0, 'k,n\n"it\'s, so",-1\n', ''), tool('to_csv', '--columns', 'k,n', text=replies))

    def test_worlds(self):
        replies = program(self.SCRIPT + "show world BELIEF 'Ann';")
        self.assertEqual('sign,mark,k,n\n-,explicit,"it\'s, so",-1\n', 
                         tool('to_csv', '--relation', 'R', '--columns', 'k,n', text=replies)[1])
        self.assertEqual('-,explicit,R,"it\'s, so",-1\n+,inherited,S,""""\n', tool('to_csv', text=replies)[1])

    def test_errors_and_broken_replies(self):
        self.assertEqual((1, '1\n'), tool('to_csv', text='1\nok 1\nerror syntax\n')[:2])
        self.assertEqual(1, tool('to_csv', text="'a'\n")[0])
        self.assertEqual(1, tool('to_csv', text="'a'\nok 1\n'a', 1\nok 1\n")[0])
        self.assertEqual(1, tool('to_csv', text='user U\nok 1\n')[0])


class ExplainErrors(unittest.TestCase):
    def explain(self, script, *words):
        with tempfile.TemporaryDirectory() as folder:
            for name, text in (('script', script), ('replies', program(script, *(['many'] if words else ['run'])))):
                with open(f'{folder}/{name}', 'w', encoding='utf-8') as it:
                    it.write(text)
            return tool('explain_errors', f'{folder}/script', f'{folder}/replies', *words)

    def test_an_open_text_is_found(self):
        status, told, _ = self.explain(
            "create relation S(k text);\n-- it's\ninsert into S values('O'Brien');\ninsert into S values('x');\n")
        self.assertEqual(1, status)
        self.assertIn('line 3 to 4: insert', told)
        self.assertIn('a text that begins in line 3', told)
        self.assertIn('2 commands, 1 refused', told)

    def test_one_way_of_running_is_not_taken_for_the_other(self):
        script = "0 create relation S(k text);\n"
        self.assertIn('run such a script by `beliefdb many`', self.explain(script)[1])
        with tempfile.TemporaryDirectory() as folder:
            for name, text in (('script', script), ('replies', program(script, 'many'))):
                with open(f'{folder}/{name}', 'w', encoding='utf-8') as it:
                    it.write(text)
            status, told, errors = tool('explain_errors', f'{folder}/script', f'{folder}/replies')
        self.assertEqual((1, ''), (status, told))
        self.assertIn('add --many', errors)

    def test_all_is_well(self):
        self.assertEqual((0, '2 commands, 0 refused, 0 without effect\n', ''), self.explain("create relation S(k text); show world;"))

    def test_streams(self):
        script = """0 create relation S(k text, v text);\n0 begin;\n1 show world;\n0 insert into S values('a', 'b');
0 insert into S values('a', 'c');\n0 commit;\n1 begin;\n1 commit;\n1 abort;\n"""
        status, told, _ = self.explain(script, '--many')
        self.assertEqual(1, status)
        self.assertIn("line 5: 0 insert into S values('a', 'c');\n    error clash + S('a', 'b')", told)
        self.assertIn('command 2 of this batch was refused', told)
        self.assertIn('line 9: 1 abort;\n    error not begun', told)


class Draw(unittest.TestCase):
    SCRIPT = """create user 'A"'; create user 'B'''; create relation S(k text);
        insert into BELIEF 'A"' S values('<'); insert into BELIEF 'B''' BELIEF 'A"' not S values('<'); show tables;"""

    def test_each_world_is_drawn(self):
        replies = program(self.SCRIPT)
        status, picture, _ = tool('draw', '--svg', text=replies)
        self.assertEqual((0, 1 + replies.count('world ')), (status, picture.count('<rect')))
        self.assertIn('&lt;', picture)
        status, text, _ = tool('draw', text=replies)
        self.assertEqual((0, replies.count('suffix ')), (status, text.count('dashed')))

    def test_no_two_arrows_are_one(self):
        names = 'ABCD'
        script = ''.join(f"create user '{it}';" for it in names) + 'create relation S(k text);'
        script += ''.join(f"insert into BELIEF '{it}' S values('{it}');" for it in names) + 'show tables;'
        arrows = [it for it in tool('draw', '--svg', text=program(script))[1].splitlines() if it.endswith('class="leads"/>')]
        self.assertEqual((16, 16), (len(arrows), len(set(arrows))))

    def test_too_many_worlds_are_left_to_graphviz(self):
        lines = ['world / depth 0'] + [f"world /'{it}' depth 1 suffix /" for it in range(12)]
        self.assertEqual(1, tool('draw', '--svg', text='\n'.join(lines))[0])
        self.assertEqual(0, tool('draw', text='\n'.join(lines))[0])


if __name__ == '__main__':
    unittest.main()
