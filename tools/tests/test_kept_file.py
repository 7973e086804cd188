"""What omega.sh says of a file in which the history can't be kept, and what a reader of SQLite finds in it."""
import os
import shutil
import socket
import sqlite3
import subprocess
import tempfile
import unittest
from pathlib import Path

from called import ROOT, call

import kept_file

PROGRAM = "#!/bin/sh\necho 'omega: cannot keep' >&2\nexit 7\n"
GOOD = 'CREATE TABLE kept (place INTEGER PRIMARY KEY, line BLOB NOT NULL) STRICT'
NOTHING = 'nothing is seen that would be in the way'


class Seen(unittest.TestCase):
    def setUp(self) -> None:
        self.folder = Path(tempfile.mkdtemp())
        self.addCleanup(shutil.rmtree, self.folder)

    def database(self, *statements: str) -> Path:
        path = self.folder / 'k.db'
        path.unlink(missing_ok=True)
        base = sqlite3.connect(path)
        for statement in statements:
            base.execute(statement)
        base.commit()
        base.close()
        return path


class InADatabase(Seen):
    def found(self, *statements: str) -> str:
        answer = call('kept_file.py', kept_file.main, self.database(*statements))
        self.assertEqual((answer.status, answer.err), (0, ''))
        return answer.out

    def test_tables_of_lines(self) -> None:
        for statement in (GOOD, 'CREATE TABLE KEPT (a, Line, PLACE INTEGER, PRIMARY KEY (place))', 'CREATE TABLE t (a)'):
            self.assertEqual(self.found(statement), '', statement)

    def test_other_keys(self) -> None:
        for columns in ('place TEXT PRIMARY KEY, line', 'place INT PRIMARY KEY, line', 'place INTEGER, line', 'place, line',
                        'place INTEGER PRIMARY KEY DESC, line', 'place INTEGER, line, other INTEGER PRIMARY KEY'):
            self.assertIn('another key', self.found('CREATE TABLE kept (%s)' % columns), columns)

    def test_other_things(self) -> None:
        self.assertIn('no column line', self.found('CREATE TABLE kept (place INTEGER PRIMARY KEY)'))
        self.assertIn('is no table: view', self.found('CREATE VIEW kept AS SELECT 1 AS place'))
        self.assertIn('no blob', self.found('CREATE TABLE kept (place INTEGER PRIMARY KEY, line)',
                                            "INSERT INTO kept VALUES (1, 'text')"))
        self.assertIn('a trigger', self.found(GOOD, 'CREATE TRIGGER t AFTER INSERT ON kept BEGIN SELECT 1; END'))

    def test_a_file_that_is_no_database(self) -> None:
        path = self.folder / 'text'
        path.write_text('add 1 5 5 5\n' * 100)
        self.assertIn('no database', call('kept_file.py', kept_file.main, path).out)
        self.assertEqual(sorted(self.folder.iterdir()), [path])


class ByTheScript(Seen):
    # A copy of the script beside a program that counts as built, and refuses every file.
    def setUp(self) -> None:
        super().setUp()
        self.root = self.folder / 'root'
        out = self.root / 'crates' / 'omega' / 'out'
        out.mkdir(parents=True)
        (self.root / 'tools').mkdir()
        shutil.copy(ROOT / 'omega.sh', self.root)
        shutil.copy(ROOT / 'tools' / 'kept_file.py', self.root / 'tools')
        (self.root / 'crates.txt').write_text('')
        (out / 'omega').write_text(PROGRAM)
        (out / 'omega').chmod(0o755)
        (self.root / 'bin').mkdir()
        (self.root / 'bin' / 'rt').write_text('#!/bin/sh\necho kit\n')
        (self.root / 'bin' / 'rt').chmod(0o755)
        (out / 'omega.stamp').write_text(self.run_it('--digest').stdout)

    def run_it(self, *words: str) -> 'subprocess.CompletedProcess[str]':
        env = dict(os.environ, PATH='%s:%s' % (self.root / 'bin', os.environ['PATH']))
        return subprocess.run([str(self.root / 'omega.sh'), *words], capture_output=True, text=True, cwd=self.folder,
                              env=env)

    def seen(self, path: str, *lines: str) -> None:
        answer = self.run_it('audit', '--kept', path)
        wanted = ''.join('omega.sh: %s, now: %s\n' % (path, line) for line in lines)
        self.assertEqual((answer.returncode, answer.stdout, answer.stderr), (7, '', 'omega: cannot keep\n' + wanted))

    def test_nothing(self) -> None:
        self.database(GOOD)
        self.seen('k.db', NOTHING)
        self.seen('none.db', NOTHING)
        self.assertTrue(self.run_it('audit').stderr.endswith('omega.sh: omega.db, now: %s\n' % NOTHING))
        self.assertTrue(self.run_it('audit', '--kept=k.db').stderr.endswith('omega.sh: k.db, now: %s\n' % NOTHING))
        self.assertFalse((self.folder / 'none.db').exists())

    def test_no_file(self) -> None:
        os.symlink('gone', self.folder / 'link')
        self.seen('link', 'a link that leads to nothing, gone')
        self.seen('none/k.db', 'there is no folder none')
        self.seen(':memory:', 'the path names no file')
        self.seen('root', 'a folder')
        os.mkfifo(self.folder / 'pipe')
        self.seen('pipe', 'a pipe')
        server = socket.socket(socket.AF_UNIX)
        self.addCleanup(server.close)
        server.bind(str(self.folder / 's'))
        self.seen('s', 'not a file but socket')

    def test_files(self) -> None:
        (self.folder / 'text').write_text('add 1 5 5 5\n')
        self.seen('text', "it doesn't begin as a database")
        (self.folder / 'byte').write_text('x')
        self.seen('byte', 'it has one byte')
        path = self.database('CREATE VIEW kept AS SELECT 1 AS place')
        os.link(path, self.folder / 'second')
        self.seen('k.db', 'it has 2 names, by hard links', 'what it has as kept is no table: view')
        (self.folder / 'second').unlink()
        (self.folder / 'k.db-journal').write_text('x')
        self.seen('k.db', 'changes stand in %s-journal that SQLite has still to take back' % path,
                  'what it has as kept is no table: view')

    # A refusal at the opening leaves a log without lines; beside a log that has some the file alone says nothing.
    def test_a_log_beside_it(self) -> None:
        path = self.database('CREATE VIEW kept AS SELECT 1 AS place')
        (self.folder / 'k.db-wal').write_bytes(b'x' * 41)
        self.seen('k.db', 'what it has as kept is no table: view')
        damaged = self.folder / 'd.db'
        damaged.write_bytes(path.read_bytes()[:100] + bytes(8) + path.read_bytes()[108:])
        (self.folder / 'd.db-wal').write_bytes(b'x' * 41)
        self.assertIn('it is damaged', self.run_it('audit', '--kept', 'd.db').stderr)
        (self.folder / 'k.db-wal').write_bytes(b'x' * 512)
        self.seen('k.db', NOTHING)

    def test_a_file_in_use(self) -> None:
        base = sqlite3.connect(self.database(GOOD), isolation_level=None)
        self.addCleanup(base.close)
        base.execute('BEGIN EXCLUSIVE')
        self.seen('k.db', 'a program seems to have it in use')

    def test_what_may_not_be_written(self) -> None:
        if os.geteuid() == 0:
            self.skipTest('everything may be written')
        path = self.database(GOOD)
        path.chmod(0o444)
        self.seen('k.db', 'it may not be written')


if __name__ == '__main__':
    unittest.main()
