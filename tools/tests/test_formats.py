"""The grammars of docs/FORMATS.md beside the reports and the kept lines of tests/ and examples/, and its table of words
beside the program's."""
import re
import unittest
from typing import Dict, Iterable

from called import ROOT

PAGE = (ROOT / 'docs' / 'FORMATS.md').read_text()
NUMBER = ' (?:0|[1-9][0-9]*)'


def rules_at(head: str) -> Dict[str, str]:
    """The rules of the grammar that begins with this one."""
    block = PAGE[PAGE.index('\n    %s ' % head):].lstrip('\n').split('\n\n')[0]
    return dict(re.split(' += ', line.strip(), maxsplit=1) for line in block.splitlines())


def words_of(rules: Dict[str, str], text: str) -> str:
    """An expression for the words that a text says, each with the space before it."""
    def item(found: 're.Match[str]') -> str:
        name = found.group()
        if name.startswith('"'):
            return '(?: %s)' % re.escape(name[1:-1])
        if name in rules:
            return '(?:%s)' % words_of(rules, rules[name])
        return '(?: (?:-|(?:[0-9a-f][0-9a-f])+))' if name == 'bytes' else '(?:%s)' % NUMBER
    return re.sub(r'"[^"]*"|[A-Za-z]+2?|(?P<blank> +)',
                  lambda found: '' if found.group('blank') else item(found), text)


class Report:
    """The grammar of reports: the words of each line, and which lines follow on which."""

    def __init__(self) -> None:
        self.rules = rules_at('report')
        # A line's rule begins with a word of it. What a refusal says is a part of its line.
        self.lines = {name for name, text in self.rules.items() if text.startswith('"') and name != 'reason'}
        self.below = re.compile(r'\(?\b(?:%s)\b(?=(?:[^"]*"[^"]*")*[^"]*$)' % '|'.join(self.lines))
        self.named = {self.rules[name].split('"')[1]: name for name in self.lines}

    def of_line(self, name: str) -> str:
        return words_of({'reason': self.rules['reason']}, self.below.split(self.rules[name])[0])

    def order(self, name: str) -> str:
        """An expression for the names of lines in order, each in angles."""
        text = self.rules[name]
        own = ''
        if name in self.lines:
            found = self.below.search(text)
            own, text = '<%s>' % name, text[found.start():] if found else ''
        return own + re.sub('[a-z]+', lambda found: '(?:%s)' % self.order(found.group()), text).replace(' ', '')

    def fits(self, report: str) -> bool:
        lines = report.splitlines()
        names = [self.named[line.split(' ')[0]] for line in lines]
        return all(re.fullmatch(self.of_line(name), ' ' + line) for name, line in zip(names, lines)) and bool(
            re.fullmatch(self.order('report'), ''.join('<%s>' % name for name in names)))


def texts_of(name: str, most: int = 1_000_000) -> Iterable[str]:
    for folder in ('examples', 'tests'):
        for path in sorted((ROOT / folder).rglob(name)):
            if path.is_file() and path.stat().st_size <= most:
                yield path.read_text()


class Formats(unittest.TestCase):
    def test_reports(self) -> None:
        grammar = Report()
        reports = [text for text in texts_of('report.txt') if text.startswith('omega ')]
        self.assertGreater(len(reports), 200)
        for report in reports:
            self.assertTrue(grammar.fits(report), report[:300])

    def test_what_is_no_report(self) -> None:
        grammar = Report()
        report = (ROOT / 'examples' / 'two-machines' / 'report.txt').read_text()
        self.assertTrue(grammar.fits(report))
        for old, new in (('omega 2\n', ''), ('\nuse', '\nuse cpu 0 0 mem 0 0 disk 0 0\nuse'), ('round 0', 'round 00'),
                         ('waiting', 'end 1 1 1\nwaiting'), ('place 10 ', 'place 10')):
            self.assertIn(old, report)
            self.assertFalse(grammar.fits(report.replace(old, new, 1)), new)

    def test_kept_lines(self) -> None:
        rules = rules_at('entry')
        entry = re.compile(words_of(rules, rules['entry']))
        # What is kept where a report is printed was taken.
        taken = [path.parent / 'kept' for path in (ROOT / 'tests' / 'kept').rglob('report.txt')]
        texts = [path.read_text() for path in taken if path.is_file()]
        lines = {line for text in [*texts, *texts_of('kept-after')] for line in text.splitlines()}
        self.assertGreater(len(lines), 30)
        for line in lines:
            self.assertTrue(entry.fullmatch(' ' + line), line)
        for line in ('round', 'round 01', 'set 1 - 6', 'commit 0 1 10 fine incremental claim'):
            self.assertFalse(entry.fullmatch(' ' + line), line)

    # The page's table of words is that of the program's code: names, bounds and values, in whatever order.
    def test_words(self) -> None:
        code = (ROOT / 'crates' / 'omega_words' / 'src' / 'choices.rt').read_text().replace('_', '')
        spans = {name: '%s to %s' % (low, high.replace('u64::MAX', str(2**64 - 1))) for name, low, high in re.findall(
            r'const ([A-Z]+): Span = Span \{\s*low: (\w+),\s*high: ([\w:]+),?\s*\};', code)}
        program = {}
        for name, kind, values in re.findall(r'makechoice\("([a-z-]+)", Values::(Path|Number|OneOf)(?:\(([^)]*)\))?\)', code):
            program[name] = {'Path': 'any text', 'Number': spans.get(values, ''),
                             'OneOf': ', '.join(re.findall('"([^"]*)"', values))}[kind]
        page = {}
        for name, values in re.findall(r'^\| `--([a-z-]+)` \| ([^|]*) \|', PAGE, re.MULTILINE):
            number = re.match(r'[0-9,]+ to [0-9,]+', values)
            page[name] = number.group().replace(',', '') if number else (
                'any text' if values.endswith('any text') else values.replace('`', ''))
        self.assertEqual(page, program)
        self.assertEqual(len(page), 22)


if __name__ == '__main__':
    unittest.main()
