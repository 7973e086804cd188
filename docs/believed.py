#!/usr/bin/env python3
"""Lists the definitions that the clauses of the top call reach: what a reader of the promises has to believe.

    docs/believed.py           writes the list between its marks in docs/DEFINITIONS.md
    docs/believed.py --check   writes nothing: the status is 1 where the page has another list

It begins with the names in the clauses of `omega` in crates/omega_top/src/top.rt, the call that `main` makes. A `use` line
of the same file says where a name is defined; the names in that definition are followed likewise, until nothing is new.
It ends at types of the code (`specs.declared`) and at names of the toolchain. It needs Python 3 alone."""
import re
import sys
from pathlib import Path
from typing import Dict, List, NamedTuple, Set, Tuple

ROOT = Path(__file__).resolve().parent.parent
CALL = ROOT / 'crates' / 'omega_top' / 'src' / 'top.rt'
PAGE = ROOT / 'docs' / 'DEFINITIONS.md'
MARK, END = '<!-- believed -->\n', '<!-- end -->\n'
HEAD = re.compile(r'^(?:(?:abbrev|unfoldable|pub) )*(?:record |data )?([^\s:(){}]+) .*:')

# A definition: its crate, its file of `specs/` without the ending, and its name.
Word = Tuple[str, str, str]


class Source(NamedTuple):
    known: Dict[str, Word]      # what the names of the file stand for, by its `use` lines and its own definitions
    texts: Dict[str, str]       # the text of each definition


def names_in(text: str) -> Set[str]:
    """The names in a text, but those of fields, which stand behind a point."""
    bare = re.sub(r'--.*', ' ', text)
    return set(re.findall(r'(?<![\w.◌])[A-Za-z]\w*', bare))


def used_by(text: str) -> Dict[str, Word]:
    """The names that the `use` lines of a file bring from `specs/` of crates."""
    lines = re.findall(r'^(?:ghost )?use Rattle\.(omega\w*)\.specs\.([\w.]+)\.\{([^}]*)\}', text, re.MULTILINE)
    parts = [(crate, file, part.strip().split(' as ')) for crate, file, names in lines for part in names.split(',')]
    return {part[-1].strip(): (crate, file, part[0].strip()) for crate, file, part in parts
            if not file.startswith('declared')}


def definitions_in(text: str) -> Dict[str, str]:
    """The text of each definition of a file: from its head to the next one's."""
    found: Dict[str, str] = {}
    name = ''
    for line in text.splitlines():
        head = HEAD.match(line)
        if head and not line.startswith('use '):
            name = head.group(1)
        if name and not line.startswith(('use ', '--')):
            found[name] = found.get(name, '') + line + '\n'
    return found


def read_source(crate: str, file: str) -> Source:
    text = (ROOT / 'crates' / crate / 'specs' / (file.replace('.', '/') + '.antt')).read_text()
    texts = definitions_in(text)
    return Source({**used_by(text), **{name: (crate, file, name) for name in texts}}, texts)


def first_words() -> List[Word]:
    """What the clauses of the top call name."""
    text = CALL.read_text()
    clauses = re.search(r'^pub fn omega<.*?^\{', text, re.MULTILINE | re.DOTALL)
    assert clauses, 'there is no call omega in %s' % CALL
    known = used_by(text)
    return [known[name] for name in sorted(names_in(clauses.group())) if name in known]


def owner_of(source: Source, name: str) -> str:
    """The definition that a name belongs to: itself, or the type whose constructor it is."""
    if name in source.texts:
        return name
    return next(owner for owner, text in source.texts.items() if re.search(r'^\s+%s :' % re.escape(name), text, re.MULTILINE))


def reached() -> Set[Word]:
    sources: Dict[Tuple[str, str], Source] = {}
    found: Set[Word] = set()
    coming = first_words()
    while coming:
        crate, file, name = coming.pop()
        source = sources.setdefault((crate, file), read_source(crate, file))
        word = (crate, file, owner_of(source, name))
        if word not in found:
            found.add(word)
            coming += [source.known[other] for other in names_in(source.texts[word[2]]) if other in source.known]
    return found


def with_list(page: str, words: Set[Word]) -> str:
    """The page with the list between its marks, by crate and file."""
    before, mark, rest = page.partition(MARK)
    files = sorted({(crate, file) for crate, file, _ in words})
    rows = ''.join('| `%s` | `%s` | %s |\n' % (crate, file, ', '.join(
        '`%s`' % name for where, at, name in sorted(words) if (where, at) == (crate, file))) for crate, file in files)
    return '%s%s\n%d words in %d files:\n\n| Crate | File | Words |\n|---|---|---|\n%s\n%s%s' % (
        before, mark, len(words), len(files), rows, END, rest.partition(END)[2])


def main(words: List[str]) -> int:
    if words not in ([], ['--check']):
        asked = words in (['--help'], ['-h'])
        print(__doc__, file=sys.stdout if asked else sys.stderr)
        return 0 if asked else 2
    page = PAGE.read_text()
    if MARK not in page:
        print('believed.py: docs/DEFINITIONS.md has no mark %s' % MARK.strip(), file=sys.stderr)
        return 1
    wanted = with_list(page, reached())
    if words and page != wanted:
        print('believed.py: the list in docs/DEFINITIONS.md is old: docs/believed.py writes it', file=sys.stderr)
        return 1
    if page != wanted:
        PAGE.write_text(wanted)
    return 0


if __name__ == '__main__':
    sys.exit(main(sys.argv[1:]))
