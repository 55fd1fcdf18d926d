#!/usr/bin/env python3
"""Checks that docs/PROMISES.md leads where it says: each name is a link to the file that declares it. It has document
01's sections in their order, every public function, every refusal and every must-fail edit.

  python3 tests/promises.py [--show | --write]
    --show     each name with its line and its file
    --write    writes the table of must-fail edits anew and points each link whose name has moved at the one file that
               declares it, then checks

A link of docs/PROMISES.md is one of
  [name](../crates/x/specs/File.antt)      a definition or theorem that the file declares, or the file, by its own name
  [x::f](../crates/x/src/lib.rt)           a function, type or constant of the file; [x::m::f] of src/m.rt, [x::T::f]
                                           of a type or a trait, [x::T from U] what `impl From<U> for T` makes,
                                           [x::T by Display] the text of T
  [edit](../crates/x/must-fail/edit.edit)  in the table of edits; elsewhere [x/edit]
  [path](../path)                          any other file
and what stands between backquotes is `requires`, a crate, a folder of the crates or a command. Functions stand in
columns of functions alone, and what a public function's row says of its promise stands in its contract. What From
makes and a Display's text count as public functions, with `ghost from_gives` and `ghost output` for their contracts.
In README.md and the other documents each link's file is there, and so is what stands between backquotes as
crate::function, crate/specs/File.name or crate/edit. README.md's table of crates is crates.txt's, stage by stage.
Whatever is not found is an error, with its line (in the other documents its paragraph's). Ends with 1 where there is
one.
"""
import os
import re
import sys

ROOT = os.path.dirname(os.path.dirname(os.path.abspath(__file__)))
DOCUMENT, README = 'docs/PROMISES.md', 'README.md'
OTHERS = (README, 'docs/DECISIONS.md', 'docs/CONTRIBUTING.md')
HEADINGS = [
    'The three demands', 'The register and the sheet', 'Moles to volumes', 'Simplification', 'Choice of systems',
    'A partial number', 'The split and the rating', 'The search', 'Writer, display, controller', 'What is turned away',
    'Gases and their figures', 'Mistakes lying ready', 'Which form to use where', 'Raters worth nothing',
    'Public functions', "Answers' cases", 'Keys', 'Refusals', 'Must-fail edits']
LINK = re.compile(r'\[([^][]*)\]\(([^()\s]*)\)')
EDITS = ('| crate | edit | what it wrongs |', '|---|---|---|')


# ------------------------------------------------------------ what the tree has

def text_of(path):
    with open(os.path.join(ROOT, path), encoding='utf-8') as f:
        return f.read()


def declared(text):
    """Names declared in a file of definitions or laws, records with their fields as Record.field too; what a
    definition has only for itself (under its `where`) is left out."""
    names, blocks, header = set(), [], None     # blocks: (indentation, local?, record or None)
    for line in text.split('\n'):
        said = line.strip()
        if not said or said.startswith('--'):
            continue
        at = len(line) - len(line.lstrip(' '))
        if header is None:
            while blocks and blocks[-1][0] >= at:
                blocks.pop()
            opened = re.match(r'(?:pub )?(module|record|data) ([^\s{]+)', said)
            if opened:
                header = (at, any(b[1] for b in blocks), None if opened[1] == 'module' else opened[2])
                if header[2] and not header[1]:
                    names.add(header[2])
        if header is not None:
            if said.endswith('where'):
                blocks.append(header)
                header = None
            continue
        if said == 'where' or said.endswith(' where'):
            blocks.append((at, True, None))
            continue
        found = re.match(r'(?:(?:pub|abbrev|unfoldable|private|opaque) )*([^\s(){}]+)((?: \{[^}]*\})*) :( |$)', said) \
            or re.match(r'(?:pub )?ruleset (\S+) =', said)
        if found and not any(b[1] for b in blocks):
            names.add(found[1])
            if blocks and blocks[-1][2]:
                names.add(blocks[-1][2] + '.' + found[1])
    return names


class Source:
    """A file of code: its functions with their contracts, its types and constants, its public functions. What From
    makes of a U is `T from U`, a Display's text `T by Display`; of each the contract is the ghost that says it."""

    PROMISED = {'From': 'from_gives', 'Display': 'output'}      # of these traits, what the ghost is called

    def __init__(self, path):
        self.path, self.text = path, re.sub(r'//[^\n]*', '', text_of(path))
        self.contracts, self.public, self.made = {}, set(), set()
        understood = set()      # where each function that is understood begins
        for at, public, name, contract in self.functions('', 0, self.text):
            understood.add(at)
            self.note(name, contract, public)
        for found in re.finditer(r'^(impl\b|(?:pub )?(?:pub\(crate\) )?trait\b)([^\n]*)\{$(.*?)^\}|^impl\b[^\n]*\{\}$',
                                 self.text, re.M | re.S):
            if found[1] is None:
                continue        # nothing stands in it
            trait, owner = self.heads(found[2]) if found[1] == 'impl' else (None, re.match(r' (\w+)', found[2])[1])
            if trait in self.PROMISED:
                self.note_ghost(trait, owner, found[2], found[3])
            for at, public, name, contract in self.functions('    ', found.start(3), found[3]):
                understood.add(at)
                if trait is None:
                    self.note(owner + '::' + name, contract, public)
        self.names = {*self.contracts, *re.findall(
            r'^(?:pub(?:\(crate\))? )?(?:struct|const|static|type|enum|trait) (\w+)', self.text, re.M)}
        for found in re.finditer(r'^ *pub\b[^\n(]*\bfn \w+|.*\bpub mod \w+', self.text, re.M):
            if found.start() not in understood:
                self.not_understood(found[0])
        for line in re.findall(r'^ *impl\b.*', self.text, re.M):
            if not re.fullmatch(r'impl\b.*\{\}?', line):
                self.not_understood(line)

    def not_understood(self, line):
        sys.exit('promises: %s: not understood: %s' % (self.path, line))

    @staticmethod
    def functions(indent, start, text):
        """The functions that stand so far in: where each begins, whether it is public, its name and its contract."""
        ends = r'[^\n]*[;{]$|.*?(?:^    \{|;$)' if indent else r'[^\n]*\{$|.*?^\{'
        for found in re.finditer(r'^%s(pub )?(?:pub\(crate\) )?(?:extern "C" )?fn (\w+)(%s)' % (indent, ends),
                                 text, re.M | re.S):
            yield start + found.start(), bool(found[1]), found[2], found[3]

    def heads(self, line):
        """Of the line of an impl its trait, None where it has none, and its type, by their bare names."""
        depth, flat = 0, ''
        for sign in line.replace('->', ''):
            depth -= sign == '>'
            flat += sign if not depth and sign != '>' else ''
            depth += sign == '<'
        flat = flat.replace('<', '')
        found = re.fullmatch(r'\s*(?:([\w:]+) for )?([\w:]+)\s*', flat)
        if not found:
            self.not_understood('impl' + line)
        return found[1] and found[1].rpartition('::')[2], found[2].rpartition('::')[2]

    def note(self, name, contract, public):
        if name in self.contracts:
            self.not_understood('%s, twice' % name)
        self.contracts[name] = contract
        if public:
            self.public.add(name)

    def note_ghost(self, trait, owner, line, block):
        """What From makes, and a Display's text, with the ghost that says what that is."""
        of = re.search(r'\bFrom<(.+)> for ', line) if trait == 'From' else None
        if trait == 'From' and not of:
            self.not_understood('impl' + line)
        name = '%s from %s' % (owner, of[1].rpartition('::')[2]) if of else '%s by Display' % owner
        ghost = re.search(r'^    ghost %s\s*=\s*(\{.*?\});$' % self.PROMISED[trait], block, re.M | re.S)
        self.note(name, ghost[1] if ghost else '', False)
        self.made.add(name)


class Tree:
    """The crates' files: what each declares."""

    def __init__(self):
        self.crates, self.stages, self.declared, self.sources, self.edits = [], [], {}, {}, {}
        for line in text_of('crates.txt').split('\n'):
            if line.startswith('# ') and not line.endswith('.'):
                self.stages.append((line[2:], []))
            elif ':' in line:
                self.crates.append(line.partition(':')[0].split()[0])      # `staticlib` may stand after the name
                self.stages[-1][1].append(self.crates[-1])
        for crate in self.crates:
            for part in ('specs', 'proofs'):
                for path in self.files(crate, part, '.antt'):
                    self.declared[path] = declared(text_of(path)) | {os.path.basename(path)[:-len('.antt')]}
            for path in self.files(crate, 'src', '.rt'):
                self.sources[path] = Source(path)
            for path in self.files(crate, 'must-fail', '.edit'):
                self.edits[crate, os.path.basename(path)[:-len('.edit')]] = path

    def files(self, crate, part, kind):
        """The files of a kind; one of another kind is an error, since nothing reads it."""
        for place, folders, found in os.walk(os.path.join(ROOT, 'crates', crate, part)):
            folders.sort()
            for file in sorted(found):
                path = os.path.relpath(os.path.join(place, file), ROOT)
                if not file.endswith(kind):
                    sys.exit('promises: %s is no %s file' % (path, kind))
                yield path

    def public(self):
        """The public functions of each crate's src/lib.rt; of any file what From makes, and a Display's text."""
        found = {(crate, name) for crate in self.crates
                 for name in getattr(self.sources.get('crates/%s/src/lib.rt' % crate), 'public', ())}
        return found | {(path.split('/')[1], name) for path, source in self.sources.items() for name in source.made}

    def places(self, name, crate):
        """Where a name is declared: in the crate's specs, else in the crate, else in any."""
        places = [path for path, names in self.declared.items() if name in names]
        for near in ('crates/%s/specs/' % crate, 'crates/%s/' % crate, 'crates/'):
            found = [path for path in places if path.startswith(near)]
            if found:
                return found
        return []

    def elsewhere(self, name, crate):
        found = self.places(name, crate)
        return '; it is in ' + ', '.join(found) if found else ''

    def moved(self, link):
        """A link to definitions or laws, pointed at the one file that declares its name where its own does not."""
        crate = re.match(r'\.\./crates/(\w+)/.*\.antt$', link[2])
        found = self.places(link[1], crate[1]) if crate and link[1] not in self.declared.get(link[2][3:], ()) else []
        return '[%s](../%s)' % (link[1], found[0]) if len(found) == 1 else link[0]

    def wrongs(self, path):
        """What an edit wrongs: the first line of its file, to the first colon or semicolon after three words."""
        line = re.sub(r'^# *', '', text_of(path).partition('\n')[0])
        short = re.match(r'(\S+(?: \S+){2,}?)[:;] ', line)
        return short[1] if short else line

    def table_of_edits(self):
        return [*EDITS, *('| %s | [%s](../%s) | %s |' % (crate, edit, path, self.wrongs(path))
                          for (crate, edit), path in self.edits.items())]


# ------------------------------------------------------------ documents

class Unknown(Exception):
    """Says what was not found."""


def target(document, link):
    return os.path.normpath(os.path.join(os.path.dirname(document), link.partition('#')[0]))


def there(document, link):
    """Whether a link's file is there, and the section that it names in it."""
    path, section = target(document, link), link.partition('#')[2]
    if not os.path.exists(os.path.join(ROOT, path)):
        return False
    return not section or section in {re.sub(r'[^\w -]', '', line.lstrip('# ')).lower().replace(' ', '-')
                                      for line in text_of(path).split('\n') if line.startswith('#')}


class Document:
    """docs/PROMISES.md: goes through its lines and notes what they name."""

    def __init__(self, tree, text):
        self.tree, self.errors, self.found, self.functions, self.refusals = tree, [], [], [], []
        self.lines = text.split('\n')
        self.read()

    def error(self, number, said):
        self.errors.append('%s:%d: %s' % (DOCUMENT, number, said))

    # -- a link

    def name(self, text, path):
        """Finds what a link's text names in its file, and says what that is."""
        if not os.path.exists(os.path.join(ROOT, path)):
            crate = re.match(r'crates/(\w+)/', path)
            raise Unknown('no such file' + self.tree.elsewhere(text, crate[1] if crate else ''))
        crate, _, inner = path.replace('crates/', '', 1).partition('/') if path.startswith('crates/') else ('', '', '')
        if path in self.tree.declared:
            if text not in self.tree.declared[path]:
                raise Unknown('not declared there' + self.tree.elsewhere(text, crate))
            return 'name'
        if path in self.tree.sources and text != path:
            module = os.path.basename(path)[:-len('.rt')]
            first = crate + '::' + ('' if module in ('lib', 'main') else module + '::')
            if not text.startswith(first) or text[len(first):] not in self.tree.sources[path].names:
                raise Unknown('no such function, type or constant: %s.. is wanted' % first)
            return 'function'
        if (crate, os.path.basename(inner)[:-len('.edit')]) in self.tree.edits:
            if text != crate + '/' + os.path.basename(inner)[:-len('.edit')]:
                raise Unknown('crate/edit is wanted')
            return 'edit'
        if text != path:
            raise Unknown('the name of a file is its path')
        return 'file'

    def quoted(self, text):
        """What stands between backquotes."""
        command = re.fullmatch(r'python3 (\S+)((?: --\w+)*)', text)
        if command and os.path.exists(os.path.join(ROOT, command[1])):
            return all(option in text_of(command[1]) for option in command[2].split())
        return text == 'requires' or text in self.tree.crates or (text.endswith('/') and any(
            os.path.isdir(os.path.join(ROOT, 'crates', crate, text)) for crate in self.tree.crates))

    def cell(self, number, text, head):
        """Finds the names of a cell, or of a line outside tables; answers each with its file."""
        names = []
        for said, link in LINK.findall(text):
            path = target(DOCUMENT, link)
            try:
                if not link.startswith('../'):
                    raise Unknown('the link begins with ../')
                kind = self.name(said, path)
                if (kind == 'function') != (head == 'function') and head in ('definition', 'function', 'theorem'):
                    raise Unknown('a %s in the column of %ss' % (kind, head))
                if kind == 'edit' and 'refused' not in head:
                    raise Unknown('an edit in the column "%s"' % head)
                names.append((said, path))
                self.found.append('%d: %s  (%s)' % (number, said, path))
            except Unknown as e:
                self.error(number, '[%s](%s): %s' % (said, link, e))
        rest = LINK.sub('', text)
        for said in re.findall(r'`([^`]*)`', rest):
            self.found.append('%d: %s' % (number, said))
            if not self.quoted(said):
                self.error(number, '`%s`: no such crate, folder or command' % said)
        if rest.count('`') % 2 or '](' in rest or re.search(r'\[[\w:/.-]+\]', rest):
            self.error(number, 'a backquote is not closed, or a link is not understood')
        return names

    # -- rows of which more is asked

    def function_row(self, number, cells):
        """A public function: its definitions stand in its contract."""
        for function, path in cells[0]:
            crate, _, name = function.partition('::')
            if name not in self.tree.sources[path].contracts:
                name = name.partition('::')[2]      # of a module
            self.functions.append((crate, name))
            contract = self.tree.sources[path].contracts.get(name, '')
            for said, file in cells[1]:
                if file in self.tree.declared and not re.search(r'(?<![\w-])%s(?![\w-])' % re.escape(said), contract):
                    self.error(number, 'the contract of %s does not have %s' % (function, said))

    def refusal_row(self, number, cells):
        self.refusals.append((cells[0].strip(), cells[1].strip()))
        if not all(LINK.search(cell) for cell in cells[3:]):
            self.error(number, 'a refusal without definition, function or theorem')

    # -- lines

    def read(self):
        section, heads, edits = '', [], []
        for number, line in enumerate(self.lines, 1):
            if line.startswith('#'):
                section, heads = line.lstrip('# '), []
            if not line.startswith('|'):
                heads = []
                self.cell(number, line, '')
                continue
            if section == 'Must-fail edits':
                edits.append(line)
                continue
            cells = [cell.strip() for cell in line.strip()[1:-1].split('|')]
            heads = heads or cells
            if len(cells) != len(heads):
                self.error(number, '%d cells under %d heads' % (len(cells), len(heads)))
            names = [self.cell(number, cell, head) for cell, head in zip(cells, heads)]
            if section == 'Public functions' and len(names) == 2:
                self.function_row(number, names)
            if section == 'Refusals' and cells[0].isdigit():
                self.refusal_row(number, cells)
        self.whole(edits)

    def whole(self, edits):
        """What the document must have as a whole."""
        headings = [line[3:] for line in self.lines if line.startswith('## ')]
        if headings != HEADINGS:
            self.errors.append('%s: the sections are %s' % (DOCUMENT, ', '.join(HEADINGS)))
        wanted = sorted(self.tree.public())
        if sorted(self.functions) != wanted:
            self.errors += ['%s: the public function %s::%s once, and no other' % (DOCUMENT, *f)
                            for f in wanted if self.functions.count(f) != 1] or ['%s: no public function: %s' % (
                                DOCUMENT, sorted(set(self.functions) - set(wanted)))]
        register = text_of('crates/refusal/specs/Register.antt')
        numbers = dict(re.findall(r'^([a-z_]+_refusal) = (\d+)$', register, re.M))
        given = [(numbers[name], word) for name, word in re.findall(r'^ +entry ([a-z_]+_refusal) "([^"]*)"', register, re.M)]
        if self.refusals != given:
            self.errors.append('%s: the refusals are %s' % (DOCUMENT, given))
        table = self.tree.table_of_edits()
        self.found += table[2:]
        self.errors += ['%s: the table of edits has not, or has besides: %s' % (DOCUMENT, row)
                        for row in sorted(set(table) ^ set(edits))]
        if edits != table and set(edits) == set(table):
            self.errors.append('%s: the table of edits is in another order: --write' % DOCUMENT)


def check_other(tree, document):
    """README.md and the documents beside: their links, and what they name with its crate."""
    errors, here = [], {}
    for path, source in tree.sources.items():
        crate, module = path.split('/')[1], os.path.basename(path)[:-len('.rt')]
        first = crate + '::' + ('' if module in ('lib', 'main') else module + '::')
        here.update((first + name, path) for name in source.names)
        here[first[:-2]] = path
    number = 1
    for paragraph in text_of(document).split('\n\n'):
        for said, link in LINK.findall(paragraph):
            if '://' not in link and not there(document, link):
                errors.append('%s:%d: [%s](%s): no such file or section' % (document, number, said, link))
        for said in re.findall(r'`([^`]*)`', paragraph):
            first = re.match(r'\w+(?=::|/)', said)
            if not first or first[0] not in tree.crates or ' ' in said:
                continue
            names = ['%s%s' % (said.partition('{')[0], name) for name in
                     re.split(r',\s*', said.partition('{')[2].rstrip('}'))] if '{' in said else [said]
            for name in names:
                file = re.fullmatch(r'(\w+/(?:specs|proofs)/[\w/]+)(?:\.antt)?(?:\.(\S+))?', name)
                path = file and 'crates/%s.antt' % file[1]
                if not (name in here or tuple(name.split('/')) in tree.edits
                        or os.path.exists(os.path.join(ROOT, 'crates', name))
                        or (path in tree.declared and (file[2] or os.path.basename(file[1])) in tree.declared[path])):
                    where = tree.elsewhere(file[2] if file and file[2] else name.rpartition('/')[2], first[0])
                    errors.append('%s:%d: `%s`: not found%s' % (document, number, name, where))
        number += paragraph.count('\n') + 2
    return errors


def check_readme(tree):
    """README.md's table of crates: those of crates.txt, stage by stage, in their order."""
    table = text_of(README).partition('\n| stage | crate | what it has |\n')[2]
    listed = []
    for stage, crates in re.findall(r'^\|([^|`]*)\| (`[^|]*`) \|', table, re.M):
        if stage.strip():
            listed.append((LINK.sub(r'\1', stage).strip(), []))
        listed[-1][1].extend(re.findall(r'`(\w+)`', crates))
    return [] if listed == tree.stages else ["README.md's table of crates is not crates.txt's: %s" % there
                                             for there in (listed, tree.stages)]


def main():
    tree, options = Tree(), sys.argv[1:]
    text = text_of(DOCUMENT)
    if options == ['--write']:
        head, _, rest = text.partition('\n'.join(EDITS) + '\n')
        after = rest[re.match(r'(\|[^\n]*\n)*', rest).end():]
        text = LINK.sub(tree.moved, head) + '\n'.join(tree.table_of_edits()) + '\n' + after
        with open(os.path.join(ROOT, DOCUMENT), 'w', encoding='utf-8') as f:
            f.write(text)
    document = Document(tree, text)
    errors = document.errors + [e for other in OTHERS for e in check_other(tree, other)] + check_readme(tree)
    if not tree.edits or not tree.public() or not document.found:
        errors.append('no edits, no functions or no names: the tree was not read')
    if options == ['--show']:
        print('\n'.join(document.found))
    if errors:
        sys.exit('\n'.join(errors) + '\npromises: %d errors' % len(errors))
    print('promises: %d names found; all %d edits, all %d public functions and all %d refusals are there'
          % (len(document.found), len(tree.edits), len(tree.public()), len(document.refusals)))


if __name__ == '__main__':
    main()
