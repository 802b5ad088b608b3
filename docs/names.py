"""What the crates declare, for docs/check."""
import glob, os, re

WORD = r"[^\s(){}\[\];,.`'\"&]+"
# in a .rt file: a parameter or a field, a function, a constant, a case of an enum
DECLARED = re.compile(r'\b\w+(?=:\s)|(?<=\bfn )\w+|(?<=\bconst )\w+|(?<=^    )[A-Z]\w+')
# in an .antt file
LAW = re.compile(r'\s*(?:(?:pub|abbrev|unfoldable) )*(?:(?P<block>data|record) (?P<type>[^\s{]+)|(?P<name>\S+) : )')


def lines(path):
    with open(path, encoding='utf-8') as file:
        return file.read().split('\n')


def code(path):
    return [re.sub(r'(^|\s)(//|--)(\s.*|$)', '', line) for line in lines(path)]


class Crate:
    """`called` are functions, types and constants, alone and after their file or type; `laws`, by file, definitions and theorems; `all` is every name, `words` whatever stands in the code."""

    def __init__(self, name):
        self.called, self.laws, self.all, self.words = set(), {}, {name}, set()
        self.edits = {os.path.basename(path)[:-5] for path in glob.glob('crates/%s/must-fail/*.edit' % name)}
        for path in glob.glob('crates/%s/src/**/*.rt' % name, recursive=True):
            self.read_source(os.path.basename(path)[:-3], code(path))
        for folder in ('specs', 'proofs'):  # rt lays copies of them into out/
            for path in glob.glob('crates/%s/%s/**/*.antt' % (name, folder), recursive=True):
                self.laws[path[len('crates/') : -len('.antt')]] = self.read_laws(code(path))
        self.all |= self.called

    def read_source(self, file, text):
        owner = ''
        for line in text:
            if re.match('impl |}', line):
                owner = ''.join(re.findall(r'^impl (\w+)', line))
            for name in re.findall(r'\b(?:fn|struct|enum|const) (\w+)', line):
                self.called |= {owner + '::' + name} if owner else {name, file + '::' + name}
            self.all |= set(DECLARED.findall(line))
            self.words |= set(re.findall(WORD, line))

    def read_laws(self, text):
        """The names that a file declares, its fields and constructors left out."""
        names, block = set(), None
        for line in text:
            depth = len(line) - len(line.lstrip())
            if block is not None and line.strip() and depth <= block:
                block = None
            law = LAW.match(line)
            if law:
                name = (law['type'] or law['name']).strip('_◌')
                self.all.add(name)
                if block is None:
                    names.add(name)
                if law['block']:
                    block = depth
            self.words |= set(re.findall(WORD, line))
        return names
