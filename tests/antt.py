"""The files of specs/ and proofs/, for scripts: what each imports, its lemmas and definitions, and what a name in it means."""
import glob, os, re, sys

TOP = os.path.dirname(os.path.dirname(os.path.abspath(__file__)))
ITEM = re.compile(r'(?P<words>(?:(?:abbrev|unfoldable|opaque|pub|record|data) )*)(?P<name>[^\s:(){}=]+)(?= |$)')
USE = re.compile(r'(?:ghost )?(?:unfoldable )?(pub )?use ([^\s{}]+?)(?:\.\{(.*)\}|)(?: as (\S+?))?;?$')


def text_of(path):
    with open(path, encoding='utf-8') as file:
        return file.read()


def begun_by(line):
    """The match of a line that begins an item: one with a word in front of its name, or a colon after it."""
    start = ITEM.match(line)
    is_item = start and not line.startswith('unfolding ') and (start['words'] or ':' in line[start.end():].split())
    return start if is_item else None


class Item:
    """A lemma or definition: its line, the lines that make it, and the head of the module with parameters around it."""

    def __init__(self, number, words, name, head):
        self.number, self.words, self.name, self.head, self.lines = number, words.split(), name, head, []

    def constructors(self):
        made = (re.match(r'  ([^\s:(){}]+) :', line) for line in self.lines if 'data' in self.words)
        return [it[1] for it in made if it]


class Imports:
    """What a file imports: names of modules, and modules by a short name; and the modules that it gives on."""

    def __init__(self):
        self.names, self.modules, self.given = {}, {}, []

    def add(self, line):
        found = USE.match(line.strip())
        if not found:
            sys.exit('not understood: ' + line)
        given, module, names, short = found.groups()
        module = module.removeprefix('Rattle.')
        if names is None:
            self.modules[short or module.split('.')[-1]] = module
            if given:
                self.given.append(module)
        for name in (names or '').split(','):
            whole, _, other = name.strip().partition(' as ')
            if whole:
                self.names[other.strip() or whole] = (module, whole)


class File:
    """A file: its imports, its items by name, and the lines outside of them. Comments are left out."""

    def __init__(self, path):
        self.path, self.imports, self.items, self.outside = path, Imports(), {}, []
        item, head, opened = None, '', ''
        for number, line in enumerate(text_of(path).split('\n'), 1):
            line = re.sub(r'(^|\s)--.*', '', line).rstrip()
            if opened or re.match(r'(?:(?:unfoldable|pub) )*use ', line):
                opened += line.strip()
                if opened.count('{') == opened.count('}'):
                    self.imports.add(opened)
                    opened = ''
                continue
            if not line or line.startswith('pub mod '):
                continue
            if line.startswith('module '):
                head, item = line, None
                self.outside.append(line)
                continue
            if head and line.startswith('  '):
                line = line[2:]
            elif not line.startswith(' '):
                head = ''
            start = begun_by(line)
            if start and not (item and item.name == start['name']):
                item = self.items.setdefault(start['name'], Item(number, start['words'], start['name'], head))
            (item.lines if item else self.outside).append(line)
        self.constructors = {made: item.name for item in self.items.values() for made in item.constructors()}


class Project:
    """All files, by the names of their modules: crate.specs.File."""

    def __init__(self):
        self.files, self.given = {}, {}
        for path in sorted(glob.glob('crates/*/*/**/*.antt', recursive=True, root_dir=TOP)):
            if '/out/' not in path:
                self.files[path[len('crates/'):-len('.antt')].replace('/', '.')] = File(os.path.join(TOP, path))
        self.crates = {module.split('.')[0] for module in self.files}
        for name, file in self.files.items():
            for module in file.imports.given:
                self.given[name.rsplit('.', 1)[0] + '.' + module.split('.')[-1]] = module

    def item(self, module, name):
        """The item of this name in a module, or None."""
        file = self.files.get(module)
        return file and file.items.get(name)

    def meaning(self, module, name, depth=0):
        """Where a name of a module is defined, as a module and a name; of a constructor or field its whole."""
        module = self.given.get(module, module)
        file = self.files.get(module)
        if file is None:
            outer, _, last = module.rpartition('.')
            outer = self.given.get(outer, outer)
            return (outer, last) if self.item(outer, last) else (module, name)
        if name not in file.items and name in file.constructors:
            return module, file.constructors[name]
        if name in file.items or name not in file.imports.names or depth > 9:
            return module, name
        return self.meaning(*file.imports.names[name], depth + 1)


def line_of(file, item):
    """The path of a file, and the line at which an item of it begins."""
    return f'{os.path.relpath(file.path, TOP)}:{item.number}'
