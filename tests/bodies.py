"""Wrong bodies, as tests/wrong_bodies tries them: what each changes, and which can be tried at once."""
import os, re

# What the prover says of a function that it did not prove, and why: what it calls is not proved, or it is not itself.
UNPROVED = re.compile(r'^fn (\S+): (?:no proof|not proved)(.*)$', re.M)
BY_ANOTHER = re.compile(r'it (calls|passes) .*\b(is|are) not proved$|it waits for the proof of ')
# Answers that a function, or one that calls it, stands on: the crate and the path of the function whose they are.
ANSWERS = re.compile(r'`Rattle\.(\w+)\.proofs\.([^`]+)\.Answers\.[^.`]+`')
# The head of an impl of a type of its own, with the type, or the end of an item.
HEAD = re.compile(r'^(?:impl(?:<.*>)? (\w+)(?:<.*>)? \{|\})$', re.M)


class Body:
    """A wrong body: the texts that it takes for others, by file."""

    def __init__(self, path):
        self.path, self.changes, file, old = path, [], None, None
        with open(path, encoding='utf-8') as lines:
            for line in lines.read().split('\n'):
                if line.startswith('file: '):
                    file = line[len('file: '):].strip()
                elif line.startswith('old: '):
                    old = line[len('old: '):]
                elif line.startswith('new:') and file and old:
                    self.changes.append((file, old, line[len('new:'):].removeprefix(' ')))
                    old = None

    def functions(self, crate):
        """The functions whose bodies it changes, as pairs of a module and a name; none if it changes anything else."""
        found = set()
        for file, old, _ in self.changes:
            text = read(crate, file)
            if not file.startswith('src/') or text.count(old) != 1:
                return set()
            at = text.index(old)
            name = function_at(text, at, len(old))
            if name is None:
                return set()
            found.add((module_of(home_of(type_at(text, at), file, crate)), name))
        return found

    def put_into(self, crate):
        for file, old, new in self.changes:
            text = read(crate, file)
            with open(os.path.join(crate, file), 'w', encoding='utf-8') as it:
                it.write(text.replace(old, new))


def read(crate, file):
    with open(os.path.join(crate, file), encoding='utf-8') as it:
        return it.read()


def module_of(file):
    """The words of the path of a file's module: none for the file at the top."""
    words = file.removeprefix('src/').removesuffix('.rt').split('/')
    return tuple(words[:-1] if words[-1] in ('lib', 'main', 'mod') else words)


def type_at(text, at):
    """The type in whose own impl an offset of a text is, or none."""
    heads = HEAD.findall(text[:at])
    return (heads[-1] or None) if heads else None


def home_of(name, file, crate):
    """The file that declares a type, or the given one. The prover names a method by the module of its type."""
    if name is None:
        return file
    declares = re.compile(rf'^(?:pub(?:\([a-z]+\))? )?(?:struct|enum) {name}\b', re.M)
    return next((it for it in [file, *files_of(crate)] if declares.search(read(crate, it))), file)


def files_of(crate):
    """The files of a crate's code, by their paths in it."""
    walked = os.walk(os.path.join(crate, 'src'))
    paths = [os.path.join(at, name) for at, _, names in walked for name in names if name.endswith('.rt')]
    return sorted(os.path.relpath(path, crate) for path in paths)


def function_at(text, at, length):
    """The name of the function whose body holds all of a text, or none. A body begins after its contract, and ends with a
    brace that stands as far to the right as the function."""
    begun = list(re.finditer(r'^( *)(?:pub(?:\([a-z]+\))? )?(?:const )?fn (\w+)', text[:at], re.M))
    if not begun:
        return None
    indent, name = begun[-1].groups()
    start, lines = begun[-1].start(), text[begun[-1].start():].split('\n')
    body = None
    for line in lines:
        if body is None and line.endswith('{') and not re.match(r' *(requires|ensures)\b', line):
            body = start + len(line)
        if line == indent + '}':
            return name if body is not None and body < at and at + length <= start else None
        start += len(line) + 1
    return None


def groups_of(bodies, crate):
    """The bodies in groups, each of bodies of different functions, and those that are to be tried alone: what changes no
    function, and all where no two can be tried at once."""
    groups, alone = [], []
    for body in bodies:
        changed = body.functions(crate)
        if not changed:
            alone.append(body)
            continue
        for group, taken in groups:
            if not changed & taken:
                group.append(body)
                taken |= changed
                break
        else:
            groups.append(([body], set(changed)))
    groups = [group for group, _ in groups]
    if all(len(group) == 1 for group in groups):
        return [], alone + [group[0] for group in groups]
    return groups, alone


def is_by_another(name, reason):
    """Whether a function is not proved for this reason because another is not."""
    answers = ANSWERS.findall(reason) if reason.startswith('it stands on ') else []
    if answers:
        return all([crate, *path.split('.')] != name.split('::') for crate, path in answers)
    return BY_ANOTHER.match(reason) is not None


def is_open(name, why):
    """Whether a function is not proved itself, by what the prover says after its name."""
    reasons = [it for it in why.removeprefix(':').strip().removeprefix(';').strip().split('; ') if it]
    return not reasons or not all(is_by_another(name, it) for it in reasons)


def unproved(said):
    """The functions that a check did not prove themselves, as the prover names them; none if it came to no end."""
    if not re.search(r'^holes=\d+$', said, re.M):
        return set()
    return {tuple(name.split('::')) for name, why in UNPROVED.findall(said) if is_open(name, why)}


def names_one(path, function):
    """Whether a path of the prover's, CRATE::MODULE::..::NAME, is that of a function of a module."""
    module, name = function
    return path[1:1 + len(module)] == module and name in path[1 + len(module):]


def refused_of(group, changed, said):
    """Those of a group that were refused, by the functions that each changes: one of these is not proved. None was if one
    is not proved that nobody changed."""
    open_ones = unproved(said)
    every = set().union(*changed.values())
    if any(not any(names_one(path, it) for it in every) for path in open_ones):
        return []
    return [body for body in group if any(names_one(path, it) for path in open_ones for it in changed[body])]
