"""What several tools share: how they end on an error, how they read and write files, crates.txt, `use` lines, must-fail edits,
and lists in lines. No tool by itself. The tools are run from the repository's root."""
import os
import re
import subprocess
import sys

# ---- ends and files


def usage(doc):
    """Ends on bad arguments: prints the head of the tool, which says how it is called."""
    print(doc, file=sys.stderr)
    sys.exit(2)


def fail(words):
    """Ends where a tool cannot do its work; says why in one line."""
    print(f'{os.path.basename(sys.argv[0])}: {words}', file=sys.stderr)
    sys.exit(2)


def read(path):
    """The text of a file, its line ends as they are."""
    try:
        with open(path, encoding='utf-8', newline='') as file:
            return file.read()
    except (OSError, UnicodeDecodeError) as error:
        fail(f'{path}: {getattr(error, "strerror", None) or "not UTF-8"}')


def write(path, text):
    """Makes this the text of a file."""
    try:
        with open(path, 'w', encoding='utf-8', newline='') as file:
            file.write(text)
    except OSError as error:
        fail(f'{path}: {error.strerror}')


def rewrite(path, change):
    """Puts a file's text through a function, and writes it if that made another; gives the text before and after."""
    before = read(path)
    after = change(before)
    if after != before:
        write(path, after)
    return before, after


def git(*words):
    """What a git command prints."""
    run = subprocess.run(['git', *words], capture_output=True, encoding='utf-8')
    if run.returncode != 0:
        fail(f'git {words[0]}: {(run.stderr.strip().splitlines() or ["failed"])[0]}')
    return run.stdout


def known_files(folder):
    """The files beneath a folder that git knows or would take."""
    listed = git('ls-files', '-z', '--cached', '--others', '--exclude-standard', folder).split('\0')
    return [path for path in listed if os.path.isfile(path)]


# ---- the files of a function's proof, in proofs/FUNCTION/: the loops, the goals, and a proof by hand

PROOFS = {'Invariants.antt', 'Answers.antt', 'Proof.antt'}


# ---- crates.txt


def stands_on(root='.'):
    """For each crate, the crates that crates.txt puts straight below it, in the order of the file; `NAME staticlib:` is NAME's line."""
    deps = {}
    for line in read(os.path.join(root, 'crates.txt')).splitlines():
        name, colon, rest = line.split('#')[0].partition(':')
        if colon and name.split():
            deps[name.split()[0]] = rest.split()
    return deps


# ---- `use` lines: `use MODULE.{NAMES}`, in code `ghost use MODULE.{NAMES};`

USE = re.compile(r'((?:ghost |pub )?use )(\S+?)\.\{(.*)\}(;?)')


def use_line(line):
    """The parts of a `use` line that lists names (its first words, the module, the names, the end), or None."""
    match = USE.fullmatch(line)
    return match and (match.group(1), match.group(2), [name.strip() for name in match.group(3).split(',')], match.group(4))


def written_use(word, module, names, end):
    """The parts of a `use` line as one line."""
    return f'{word}{module}.{{{", ".join(names)}}}{end}'


def without_comments(lines):
    """The lines that are not only a comment, as one text."""
    return '\n'.join(line for line in lines if not re.match(r'\s*(--|//)', line))


def has_name(name, text):
    """Whether a name stands in a text by itself, not as a part of a longer one and not as a field, `x.NAME`."""
    return re.search(r"(?<![\w\-'.])" + re.escape(name) + r"(?![\w\-'])", text) is not None


# ---- must-fail edits: crates/CRATE/must-fail/LABEL.edit


class Stale(Exception):
    """An edit that does not fit its crate; says why."""


def edit_pairs(text):
    """The replacements of an edit, (file, old, new) each: a `file:` line holds for the pairs of `old:` and `new:` after it."""
    pairs, file, old = [], '', ''
    for line in text.split('\n'):
        if line.startswith('file: '):
            file = line[len('file: '):]
        elif line.startswith('old: '):
            old = line[len('old: '):]
        elif line.startswith('new:'):
            pairs.append((file, old, line[len('new:'):].removeprefix(' ')))
            old = ''
    return pairs


def edited(crate, edit):
    """The files of a crate that an edit changes, path to text, as they are and as it makes them; raises Stale if it does not fit.
    The replacements are made in turn, so a later one sees what an earlier one wrote; each old text must be in its file once."""
    before, after = {}, {}
    pairs = edit_pairs(read(edit))
    if not pairs:
        raise Stale('NOPAIR')
    for file, old, new in pairs:
        path = f'crates/{crate}/{file}'
        if not re.match(r'(src|specs|proofs)/', file) or '..' in file.split('/') or not os.path.isfile(path):
            raise Stale(f'NOFILE {file} | {old[:90]}')
        if path not in before:
            before[path] = after[path] = read(path)
        count = after[path].count(old) if old else 0
        if count != 1:
            raise Stale(f'COUNT {count} {file} | {old[:90]}')
        after[path] = after[path].replace(old, new)
    if after == before:
        raise Stale('CHANGES NOTHING')
    return before, after


# ---- lists in lines


def in_lines(items, width):
    """The items, joined by spaces, in lines of at most so many characters."""
    lines = []
    for item in items:
        if lines and len(lines[-1]) + 1 + len(item) <= width:
            lines[-1] += ' ' + item
        else:
            lines.append(item)
    return lines
