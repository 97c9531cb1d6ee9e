"""What the tests that look at sources share: code without its comments, definitions of specs/, functions with their contracts, and the crates by floors."""
import glob
import os
import re
import textwrap
from typing import NamedTuple

NAME = r'[^\s(){}.;,@"«»]+'
ANTT = re.compile(r'("(?:\\.|[^"\\])*")|\{-.*?-\}|(?<![^\s(){};,])--[^\n]*', re.S)
RATTLE = re.compile(r'''(b'(?:\\.|[^'\\])'|"(?:\\.|[^"\\])*")|//[^\n]*''')
HEADER = re.compile(r'^(?:unfoldable )?(?:pub )?(?:use|mod) [^{\n]*(?:\{[^}]*\})?[^\n]*', re.M)
DEFINED = re.compile(rf'((?:abbrev |unfoldable |pub )*)(?:(?:data|record) ({NAME})|({NAME}) :)(?:\s|$)')
MEMBER = re.compile(rf'  (?:pub )?({NAME}) :(?:\s|$)')
FUNCTION = re.compile(r'^impl\b[^{;]*?(\w+)(?:<[^{}]*>)? \{|^\}|\b(pub )?(?:extern "C" )?fn (\w+)', re.M)
# what stands before a clause may have a type of many, as [u8; 64]; a star and a name may stand behind its word
CLAUSE = re.compile(r'(?:\[(?:\[[^\]]*\]|[^\[\]])*\]|[^{;\[])*?\b(requires|ensures)(\*?)\s*(\w*)\s*\{')
BARE = re.compile(r'(?:\[(?:\[[^\]]*\]|[^\[\]])*\]|[^{;\[])*')
CYCLE = re.compile(r'#\[cycle\((\w+)\)\]\s*(?:(?:#\[[^\n]*\]|pub(?:\([a-z]+\))?)\s*)*$')
BRACES = re.compile(r'"(?:\\.|[^"\\])*"|[{}]')


def uncommented(text, kind=ANTT):
    """The same lines without their comments; quoted texts stay as they are."""
    return kind.sub(lambda m: m.group(1) or '\n' * m.group().count('\n'), text)


def plain(text):
    """Words parted by one blank: layout does not count."""
    return ' '.join(text.split())


class Definition(NamedTuple):
    """A definition: its signature with its clauses, and the names of its cases or fields."""
    name: str
    public: bool
    text: str
    members: list


def paragraphs(lines):
    """Lines by the unindented one that they follow."""
    found = []
    for line in filter(str.strip, lines):
        if line.startswith(' ') and found:
            found[-1].append(line)
        else:
            found.append([line])
    return found


def definitions_in(lines, around=''):
    found, fixity = [], ''
    for first, *rest in paragraphs(lines):
        if re.fullmatch(r'(unfoldable )?mutual', first):
            found += definitions_in(textwrap.dedent('\n'.join(rest)).splitlines(), around)
        elif first.startswith('module '):
            while not first.endswith(' where'):
                first += '\n' + rest.pop(0)
            found += definitions_in(textwrap.dedent('\n'.join(rest)).splitlines(), around + first)
        elif first.startswith('infix'):
            fixity = first
        elif named := DEFINED.match(first):
            members = [m.group(1) for m in map(MEMBER.match, rest) if m] if named.group(2) else []
            text = plain('\n'.join([around, fixity, first, *rest]))
            found.append(Definition(named.group(2) or named.group(3), 'pub ' in named.group(1), text, members))
            fixity = ''
        elif found:
            last = found.pop()
            found.append(last._replace(text=plain('\n'.join([last.text, first, *rest]))))
    return found


def definitions(text):
    """The definitions of an antt file in their order."""
    return definitions_in(HEADER.sub('', uncommented(text)).splitlines())


class Function(NamedTuple):
    """A function: the type that it belongs to ('' for none), whether C calls it, its parameters and answer, what it asks and promises, each clause with
    its word and name too, and the cycle of calls that it is proved in ('' for none)."""
    owner: str
    name: str
    public: bool
    exported: bool
    signature: str
    requires: str
    ensures: str
    clauses: list
    cycle: str

    def label(self):
        return f'{self.owner}::{self.name}' if self.owner else self.name


def closed_at(code, at):
    """Where the brace closes that opens before a place."""
    depth = 1
    for found in BRACES.finditer(code, at):
        depth += {'{': 1, '}': -1}.get(found.group(), 0)
        if not depth:
            return found.start()
    raise ValueError(f'a brace stays open: {code[at:at + 80]}')


def functions(text):
    """The functions of a source file in their order."""
    code, owner = uncommented(text, RATTLE), ''
    for found in FUNCTION.finditer(code):
        if found.group(3):
            said, clauses, at, signature = {'requires': '', 'ensures': ''}, [], found.end(), None
            while clause := CLAUSE.match(code, at):
                word, star, name = clause.groups()
                signature = plain(code[at:clause.start(1)]) if signature is None else signature
                end = closed_at(code, clause.end())
                clauses.append((word + star, name, code[clause.end():end].strip()))
                said[word] += code[clause.end():end]
                at = end + 1
            cycle = CYCLE.search(code, 0, found.start())
            signature = plain(BARE.match(code, at).group()) if signature is None else signature
            yield Function(owner, found.group(3), bool(found.group(2)), 'extern' in found.group(), signature, **said, clauses=clauses,
                           cycle=cycle.group(1) if cycle else '')
        else:
            owner = found.group(1) or ''


def passed_on(root):
    """What a crate's src/lib.rt passes on, as MODULE::ITEM, and the modules that are open whole."""
    items = re.findall(r'^pub use (\w+)::(?:(\w+)|\{([^}]*)\});', root, re.M)
    passed = {f'{module}::{item.strip()}' for module, one, many in items for item in (one or many).split(',') if item.strip()}
    return passed, {'lib', *re.findall(r'^pub mod (\w+);', root, re.M)}


def proofs_of(crate, module, function):
    """The files of a function's own proof; none where the toolchain finds it itself. A method's stand below its type, which may be another module's."""
    among = [f'crates/{crate}/proofs/' + '/'.join(filter(None, (module, function.owner)))]
    if function.owner: among += sorted(set(glob.glob(f'crates/{crate}/proofs/*/{function.owner}')) - set(among))
    folders = [f'{there}/{name}' for there in among for name in (f'+{function.cycle}' if function.cycle else function.name, f'+{function.name}')]
    found = [f'{folder}/{name}.antt' for folder in folders for name in ('Answers', 'Invariants', 'Proof')]
    return [path for path in found if os.path.isfile(path)]


def floors(readme):
    """The crates of the last table of README.md, in its order, each with its floor."""
    floor = ''
    for named, crates in re.findall(r'^\| ?([\w ]*?) ?\| ((?:`\w+`(?:, )?)+) \|', readme.split('\n| floor | crate |')[1], re.M):
        floor = named or floor
        yield from ((crate, floor) for crate in re.findall(r'\w+', crates))
