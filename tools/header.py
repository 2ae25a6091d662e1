"""Reads include/girdermoth.h, line by line: its constants, structs and functions in their order, and the layout that C gives to each struct."""
import re
import sys
from dataclasses import dataclass, field

# bytes, which are the alignment too, and the same type in Rust; a bool is a byte in a struct
PLAIN = {
    'uint8_t': (1, 'u8'),
    'uint16_t': (2, 'u16'),
    'uint32_t': (4, 'u32'),
    'uint64_t': (8, 'u64'),
    'int64_t': (8, 'i64'),
    'size_t': (8, 'usize'),
    'double': (8, 'f64'),
    'bool': (1, 'bool'),
}


@dataclass
class Field:
    """A field of a struct, or a parameter. `count` is that of an array; `pointer` is '*' or 'const *'."""
    name: str
    kind: str
    count: int = 0
    pointer: str = ''


@dataclass
class Struct:
    name: str
    fields: list
    comment: list


@dataclass
class Function:
    name: str
    answer: str
    parameters: list
    section: str


@dataclass
class Header:
    # the constants, by their names without GIRDERMOTH_, in groups as they stand; and what is said behind each
    enums: list = field(default_factory=list)
    defines: dict = field(default_factory=dict)
    version: str = ''
    said: dict = field(default_factory=dict)
    structs: dict = field(default_factory=dict)
    functions: list = field(default_factory=list)

    def of(self, kind):
        """The struct of a type's name, or nothing."""
        return self.structs.get(kind)

    def size(self, kind):
        return self.layout(kind)[0] if self.of(kind) else PLAIN[kind][0]

    def align(self, kind):
        return self.layout(kind)[1] if self.of(kind) else PLAIN[kind][0]

    def layout(self, name):
        """Size, alignment and the offset of each field: as C lays it out on every machine with these sizes."""
        at, most, offsets = 0, 1, []
        for part in self.structs[name].fields:
            align = self.align(part.kind)
            at = (at + align - 1) // align * align
            offsets.append(at)
            at += self.size(part.kind) * max(part.count, 1)
            most = max(most, align)
        return (at + most - 1) // most * most, most, offsets


def fail(number, line):
    sys.exit(f'include/girdermoth.h, line {number}: what is "{line.strip()}"?')


def constants(header, text):
    """`A = 0, B, C = 5`, of which one without a value is one more than the one before."""
    group, value = header.enums[-1], -1
    for part in filter(None, (part.strip() for part in text.split(','))):
        name, _, given = part.partition(' = ')
        value = int(given) if given else value + 1
        group[name.removeprefix('GIRDERMOTH_')] = value


def declared(text):
    """`const girdermoth_sender *s`, `uint64_t a`: one parameter."""
    found = re.fullmatch(r'(const )?(\w+) (\*?)(\w+)', text)
    return found and Field(found[4], found[2], 0, (found[1] or '') + found[3])


def read(path):
    header, comment, section, within, inside, skipping = Header(), [], '', '', [], False
    for number, line in enumerate(open(path, encoding='utf-8').read().split('\n'), 1):
        code, _, said = (part.strip() for part in line.partition('//'))
        if line.startswith('#ifdef __cplusplus') or line.startswith('#else'):
            skipping = line.startswith('#ifdef')
        elif line.startswith('#endif'):
            skipping = False
        elif line.startswith('#define GIRDERMOTH_VERSION '):
            header.version = line.split('"')[1]
        elif line.startswith('#define') and (found := re.fullmatch(r'#define GIRDERMOTH_(\w+) (?:UINT64_C\()?(\d+)\)?', line)):
            header.defines[found[1]] = int(found[2])
        elif not code:
            comment = comment + [said] if said else []
            if said.startswith('----'):
                section, comment = said.removeprefix('---- '), []
        elif skipping or code.startswith('#') or code.startswith('GIRDERMOTH_ASSERT('):
            pass
        elif within == 'enum':
            if code == '};':
                within = ''
            else:
                constants(header, code)
                header.said[re.match(r'GIRDERMOTH_(\w+)', code)[1]] = said
        elif within == 'struct':
            if code.startswith('}'):
                found = re.fullmatch(r'} (\w+);', code) or fail(number, line)
                header.structs[found[1]] = Struct(found[1], inside, above)
                within, inside = '', []
            else:
                found = re.fullmatch(r'(\w+) ([\w, \[\]]+);', code) or fail(number, line)
                for name in found[2].split(', '):
                    name, _, count = name.partition('[')
                    inside.append(Field(name, found[1], int(count.rstrip(']') or 0)))
        elif code == 'enum {':
            within = 'enum'
            header.enums.append({})
        elif code == 'typedef struct {':
            within, above = 'struct', comment
        elif found := re.fullmatch(r'enum { (.*) };', code):
            header.enums.append({})
            constants(header, found[1])
        elif found := re.fullmatch(r'(\w+) (girdermoth_\w+)\((.*)\);', code):
            parameters = [declared(text) or fail(number, line) for text in found[3].split(', ')]
            header.functions.append(Function(found[2], found[1], parameters, section))
        elif code != '}':
            fail(number, line)
        if code:
            comment = []
    return header
