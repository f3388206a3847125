"""Makes a C program that prints what the header declares: called as `declared_in_header.py HEADER`. Each field of each
struct, its offset and size; each struct's size; each constant. A line of a struct that is not understood is an error,
so that no field is left out.
"""

import pathlib
import re
import sys

header = re.sub(r"//.*", "", pathlib.Path(sys.argv[1]).read_text())
structs = re.findall(r"typedef struct (cession_\w+) \{(.*?)\} \1;", header, re.DOTALL)
constants = re.findall(r"#define CESSION_(\w+) \d+\n", header)
if len(structs) != header.count("struct") or len(constants) != header.count("#define") - 1:
    sys.exit("declared_in_header.py: a struct or a constant of the header is not understood")


def fields(name, body):
    """The fields of a struct: numbers without a sign, and structs of the header, alone or in places."""
    for line in filter(None, map(str.strip, body.splitlines())):
        field = re.fullmatch(r"(?:uint64_t|size_t|cession_\w+) (\w+)(?:\[CESSION_\w+\])?;", line)
        if not field:
            sys.exit(f"declared_in_header.py: {name} has a line that is not understood: {line}")
        yield field[1]


print('#include "cession.h"\n#include <stdio.h>\nint main(void) {')
for name, body in structs:
    # The bindings write a name of two words as one.
    plain = name.removeprefix("cession_").replace("_", "")
    for field in fields(name, body):
        place = f"offsetof({name}, {field}), sizeof(((({name} *)0)->{field}))"
        print(f'    printf("{plain} {field} %zu %zu\\n", {place});')
    print(f'    printf("{plain} %zu\\n", sizeof({name}));')
for name in constants:
    # 0 has no name where a refusal is an error.
    if name != "ACCEPTED":
        print(f'    printf("constant {name} %d\\n", CESSION_{name});')
print("    return 0;\n}")
