#!/usr/bin/env python3
"""What of the crates' lemmas other crates cite: the door of a crate is what its proofs/Lib.antt names by `pub mod`.

Without words it writes three numbers: the files of lemmas that other crates cite, the imports that do so, and the open
modules of proofs/Lib.antt that no other crate cites. With `--list` it writes each file with the crates that cite it.
"""
import collections
import pathlib
import re
import sys

crates = pathlib.Path(__file__).resolve().parent.parent / 'crates'
citation = re.compile(r'\b(ped_\w+)(?:\.|::)proofs(?:\.|::)(\w+(?:(?:\.|::)\w+)*)')
cited = collections.defaultdict(collections.Counter)
for folder in sorted(crates.iterdir()):
    for part in ('src', 'specs', 'proofs'):
        for file in sorted((folder / part).rglob('*')):
            if file.suffix in ('.antt', '.rt'):
                for line in file.read_text().splitlines():
                    if not line.lstrip().startswith(('--', '//')):
                        for crate, path in citation.findall(line):
                            if crate != folder.name:
                                words = re.split(r'\.|::', path)
                                files = [word for word in words if word[0].isupper()]
                                cited[crate, '.'.join(files)][folder.name] += 1

unused = []
for folder in sorted(crates.iterdir()):
    door = folder / 'proofs' / 'Lib.antt'
    if door.exists():
        used = {file.split('.')[0] for crate, file in cited if crate == folder.name}
        unused += [(folder.name, name) for name in re.findall(r'(?m)^pub mod (\w+)', door.read_text()) if name not in used]

if sys.argv[1:] == ['--list']:
    for (crate, file), users in sorted(cited.items()):
        print(f'{crate} {file}: ' + ', '.join(f'{user} {count}' for user, count in sorted(users.items())))
    for crate, name in unused:
        print(f'{crate} {name}: open, and cited by no other crate')
else:
    print(len(cited), sum(sum(users.values()) for users in cited.values()), len(unused))
