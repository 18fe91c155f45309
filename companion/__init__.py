"""pedx, the companion of ped: tables, sentences and files made from what ped prints.

Nothing here is trusted by ped, and nothing here decides about dependences: the program `ped` says which dependences
there are and which steps are accepted, and the companion looks things up in its answers. docs/COMPANION.md is the
manual.

The modules, from the text of a program up to the commands:

- `lines`, `expressions`, `statements`, `references`, `program`: what is written in a program;
- `panes`, `scripts`, `replies`, `ped`: what ped prints, and how it is called;
- `views`: a program with its dependences, as the commands look at it;
- `commands`: a module for each command of pedx, with `command_line` in front of them.
"""

#: The version of ped and pedx; CHANGELOG.md and the manual pages have it, too.
VERSION = "0.9.0"
