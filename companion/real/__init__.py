"""Real Fortran: files of users in fixed and free form, from FORTRAN 77 on.

The modules, from the text of a file up to its units:

- `library`: the library fparser, which reads single statements;
- `source`, `items`: the lines of a file, and its statements as they are written;
- `terms`, `tree`: what expressions and statements say;
- `keywords`, `expressions`, `declarations`, `convert`: how that is found in a text, with the library;
- `units`, `blocks`: program units and blocks, and how they are found;
- `specifications`, `symbols`, `sharing`, `operators`, `constants`: what declarations say, and what names stand for.

What the statements of a unit do, which `facts` brings together:

- `accesses`, `intrinsics`, `transfers`: what a statement reads and writes; `roles`: what names are for it;
- `flow`, `liveness`: where the run goes on, and which values are needed later;
- `procedures`, `commons`: which procedure and which variable of a common block a name means;
- `summaries`, `calls`: what procedures do, and what a call of one does in the names of the unit that calls;
- `shape`, `conditions`: an iteration without its jumps, and IFs that depend on earlier ones;
- `recurrences`: reductions and induction variables.

From a loop to what is said about it:

- `survey`: what a loop reads and writes, and why it may get no model;
- `indices`, `bodies`, `model`: a loop as a program for ped; `naming` and `writer`: its names and its text;
- `asking`: what ped says about a model;
- `verdicts`: what is said about a loop; `assumptions`: what that rests on;
- `report`, `document`: verdicts as text and as JSON;
- `explaining`, `locating`: why a loop carries what it does, in the user's own lines;
- `project`, `overview`: several files at once; `marking`, `counted`, `costs`: runs of them that count their loops;
- `directives`, `exporting`: what is written into the user's file; `compiled`: runs of it, compared.

`commands.real` has the commands, and `readings` says which files are read so.

Nothing in this package is imported where a program of ped's profile is read.
"""
