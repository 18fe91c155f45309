"""`pedx edit`: the panes of a program on a terminal, with keys for all that a session can do.

The editor drives the program ped and computes nothing itself: which dependences there are, and whether a step is
carried out, is ped's answer. It keeps the changes that ped has carried out as a script, which a session of ped replays.

The modules, from the program up to the keys, over `companion.outline`, the loops of a printed program:

- `changes`, `session`: the changes so far, and what ped answers to one more;
- `filters`, `desk`: what is looked at: the present line and loop, the dependences that are shown;
- `pictures`: what the terminal shows of it, as text;
- `keys`, `terminal`, `prompts`, `pages`: the keys, and what is asked and told;
- `working`: what takes time, in a thread of its own while keys are served;
- `lists`, `advice`, `free_edits`, `saving`, `compiling`: what single keys do;
- `editor`: the loop over the keys.
"""
