" Compiler plugin for vim: `:compiler pedx`, and then `:make` has pedx check the present file; `:copen` lists what it
" says, and `:cnext` goes on to the next place. docs/COMPANION.md, "In an editor", tells how it is installed.

if exists("current_compiler")
  finish
endif
let current_compiler = "pedx"

if exists(":CompilerSet") != 2
  command -nargs=* CompilerSet setlocal <args>
endif

CompilerSet makeprg=pedx\ check\ $*\ %:S
CompilerSet errorformat=%f:%l:%c:\ %trror:\ %m,%f:%l:%c:\ %tarning:\ %m,%f:%l:%c:\ %tote:\ %m,%-G%.%#
