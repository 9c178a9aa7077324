" Made by tools/editors from the words of tools/mwilib/names.py: a change there is written by `--write`.
if exists("current_compiler")
  finish
endif
let current_compiler = "mwi"

CompilerSet makeprg=mwi\ %:S
CompilerSet errorformat=%f:%l:%c:\ %trror:\ %m,%f:%l:%c:\ %tarning:\ %m,%f:%l:\ %trror:\ %m,%f:%l:\ %tarning:\ %m,%-G%.%#
