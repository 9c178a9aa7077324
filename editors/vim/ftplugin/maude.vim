" Made by tools/editors from the words of tools/mwilib/names.py: a change there is written by `--write`.
if exists("b:did_ftplugin")
  finish
endif
let b:did_ftplugin = 1

setlocal commentstring=***\ %s comments=:***,:---
setlocal iskeyword=33-126,^(,^),^[,^],^{,^},^,
compiler mwi
