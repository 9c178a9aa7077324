" Made by tools/editors from the words of tools/mwilib/names.py: a change there is written by `--write`.
au BufRead,BufNewFile *.maude setfiletype maude
