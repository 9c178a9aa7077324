" Made by tools/editors from the words of tools/mwilib/names.py: a change there is written by `--write`.
if exists("b:current_syntax")
  finish
endif

syn case match
syn keyword maudeModule fmod mod omod endfm endm endom is
syn keyword maudeStatement sort sorts subsort subsorts op ops var vars eq ceq cq rl crl class subclass subclasses msg msgs protecting pr extending ex including inc
syn keyword maudeCommand reduce red rewrite rew parse match xmatch
syn keyword maudeAttribute assoc comm prec gather frozen ctor ditto memo config object message format metadata
syn match maudeAttribute /\%(^\|[ \t(\[{]\)\@<=id:\%($\|[ \t)\]}]\)\@=/
syn keyword maudeAttribute nonexec label metadata owise
syn keyword maudePrelude BOOL NAT QID CONFIGURATION
syn keyword maudeLine load in set show eof quit q
syn keyword maudeTerm if then else fi true false
syn keyword maudeMark if
syn match maudeMark /\%(^\|[ \t(\[{]\)\@<=:\%($\|[ \t)\]}]\)\@=/
syn match maudeMark /\%(^\|[ \t(\[{]\)\@<=->\%($\|[ \t)\]}]\)\@=/
syn match maudeMark /\%(^\|[ \t(\[{]\)\@<=\~>\%($\|[ \t)\]}]\)\@=/
syn match maudeMark /\%(^\|[ \t(\[{]\)\@<==\%($\|[ \t)\]}]\)\@=/
syn match maudeMark /\%(^\|[ \t(\[{]\)\@<==>\%($\|[ \t)\]}]\)\@=/
syn match maudeMark /\%(^\|[ \t(\[{]\)\@<=:=\%($\|[ \t)\]}]\)\@=/
syn match maudeMark /\%(^\|[ \t(\[{]\)\@<=\/\\\%($\|[ \t)\]}]\)\@=/
syn match maudeMark /\%(^\|[ \t(\[{]\)\@<=<\%($\|[ \t)\]}]\)\@=/
syn match maudeMark /\%(^\|[ \t(\[{]\)\@<=|\%($\|[ \t)\]}]\)\@=/
syn match maudeMark /\%(^\|[ \t(\[{]\)\@<=<=?\%($\|[ \t)\]}]\)\@=/
syn match maudeComment /\%(\*\*\*\|---\)(\@!.*$/
syn region maudeComment start=/\%(\*\*\*\|---\)(/ end=/)/ contains=maudeNested
syn region maudeNested start=/(/ end=/)/ contained contains=maudeNested
syn region maudeString start=/"/ skip=/\\"/ end=/"/ oneline
syn match maudeNumber /\%(^\|[ \t(\[{,]\)\@<=\d\+\%($\|[ \t)\]},]\)\@=/

hi def link maudeModule Structure
hi def link maudeStatement Statement
hi def link maudeCommand Function
hi def link maudeAttribute Type
hi def link maudePrelude Constant
hi def link maudeLine PreProc
hi def link maudeTerm Conditional
hi def link maudeMark Operator
hi def link maudeComment Comment
hi def link maudeNested Comment
hi def link maudeString String
hi def link maudeNumber Number

let b:current_syntax = "maude"
