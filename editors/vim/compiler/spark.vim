" Vim compiler plugin of spark: `:compiler spark`, then `:make FILE`.
if exists('current_compiler')
  finish
endif
let current_compiler = 'spark'

CompilerSet makeprg=spark\ check
" A report or refusal is FILE:LINE:COLUMN: and a message that begins with a code, as O1. Every other
" line is left out; the first two would be lines of `spark leaks` on an object with the name of a code.
CompilerSet errorformat=
      \%-G%.%#\ checked,
      \%-G%.%#\ excused,
      \%f:%l:%c:\ %\\%%(%[A-Z]%\\d%\\+\ %\\)%\\@=%m,
      \%-G%.%#
