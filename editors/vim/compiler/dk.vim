" :make lists the faults of the program of the window. It needs the script dk in $PATH.
if exists('current_compiler')
    finish
endif
let current_compiler = 'dk'
CompilerSet makeprg=dk\ explain\ %:S
" The place, the kind and the sentence; the lines of the file, carets and help are left out.
CompilerSet errorformat=%f:%l:%c:\ %trror:\ %m,%-G%.%#
