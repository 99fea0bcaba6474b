" The syntax of programs of dk: docs/LANGUAGE.md, "Bytes and tokens" and "Words".
if exists('b:current_syntax')
    finish
endif
let s:cpo_save = &cpo
set cpo&vim
syntax case match

" A word is matched as a whole. Of the items that match at one place, the last one here is chosen. So a name comes before the words that are
" not names, and an operator before a comment.
syntax match dkImage /\h\w*/
syntax match dkNumber /\d\+/
syntax match dkOperator "[-<>=!|^&+*/]"
syntax match dkDelimiter /[(),:]/
syntax match dkDeclared /\h\w*/ contained
syntax match dkKeyword /\%(size\|inline\|im\|end\|as\|edge\|clamp\)\w\@!/
syntax match dkKeyword /\%(input\|output\|let\)\w\@!/ nextgroup=dkDeclared skipwhite skipempty
syntax match dkFunction /\%(select\|min\|max\|abs\|sat\)\w\@!/
syntax match dkCoordinate /[xy]\w\@!/
syntax match dkType /[us]\%([1-9]\|[1-5]\d\|6[0-4]\)\w\@!/
syntax match dkError /[^[:alnum:]_[:space:]<>=!|^&+\-*\/(),:]/
syntax match dkComment /--.*/ contains=@Spell

highlight default link dkComment Comment
highlight default link dkKeyword Keyword
highlight default link dkFunction Function
highlight default link dkType Type
highlight default link dkNumber Number
highlight default link dkOperator Operator
highlight default link dkDelimiter Delimiter
highlight default link dkCoordinate Special
highlight default link dkDeclared Function
highlight default link dkImage Identifier
highlight default link dkError Error

let b:current_syntax = 'dk'
let &cpo = s:cpo_save
unlet s:cpo_save
