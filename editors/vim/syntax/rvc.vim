" Protocol files of rvc, as docs/LANGUAGE.md has them.
if exists("b:current_syntax")
  finish
endif

syntax case match
syntax iskeyword a-z,A-Z,48-57,_

syntax keyword rvcPart protocol version home remote var claim
syntax keyword rvcPart message nextgroup=rvcMessage skipwhite skipempty
syntax keyword rvcPart start state goto nextgroup=rvcState skipwhite skipempty
syntax keyword rvcDirection up down
syntax keyword rvcType int node set
syntax keyword rvcAction tau from to
syntax keyword rvcPartner any
syntax keyword rvcRelation in notin eq ne lt le and not with atmost
syntax keyword rvcClause when do
syntax keyword rvcConstant none empty

" A message stands behind message, ? and !, a state behind start, state and goto.
syntax match rvcMeeting "[?!]" nextgroup=rvcMessage skipwhite skipempty
syntax match rvcMessage "\h\w*" contained
syntax match rvcState "\h\w*" contained

" A number has at most five digits and no leading zeros, and every other byte is no token.
syntax match rvcSymbol "[;{}(),+=-]"
syntax match rvcWrong "[^A-Za-z0-9_;{}(),?!+=\- \t\r]"
syntax match rvcWrong "\<\d\w*"
syntax match rvcNumber "\<\%(0\|[1-9]\d\{,4}\)\>"
syntax match rvcComment "//.*$" contains=@Spell

highlight default link rvcPart Structure
highlight default link rvcDirection StorageClass
highlight default link rvcType Type
highlight default link rvcAction Statement
highlight default link rvcPartner Statement
highlight default link rvcRelation Operator
highlight default link rvcClause Conditional
highlight default link rvcConstant Constant
highlight default link rvcMeeting Operator
highlight default link rvcMessage Function
highlight default link rvcState Label
highlight default link rvcSymbol Delimiter
highlight default link rvcWrong Error
highlight default link rvcNumber Number
highlight default link rvcComment Comment

let b:current_syntax = "rvc"
