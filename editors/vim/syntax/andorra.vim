" The language of docs/language.md.
if exists('b:current_syntax')
  finish
endif
syntax case match
syntax match andorraVariable /\<[A-Z_][A-Za-z0-9_]*\>/
syntax match andorraNumber /\<[0-9]\+\>/
syntax match andorraOperator /[-+*\/\\^<>=~:.?@#&$]\+/
syntax match andorraEnd /\.\ze\(\s\|%\|$\)/
syntax match andorraClause /:-\|?-\|-->/
syntax keyword andorraWord is mod rem min max
syntax keyword andorraGoal true fail
syntax match andorraHead /^[a-z][A-Za-z0-9_]*/
syntax region andorraQuoted start=/'/ skip=/\\.\|''/ end=/'/ oneline
syntax match andorraNotPure /[!"`]\|\\+\|-\@1<!->/
syntax match andorraComment /%.*$/ contains=andorraTodo,@Spell
syntax region andorraComment start=+/\*+ end=+\*/+ contains=andorraTodo,@Spell
syntax keyword andorraTodo TODO FIXME contained
highlight default link andorraVariable Identifier
highlight default link andorraNumber Number
highlight default link andorraOperator Operator
highlight default link andorraEnd Delimiter
highlight default link andorraClause Statement
highlight default link andorraWord Operator
highlight default link andorraGoal Boolean
highlight default link andorraHead Function
highlight default link andorraQuoted String
highlight default link andorraNotPure Error
highlight default link andorraComment Comment
highlight default link andorraTodo Todo
let b:current_syntax = 'andorra'
