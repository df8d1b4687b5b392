" Vim syntax file for scripts of JoinActors (*.join).
if exists("b:current_syntax")
  finish
endif

syntax keyword joinDeclaration message actor
syntax keyword joinDefinition when if within
syntax keyword joinStatement print post reply stop
syntax keyword joinType int text
syntax match joinBlank "\<_\>"
syntax match joinNumber "\<[0-9]\+\>"
syntax match joinOperator "[-+!<>]\|[=!<>]=\|&&\|||\|&"
syntax region joinText start=/"/ end=/"/ oneline contains=joinEscape,joinBadEscape
syntax match joinBadEscape /\\./ contained
syntax match joinEscape /\\\(["\\nrt]\|x[0-9a-f]\{2}\)/ contained
syntax match joinComment "//.*$" contains=joinTodo,@Spell
syntax keyword joinTodo TODO FIXME contained
" The name behind a declaration, and the kind of a message in front of its fields.
syntax match joinActor "\(\<actor\s\+\)\@<=\h\w*"
syntax match joinKind "\<\h\w*\ze\s*(" contains=joinDefinition,joinStatement,joinType

highlight default link joinDeclaration Structure
highlight default link joinDefinition Conditional
highlight default link joinStatement Statement
highlight default link joinType Type
highlight default link joinBlank Special
highlight default link joinNumber Number
highlight default link joinOperator Operator
highlight default link joinText String
highlight default link joinEscape SpecialChar
highlight default link joinBadEscape Error
highlight default link joinComment Comment
highlight default link joinTodo Todo
highlight default link joinActor Identifier
highlight default link joinKind Function

let b:current_syntax = "join"
