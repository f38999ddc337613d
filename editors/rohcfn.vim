" Vim syntax file of ROHC-FN (RFC 4997), as docs/NOTATION.md has it. docs/EDITORS.md says how to put it in place.
if exists("b:current_syntax")
  finish
endif

syntax case match
syntax keyword rohcfnSection UNCOMPRESSED CONTROL INITIAL DEFAULT COMPRESSED
syntax keyword rohcfnCondition ENFORCE
syntax keyword rohcfnAttribute UVALUE ULENGTH CVALUE CLENGTH
syntax keyword rohcfnWhole THIS VARIABLE
syntax keyword rohcfnTruth true false
syntax match rohcfnOperator "=:=\|||\|&&\|[=!<>]=\|[-=<>+*/%^!]"
syntax match rohcfnName "\a\w*"
syntax match rohcfnLibrary "\%(=:=\_s*\)\@<=\%(uncompressed_value\|compressed_value\|irregular\|static\|lsb\|crc\)\>"
syntax match rohcfnMethod "^\a\w*\ze\s*\%((\_[^()]*)\)\?\_s*{"
syntax match rohcfnNumber "\<\%(0x\x\+\|0b[01]\+\|\d\+\)\>"
syntax match rohcfnBits "'[01]*'"
syntax match rohcfnComment "//.*$"
syntax region rohcfnComment start="/\*" end="\*/"
syntax sync fromstart

highlight default link rohcfnSection Structure
highlight default link rohcfnCondition Statement
highlight default link rohcfnAttribute Keyword
highlight default link rohcfnWhole Keyword
highlight default link rohcfnTruth Boolean
highlight default link rohcfnOperator Operator
highlight default link rohcfnLibrary Function
highlight default link rohcfnMethod Identifier
highlight default link rohcfnNumber Number
highlight default link rohcfnBits String
highlight default link rohcfnComment Comment

let b:current_syntax = "rohcfn"
