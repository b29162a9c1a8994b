" Syntax of ido sources, and of the scripts and schedules behind their line %%. Made by tools/editor-files of tools/ido_tools/words.py: edit these.
if exists("b:current_syntax")
  finish
endif

syntax keyword idoDeclaration mutex persistent thread
syntax keyword idoLock lock unlock
syntax keyword idoType char short int long signed unsigned void ref
syntax keyword idoControl if else while do for return
syntax keyword idoConstant null
syntax match idoBadNumber /\<[0-9]\w*\>/
syntax match idoNumber /\<\%(0\|[1-9][0-9]*\|0[0-7]\+\|0[xX][0-9A-Fa-f]\+\)\%([uU][lL]\=\|[lL][uU]\=\)\=\>/
syntax region idoComment start="/\*" end="\*/" keepend
syntax match idoComment "//.*$"
syntax region idoScript start=/^%%\r\=$/ end=/\%$/ contains=idoMark,idoStep,idoCount
syntax match idoMark /^%%\r\=$/ contained
syntax match idoStep /^\%([sbfgecr]\|schedule\)\>/ contained
syntax match idoCount /[0-9]\+/ contained

highlight default link idoDeclaration StorageClass
highlight default link idoLock Function
highlight default link idoType Type
highlight default link idoControl Statement
highlight default link idoConstant Constant
highlight default link idoNumber Number
highlight default link idoBadNumber Error
highlight default link idoComment Comment
highlight default link idoMark PreProc
highlight default link idoStep Statement
highlight default link idoCount Number

let b:current_syntax = "ido"
