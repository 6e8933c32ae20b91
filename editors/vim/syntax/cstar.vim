" Vim syntax file
" Language:     C*, as cstar reads it
" Filenames:    *.cs

if exists("b:current_syntax")
  finish
endif

syn case match

syn keyword cstarType           bool char short int long signed unsigned void
syn keyword cstarShape          shape current
syn keyword cstarContext        with where everywhere
syn keyword cstarConditional    if else
syn keyword cstarRepeat         while do for
syn keyword cstarJump           break continue return
syn keyword cstarIntrinsic      pcoord positionsof rankof dimof
syn keyword cstarIntrinsic      scan enumerate printf getchar
syn keyword cstarConstant       CMC_combiner_add CMC_combiner_min CMC_combiner_max
syn keyword cstarConstant       CMC_combiner_logand CMC_combiner_logior CMC_combiner_logxor
syn keyword cstarConstant       CMC_upward CMC_downward CMC_inclusive CMC_exclusive
syn keyword cstarConstant       CMC_none CMC_start_bit CMC_segment_bit CMC_no_field

" words of C that are reserved and never accepted
syn keyword cstarRefused        auto case const default double enum extern float goto
syn keyword cstarRefused        register shapeof sizeof static struct switch typedef union
syn keyword cstarRefused        volatile

" the operators that C does not have; %%= before %%, so that the longest is taken
syn match   cstarOperator       "[<>]?=\="
syn match   cstarOperator       "%%=\="

syn match   cstarNumber         "\<0[xX]\x\+\([uU][lL]\=\|[lL][uU]\=\)\=\>"
syn match   cstarNumber         "\<0\o*\([uU][lL]\=\|[lL][uU]\=\)\=\>"
syn match   cstarNumber         "\<[1-9]\d*\([uU][lL]\=\|[lL][uU]\=\)\=\>"
syn match   cstarNumberError    "\<0\o*[89]\d*"

syn match   cstarEscape         contained "\\\([ntvbrfa\\'"?]\|\o\{1,3}\|x\x\+\)"
syn match   cstarFormat         contained "%[duxoc%]"
syn region  cstarString         start=+"+ skip=+\\.+ end=+"+ end=+$+ oneline contains=cstarEscape,cstarFormat
syn match   cstarCharacter      "'\([^\\']\|\\[^']\+\|\\'\)'" contains=cstarEscape

syn match   cstarDirective      "^\s*#\s*include\>.*$" contains=cstarHeader,cstarComment
syn match   cstarDirective      "^\s*#\s*define\>"
syn match   cstarHeader         contained "<\(stdio\|cscomm\)\.h>"

syn keyword cstarTodo           contained TODO FIXME XXX
syn region  cstarComment        start="/\*" end="\*/" contains=cstarTodo,@Spell
syn sync    ccomment cstarComment

hi def link cstarType           Type
hi def link cstarShape          Structure
hi def link cstarContext        Statement
hi def link cstarConditional    Conditional
hi def link cstarRepeat         Repeat
hi def link cstarJump           Statement
hi def link cstarIntrinsic      Function
hi def link cstarConstant       Constant
hi def link cstarRefused        Error
hi def link cstarOperator       Operator
hi def link cstarNumber         Number
hi def link cstarNumberError    Error
hi def link cstarString         String
hi def link cstarCharacter      Character
hi def link cstarEscape         SpecialChar
hi def link cstarFormat         SpecialChar
hi def link cstarDirective      PreProc
hi def link cstarHeader         String
hi def link cstarTodo           Todo
hi def link cstarComment        Comment

let b:current_syntax = "cstar"
