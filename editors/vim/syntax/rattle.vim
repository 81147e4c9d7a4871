" Syntax of Rattle: Rust with contracts.
if exists("b:current_syntax")
  finish
endif
syntax case match

syntax keyword rattleContract ghost requires ensures
syntax keyword rattleKeyword break continue do dyn else for if in let loop match move return while where as by
syntax keyword rattleStructure struct enum trait impl type macro_rules nextgroup=rattleMacroMark
syntax keyword rattleStorage pub mut const static ref unsafe extern record
syntax keyword rattleInclude use mod crate super
syntax keyword rattleFunction fn nextgroup=rattleDefined skipwhite
syntax match rattleDefined "\k\+" contained
syntax keyword rattleSelf self Self
" in a clause: what a function returns, and its values before and after
syntax match rattleValue "\<result\>\|\.\@1<=\<\(old\|new\|now\|entry\)\>"
syntax keyword rattleBoolean true false
syntax keyword rattleType bool char str u8 u16 u32 u64 u128 usize i8 i16 i32 i64 i128 isize f32 f64
syntax match rattleType "[ℕℤ]"
syntax match rattleName "\<\u\w*"
syntax match rattleMacro "\<\l\w*!"
syntax match rattleMacroMark "!" contained
syntax match rattleLambda "λ"
syntax match rattleOperator "[→↔≡≢≤×⊎∷⊥⊤◌⟦⟧]"
syntax match rattleNumber "\<\(0x[0-9a-fA-F_]\+\|0b[01_]\+\|\d[0-9_]*\(\.\d\+\)\?\)\(\([ui]\(8\|16\|32\|64\|128\|size\)\)\|f32\|f64\)\?\>"
syntax match rattleLifetime "'\l\w*"
syntax match rattleCharacter "b\?'\(\\x\x\x\|\\u{\x\+}\|\\.\|[^\\']\)'"
syntax region rattleString start=+b\?"+ skip=+\\.+ end=+"+
syntax region rattleAttribute start="#!\?\[" end="\]" contains=rattleString
syntax match rattleComment "//.*$" contains=rattleTodo,@Spell
syntax match rattleDocument "//[/!].*$" contains=rattleTodo,@Spell
syntax region rattleComment start="/\*" end="\*/" contains=rattleTodo,@Spell
syntax keyword rattleTodo TODO FIXME contained
syntax sync minlines=100

highlight default link rattleContract PreProc
highlight default link rattleKeyword Keyword
highlight default link rattleStructure Structure
highlight default link rattleStorage StorageClass
highlight default link rattleInclude Include
highlight default link rattleFunction Keyword
highlight default link rattleDefined Function
highlight default link rattleSelf Constant
highlight default link rattleValue Special
highlight default link rattleBoolean Boolean
highlight default link rattleType Type
highlight default link rattleName Identifier
highlight default link rattleMacro Macro
highlight default link rattleMacroMark Macro
highlight default link rattleLambda Keyword
highlight default link rattleOperator Operator
highlight default link rattleNumber Number
highlight default link rattleLifetime Special
highlight default link rattleCharacter Character
highlight default link rattleString String
highlight default link rattleAttribute PreProc
highlight default link rattleComment Comment
highlight default link rattleDocument SpecialComment
highlight default link rattleTodo Todo
let b:current_syntax = "rattle"
