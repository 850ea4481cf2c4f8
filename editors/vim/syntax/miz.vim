" Vim syntax file
" Language: articles that mizv checks
" Words are those of docs/LANGUAGE.md, "Tokens".

if exists("b:current_syntax")
  finish
endif

syntax case match
syntax iskeyword @,48-57,_,'

syntax keyword mizDirective environ vocabularies notations constructors registrations definitions theorems schemes requirements equalities expansions begin
syntax keyword mizItem theorem scheme definition registration notation reserve redefine struct attr mode func pred cluster synonym antonym identify reduce canceled
syntax keyword mizBlock proof now hereby suppose case end per cases
syntax keyword mizStep let assume given take thus hence then consider reconsider set deffunc defpred thesis such that as by from provided
syntax keyword mizLogic for ex st holds being be not or implies iff contradiction is non the it object in where with
syntax keyword mizCondition and are asymmetry coherence commutativity compatibility connectedness consistency correctness def do does equals exactly existence idempotence if involutiveness irreflexivity means of otherwise over projectivity qua reducibility reflexivity sch sethood symmetry to transitivity uniqueness
syntax match mizLabel "\<[A-Za-z_][A-Za-z0-9_']*\ze:\%([^:]\|$\)"
syntax match mizReference "\<[A-Z][A-Z0-9_]\{0,7}:\%(def \|sch \)\?[0-9]\+"
syntax match mizNumber "\<[0-9]\+\>"
syntax match mizPlace "\$[0-9]\+"
syntax match mizComment "::.*$" contains=mizTodo,@Spell
syntax keyword mizTodo TODO FIXME contained

highlight default link mizDirective PreProc
highlight default link mizItem Structure
highlight default link mizBlock Keyword
highlight default link mizStep Statement
highlight default link mizLogic Conditional
highlight default link mizCondition Special
highlight default link mizLabel Label
highlight default link mizReference Identifier
highlight default link mizNumber Number
highlight default link mizPlace Constant
highlight default link mizComment Comment
highlight default link mizTodo Todo

let b:current_syntax = "miz"
