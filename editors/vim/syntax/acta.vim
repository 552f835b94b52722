" Vim syntax of models (*.model) and of lines of events (*.events, *.programs, *.kept) of the ACTA workbench.
" docs/REFERENCE.md lists the forms of the lines.
if exists("b:current_syntax")
  finish
endif
syntax case match

syntax match actaComment "#.*$" contains=@Spell
syntax match actaNumber "\%(^\|[ \t,]\)\@1<=-\=\d\+\ze\%([ \t,#]\|$\)"

" Events, at the beginning of a line, after a seat, or after a bar.
syntax match actaSeat "^\s*\zs\d\+\ze\s" nextgroup=actaEvent,actaForm,actaDo skipwhite
syntax match actaBar "\s\@1<=|\ze\s" nextgroup=actaEvent,actaForm,actaDo skipwhite
syntax match actaEvent "\%(begin\|spawn\|split\|join\|delegate\|commit\|abort\|permit\)\ze\%([ \t#]\|$\)" contained
syntax match actaEvent "^\s*\zs\%(begin\|spawn\|split\|join\|delegate\|commit\|abort\|permit\)\ze\%([ \t#]\|$\)"
syntax match actaForm "form\ze\%([ \t#]\|$\)" contained nextgroup=actaKind skipwhite
syntax match actaForm "^\s*\zsform\ze\%([ \t#]\|$\)" nextgroup=actaKind skipwhite
syntax match actaDo "do\ze\%([ \t#]\|$\)" contained nextgroup=actaDoer skipwhite
syntax match actaDo "^\s*\zsdo\ze\%([ \t#]\|$\)" nextgroup=actaDoer skipwhite
syntax match actaDoer "\d\+\ze\s" contained nextgroup=actaObject skipwhite
syntax match actaObject "\a\w*" contained nextgroup=actaOperation skipwhite
syntax keyword actaOperation contained read write get add insert remove has size
syntax match actaEquals "\s\@1<==\ze\s" nextgroup=actaReturn skipwhite
syntax keyword actaReturn contained done yes no

" The text of a model.
syntax match actaDeclaration "^\s*\zs\%(object\|class\)\ze\s" nextgroup=actaName skipwhite
syntax match actaDeclaration "^\s*\zsend\ze\s*\%(#\|$\)"
syntax match actaName "\a\w*" contained nextgroup=actaObjectKind skipwhite
syntax keyword actaObjectKind contained register counter set
syntax match actaField "^\s*\zsstarts\ze\%([ \t#]\|$\)" nextgroup=actaStart skipwhite
syntax keyword actaStart contained begin spawned split nextgroup=actaStart skipwhite
syntax match actaField "^\s*\zsmay\ze\%([ \t#]\|$\)" nextgroup=actaRight skipwhite
syntax keyword actaRight contained spawn split join delegate form operate commit abort permit nextgroup=actaRight skipwhite
syntax match actaField "^\s*\zs\%(scope\|delegation\)\ze\%([ \t#]\|$\)" nextgroup=actaChoice skipwhite
syntax match actaField "^\s*\zscommit\ze\s\+\%(keeps\|toparent\)\%([ \t#]\|$\)" nextgroup=actaChoice skipwhite
syntax keyword actaChoice contained others nonancestors whole any keeps toparent refuse
syntax match actaField "^\s*\zspolicy\ze\%([ \t#]\|$\)" nextgroup=actaChoice,actaDepend skipwhite
syntax keyword actaDepend contained depend nextgroup=actaKind skipwhite
syntax match actaField "^\s*\zs\%(spawn\|split\)\ze\s\+\%(starter\|started\)\%([ \t#]\|$\)" nextgroup=actaRole skipwhite
syntax keyword actaRole contained starter started nextgroup=actaKind skipwhite
syntax keyword actaKind contained CD SCD AD WD TD ED CMD BD SD BCD BAD WCD nextgroup=actaKind,actaRole skipwhite

highlight default link actaComment Comment
highlight default link actaNumber Number
highlight default link actaDoer Number
highlight default link actaSeat Label
highlight default link actaBar Operator
highlight default link actaEquals Operator
highlight default link actaEvent Statement
highlight default link actaForm Statement
highlight default link actaDo Statement
highlight default link actaObject Identifier
highlight default link actaOperation Function
highlight default link actaReturn Constant
highlight default link actaDeclaration Structure
highlight default link actaName Identifier
highlight default link actaObjectKind Type
highlight default link actaField Keyword
highlight default link actaStart Constant
highlight default link actaRight Constant
highlight default link actaChoice Constant
highlight default link actaDepend Constant
highlight default link actaRole Constant
highlight default link actaKind Type

let b:current_syntax = "acta"
