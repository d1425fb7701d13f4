" Vim syntax of derivation scripts. Copy it to ~/.vim/syntax/derivation.vim, and write into ~/.vim/ftdetect/derivation.vim:
"     autocmd BufRead,BufNewFile *.script setfiletype derivation
if exists('b:current_syntax')
  finish
endif

syntax case match
setlocal iskeyword=@,48-57,_

" The last match that fits wins, so what is more exact stands later.
syntax match derivationInvalid /\S/
syntax match derivationPunctuation /[()\[\]{},;:.|]/
syntax match derivationOperator /:=\|<=\|>=\|<>\|=>\||-\||\[\|\]|\|\[\]\|->\|[-+*\/=<>]/
syntax match derivationNumber /\<[0-9]\+\>/
syntax match derivationBinder /\<_[1-9][0-9]*\>/
syntax match derivationVariable /\<[a-z][A-Za-z0-9_]*\>/
syntax match derivationConstant /\<[A-Z][A-Za-z0-9_]*\>/
syntax match derivationPredicate /\<[A-Z][A-Za-z0-9_]*\ze(/
syntax match derivationInitial /\<[A-Za-z][A-Za-z0-9_]*0\>/
syntax match derivationReference /\([0-9]\*\)\@<=[LR][0-9]\+\>/
syntax match derivationPlace /\<main\(\/[0-9]\+\)*/

syntax keyword derivationBoolean true false
syntax keyword derivationType int array
syntax keyword derivationWord and or not div mod forall exists put
syntax keyword derivationRule ax falseL trueR refl lin cut dropL dropR notL notR andL andR orL orR impL impR allL allR exL exR eqR flip rwL rwR
syntax keyword derivationRule putSame putOther arrExt divMod unfoldL unfoldR
syntax keyword derivationStep skip open weaken strengthen assign follow seq seqcon con contract expand if fi do od block call op
syntax keyword derivationRequest var root step prove define lemma proc module oper drop init couple all undo redo
syntax keyword derivationRequest status goal goals find users code run print claim release

syntax match derivationComment /^#.*$/

highlight default link derivationComment Comment
highlight default link derivationRequest Statement
highlight default link derivationStep Keyword
highlight default link derivationRule Function
highlight default link derivationPlace Label
highlight default link derivationWord Operator
highlight default link derivationType Type
highlight default link derivationBoolean Boolean
highlight default link derivationReference Special
highlight default link derivationInitial Special
highlight default link derivationPredicate Identifier
highlight default link derivationConstant Constant
highlight default link derivationVariable Normal
highlight default link derivationBinder Identifier
highlight default link derivationNumber Number
highlight default link derivationOperator Operator
highlight default link derivationPunctuation Delimiter
highlight default link derivationInvalid Error

let b:current_syntax = 'derivation'
