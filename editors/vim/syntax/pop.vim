" Texts of problems for pops. Blanks separate words; most words may be shortened to three letters.
if exists('b:current_syntax')
  finish
endif
syntax case ignore
syntax sync fromstart

syntax match popCommand /\v%(^|\s)@<=%(beg%[inproblem]|nex%[tproblem]|pie%[ces]|sti%[pulation]|con%[dition]|opt%[ion])%(\s|$)@=/
syntax match popColour /\v%(^|\s)@<=%(w%[hite]|b%[lack])%(\s|$)@=/
syntax match popMen /\v%(^|\s)@<=[kqrbspgn]%([a-h][1-8])+%(\s|$)@=/
syntax match popSquares /\v%(^|\s)@<=%([a-h][1-8])+%(\s|$)@=/
syntax match popStipulation /\v%(^|\s)@<=%([sh]=[#=][1-9]\d*|h[#=]%(0|[1-9]\d*)\.5)%(\s|$)@=/
syntax match popCondition /\v%(^|\s)@<=%(cir%[ce]|mad%[rasi])%(\s|$)@=/
syntax match popOption /\v%(^|\s)@<=%(set%[play]|var%[iation]|nob%[oard]|max%[solutions]|enp%[assant]|noc%[astling])%(\s|$)@=/
syntax match popNumber /\v%(^|\s)@<=\d+%(\s|$)@=/
syntax match popTextWord /\v%(^|\s)@<=%(tit%[le]|aut%[hor]|ori%[gin])%(\s|$)@=/ nextgroup=popText
syntax match popText /.*$/ contained
syntax match popRemark /\v%(^|\s)@<=rem%[ark]%(\s.*|$)/
syntax match popInvisible /[\u00a0\u200b\u200c\u200d\ufeff]/ containedin=ALL
syntax region popUnread matchgroup=popCommand start=/\v%(^|\s)@<=end%[problem]%(\s|$)@=/ end=/\%$/

highlight default link popCommand Statement
highlight default link popColour Type
highlight default link popMen Identifier
highlight default link popSquares Identifier
highlight default link popStipulation Constant
highlight default link popCondition Special
highlight default link popOption Special
highlight default link popNumber Number
highlight default link popTextWord Statement
highlight default link popText String
highlight default link popRemark Comment
highlight default link popInvisible Error
highlight default link popUnread Comment

let b:current_syntax = 'pop'
