" Texts of problems for pops: Remark begins a comment, each problem is a fold.
if exists('b:did_ftplugin')
  finish
endif
let b:did_ftplugin = 1

setlocal commentstring=Remark\ %s comments=:Remark
setlocal foldmethod=expr foldexpr=PopFold(v:lnum) foldtext=PopFoldText()
let b:undo_ftplugin = 'setlocal commentstring< comments< foldmethod< foldexpr< foldtext<'

if exists('*PopFold')
  finish
endif

" A fold begins at BeginProblem and at NextProblem; nothing after EndProblem is read.
function PopFold(line)
  let text = getline(a:line)
  if text =~? '\v^\s*%(beg%[inproblem]|nex%[tproblem])%(\s|$)'
    return '>1'
  endif
  return text =~? '\v^\s*end%[problem]%(\s|$)' ? '0' : '='
endfunction

" A closed fold shows the title and the stipulation.
function PopFoldText()
  let shown = {}
  for line in getline(v:foldstart, v:foldend)
    let found = matchlist(line, '\c\v^\s*(tit|aut|sti)\a*\s+(.{-})\s*$')
    if !empty(found)
      let shown[tolower(found[1])] = found[2]
    endif
  endfor
  let texts = map(['sti', 'tit', 'aut'], 'get(shown, v:val, "")')
  return v:folddashes . ' ' . join(filter(texts, 'v:val != ""'), ', ') . ' '
endfunction
