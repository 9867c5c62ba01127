" Checks a program by pramc: :make fills the quickfix list.
if exists("current_compiler")
  finish
endif
let current_compiler = "pramc"

let s:keeps = &cpoptions
set cpoptions&vim

CompilerSet makeprg=pramc\ check\ --format\ gnu\ %:S
CompilerSet errorformat=%f:%l:%c:\ %t%*[a-z]:\ %m,%f:%l:\ %t%*[a-z]:\ %m,%f:\ %t%*[a-z]:\ %m

let &cpoptions = s:keeps
unlet s:keeps
