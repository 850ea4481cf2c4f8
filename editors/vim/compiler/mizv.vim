" Vim compiler file
" Compiler: mizv-show, which has to be on the path; it runs in the folder of the article.

if exists("current_compiler")
  finish
endif
let current_compiler = "mizv"

CompilerSet makeprg=cd\ %:p:h:S\ &&\ echo\ \"mizv:\ in\ $PWD\"\ &&\ mizv-show\ %:t:r:S
CompilerSet errorformat=%Dmizv:\ in\ %f,%f:%l:%c:\ error:\ %m,%-G%.%#
