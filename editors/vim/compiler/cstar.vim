" Checks a file by cstar and goes to its first fault: :compiler cstar, then :make.
if exists("current_compiler")
  finish
endif
let current_compiler = "cstar"

CompilerSet makeprg=cstar\ --mode\ check\ %:S
CompilerSet errorformat=%f:%l:%c:\ %m
