" Vim syntax of gvr scenarios. Copy it to ~/.vim/syntax/ and add: au BufRead,BufNewFile *.gvr set filetype=gvr
if exists("b:current_syntax")
  finish
endif

syn keyword gvrDeclaration event result sem bsem rlock queue group pool native channel profile
syn keyword gvrKind fifo lifo prio
syn keyword gvrBlock def rawdef end if else while try except finally timeout return raise
syn keyword gvrConstant none true false self
syn keyword gvrFault Empty Error Exception Full GreenletExit InvalidSwitch LoopExit OverflowError RuntimeError ShutDown Timeout TypeError ValueError ZeroDivisionError any
syn keyword gvrOperator not and or list push at len ready successful value exception isset counter qsize unfinished members
syn keyword gvrOption within now silent with count under mark takes immediate sum collatz fail echo
syn keyword gvrStatement acquire cget clear cput get gjoin gkill gspawn join joinall kill killall let link linkfault linkvalue map new nspawn print qdone qget qjoin qpeek qput qshut raw rawlink release rfail rget rset rwait set setparent sleep spawn spawnlater start switch throw unlink wait
syn match gvrNumber "\v(^|\s)\zs-?\d+\ze(\s|$)"
syn match gvrGives "\v\s\zs\<-\ze\s"
syn match gvrSign "\v\s\zs(\+|-|\*|/|\%|\=\=|!\=|\<|\<\=)\ze\s"
syn match gvrComment "^\s*#.*$"

hi def link gvrDeclaration Type
hi def link gvrKind Constant
hi def link gvrBlock Conditional
hi def link gvrConstant Constant
hi def link gvrFault Exception
hi def link gvrOperator Operator
hi def link gvrOption Label
hi def link gvrStatement Statement
hi def link gvrNumber Number
hi def link gvrGives Operator
hi def link gvrSign Operator
hi def link gvrComment Comment

let b:current_syntax = "gvr"
