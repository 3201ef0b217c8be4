" Vim syntax of decks (*.deck), made by tools/generate of docs/REFERENCE.md.
if exists('b:current_syntax') | finish | endif
syntax case match
syntax keyword s38Line PROGRAM DCL LABEL END STAGE JOB
syntax keyword s38Term ADOPT PROPAGATE INIT PARM BASED EXCM USER RUN BUDGET CONTEXTS
syntax keyword s38Instruction ADDN ADDSPP AND B CALLI CALLX CAT CMPBLAB CMPNVB CMPPTRT COMMIT CPYBLA CPYBLAP CPYBRA CPYBWP CPYNV CRTCB CRTCR CRTCTX CRTDS CRTINX CRTJP CRTJS CRTPG CRTQ CRTS CRTUP CVTCH CVTHC DECOMMIT DELDSEN DEQ DESCB DESCR DESCTX DESDS DESINX DESJP DESJS DESPG DESQ DESS DESUP DIV ENQ ENSOBJ FNDINXEN GRANT INSDSEN INSINXEN JRNLOBJ LOCK MATAU MATAUOBJ MATCTX MATOBJLK MODADR MODEXCPD MODS MODUP MULT NEG NOT OR REM RENAME RETDSEN RETEXCPD RETJENT RETRACT RMVINXEN RSLVSP RTX SCALE SETCR SETDP SETSPFP SETSPPFP SIGEXCP SUBN SUBSPP TESTAU UNLOCK UPDSEN XCTL XFRLOCK XFRO XLATE XOR
syntax keyword s38Word ALL ALLOBJ ANY AT AUTPTR DELETE DTA EQ FIFO FIRST HI INSERT KEYED LAST LEAR LENR LIFO LO LSRD LSRO LSUP NE NEXT NH NL NONE NOWAIT OBJCTL OBJMGT OFF ON PREV PROFILE RETRIEVE SPACE SPC SYS UPDATE WAIT
syntax match s38Star /\*\(NONE\|MACHINE\|LIST\|PUBLIC\)\>/
syntax match s38Identification /\<\(CONTEXT\|PROGRAM\|PROFILE\|SPACE\|QUEUE\|INDEX\|DATASPACE\|CURSOR\|JPORT\|JSPACE\|CBLOCK\)\/[0-9A-F]\{2}\/[A-Z0-9]\{1,30}/
syntax match s38Attribute /\<\(PTR\|BIN:[24]\|CHAR:\d\+\|\(PKD\|ZND\):\d\+:\d\+\)/
syntax match s38Number /\<-\?\d\+\(\.\d\+\)\?\>/
syntax match s38Text /X\?'[^']*'/
syntax match s38Rounded /(R)/
syntax match s38Comment /^\*.*$/
syntax match s38TooLong /\%>255v.\+/
syntax match s38Fault /\t\|\s\+$\|, \| ,/
highlight default link s38Line Structure
highlight default link s38Term Keyword
highlight default link s38Instruction Statement
highlight default link s38Word Constant
highlight default link s38Star Special
highlight default link s38Identification Identifier
highlight default link s38Attribute Type
highlight default link s38Number Number
highlight default link s38Text String
highlight default link s38Rounded Special
highlight default link s38Comment Comment
highlight default link s38TooLong Error
highlight default link s38Fault Error
let b:current_syntax = 's38'
