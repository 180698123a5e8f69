" Highlights a scenario of fence. The first word of a line says what may follow, so a host that is called `send` is still a name.
" What stands behind `Of` in the name of a group says where it stands; it looks as the group without. tests/editors/run compares
" the words with those of the language.
if exists('b:current_syntax')
  finish
endif

" A word is all that stands between two blanks.
syntax iskeyword 33-126
syntax case match

" Only at the beginning of a word does `#` begin a comment.
syntax match fenceComment /\%(^\|\s\)\@1<=#.*/ contains=@Spell

" The first word of a line. Where it is none of these, the line is a command of a plan.
syntax match fenceLine /^\s*[^ \t#]\@=/ nextgroup=fenceVersion,fenceDeclaration,fenceStatement,@fenceCommands

syntax keyword fenceVersion contained fence nextgroup=fenceVersionOfText skipwhite
syntax keyword fenceVersionOfText contained 1 2 3

syntax keyword fenceDeclaration contained keys nextgroup=fenceKeyOfList skipwhite
syntax keyword fenceDeclaration contained host guest plan nextgroup=fenceName skipwhite
syntax keyword fenceDeclaration contained start nextgroup=fenceNameOfStart skipwhite
syntax keyword fenceDeclaration contained pending nextgroup=fenceNameOfPending skipwhite
syntax keyword fenceDeclaration contained reservation nextgroup=@fenceReservations skipwhite
syntax keyword fenceDeclaration contained generation nextgroup=fenceNumberOfGeneration skipwhite
syntax keyword fenceDeclaration contained role nextgroup=fenceNameOfRole skipwhite
syntax keyword fenceDeclaration contained script nextgroup=fenceNameOfScript skipwhite
syntax keyword fenceDeclaration contained end
" (version 2)
syntax keyword fenceDeclaration contained busy full nextgroup=fenceNameOfCount skipwhite
syntax keyword fenceDeclaration contained resets nextgroup=fenceNumber skipwhite
" (version 3)
syntax keyword fenceDeclaration contained alone nextgroup=fenceNameOfAlone skipwhite
syntax keyword fenceDeclaration contained order nextgroup=fenceDeclarationOfOrder skipwhite

syntax keyword fenceStatement contained send nextgroup=@fenceCommands skipwhite
syntax keyword fenceStatement contained on nextgroup=fenceArm skipwhite
syntax keyword fenceStatement contained repeat nextgroup=fenceNumber skipwhite
syntax keyword fenceStatement contained stop nextgroup=fenceWord skipwhite
syntax keyword fenceStatement contained done break

" Names, and what follows them.
syntax match fenceName contained /[a-z][a-z0-9-]\{,15}\>/
syntax match fenceNameOfStart contained /[a-z][a-z0-9-]\{,15}\>/ nextgroup=fenceStateOfStart,fenceKeyOfStart skipwhite
syntax match fenceNameOfPending contained /[a-z][a-z0-9-]\{,15}\>/ nextgroup=fenceSenseOfPending skipwhite
syntax match fenceNameOfCount contained /[a-z][a-z0-9-]\{,15}\>/ nextgroup=fenceNumber skipwhite
syntax match fenceNameOfRole contained /[a-z][a-z0-9-]\{,15}\>/ nextgroup=fenceClause skipwhite
syntax match fenceNameOfScript contained /[a-z][a-z0-9-]\{,15}\>/ nextgroup=fenceDeclarationOfBudget skipwhite
syntax keyword fenceDeclarationOfBudget contained budget nextgroup=fenceNumber skipwhite
syntax match fenceNameOfAlone contained /[a-z][a-z0-9-]\{,15}\>/ nextgroup=fenceNameOfAlone skipwhite
syntax keyword fenceDeclarationOfOrder contained conflict
syntax match fenceWord contained /[a-z][a-z0-9-]\{,15}\>/

" The alternatives of a start: registrations, attentions, reservations.
syntax match fenceKeyOfList contained /\%(0x\)\=\x\{1,16}\>/ nextgroup=fenceKeyOfList skipwhite
syntax match fenceKeyOfStart contained /\%(0x\)\=\x\{1,16}\>/ nextgroup=fenceStateOfStart,fenceKeyOfStart skipwhite
syntax keyword fenceStateOfStart contained free nextgroup=fenceStateOfStart,fenceKeyOfStart skipwhite
syntax cluster fenceReservations contains=fenceStateOfReservation,fenceTypeOfOne,fenceTypeOfAll
syntax keyword fenceStateOfReservation contained none nextgroup=@fenceReservations skipwhite
syntax match fenceTypeOfOne contained /[1356]:\@=/ nextgroup=fenceColon
syntax match fenceTypeOfAll contained /[78]\>/ nextgroup=@fenceReservations skipwhite
syntax match fenceColon contained /:/ nextgroup=fenceNameOfHolder
syntax match fenceNameOfHolder contained /[a-z][a-z0-9-]\{,15}\>/ nextgroup=@fenceReservations skipwhite
syntax case ignore
syntax keyword fenceSenseOfPending contained 29/00 2a/03 2a/04 2a/05 nextgroup=fenceSenseOfPending skipwhite
syntax case match

" Clauses of a role.
syntax keyword fenceClause contained register nextgroup=fenceKeyOfClause skipwhite
syntax keyword fenceClause contained reserve nextgroup=fenceTypeOfClause skipwhite
syntax keyword fenceClause contained preempt nextgroup=fenceKeyOfPreempt skipwhite
syntax keyword fenceClause contained unregister release clear read write nextgroup=fenceCondition skipwhite
syntax match fenceKeyOfClause contained /\%(0x\)\=\x\{1,16}\>/ nextgroup=fenceCondition skipwhite
syntax match fenceKeyOfPreempt contained /\%(0x\)\=\x\{1,16}\>/ nextgroup=fenceTypeOfClause skipwhite
syntax match fenceTypeOfClause contained /[135678]\>/ nextgroup=fenceCondition skipwhite
syntax keyword fenceCondition contained if nextgroup=fenceConditionOfClause skipwhite
syntax keyword fenceConditionOfClause contained registered holder reserved

" Commands, with the options of sg_persist.
syntax cluster fenceCommands contains=fenceCommand,@fenceOptions
syntax keyword fenceCommand contained test-unit-ready request-sense
syntax keyword fenceCommand contained read write nextgroup=fenceNumberOfBlock skipwhite
syntax cluster fenceOptions contains=fenceOption,fenceOptionOfKey,fenceOptionOfType
syntax keyword fenceOption contained --in --out nextgroup=@fenceOptions skipwhite
syntax keyword fenceOption contained --read-keys --read-reservation --report-capabilities nextgroup=@fenceOptions skipwhite
syntax keyword fenceOption contained --register --register-ignore --reserve --release --clear nextgroup=@fenceOptions skipwhite
syntax keyword fenceOption contained --preempt --preempt-abort nextgroup=@fenceOptions skipwhite
syntax match fenceOptionOfKey contained /--param-rk=\|--param-sark=/ nextgroup=fenceKeyOfOption
syntax match fenceKeyOfOption contained /\%(0x\)\=\x\{1,16}\>/ nextgroup=@fenceOptions skipwhite
syntax match fenceOptionOfType contained /--prout-type=/ nextgroup=fenceTypeOfOption
syntax match fenceTypeOfOption contained /[135678]\>/ nextgroup=@fenceOptions skipwhite

" Arms.
syntax keyword fenceArm contained good nextgroup=fenceArmOfGood skipwhite
syntax keyword fenceArm contained conflict attention
syntax keyword fenceArm contained sense nextgroup=fenceSense skipwhite
syntax keyword fenceArm contained busy full
syntax keyword fenceArmOfGood contained has held nextgroup=fenceKey skipwhite
syntax keyword fenceArmOfGood contained unheld
syntax match fenceKey contained /\%(0x\)\=\x\{1,16}\>/
syntax match fenceSense contained /\x\/\x\x\/\x\x\>/

syntax match fenceNumber contained /\d\{1,10}\>/
syntax match fenceNumberOfBlock contained /\d\+\>/ nextgroup=fenceNumber skipwhite
syntax match fenceNumberOfGeneration contained /\x\{1,8}\>/

highlight default link fenceComment Comment
highlight default link fenceVersion PreProc
highlight default link fenceDeclaration Structure
highlight default link fenceStatement Statement
highlight default link fenceArm Conditional
highlight default link fenceClause Function
highlight default link fenceCondition Conditional
highlight default link fenceCommand Function
highlight default link fenceOption Function
highlight default link fenceName Identifier
highlight default link fenceState Constant
highlight default link fenceKey Number
highlight default link fenceType Type
highlight default link fenceSense Special
highlight default link fenceNumber Number
highlight default link fenceWord String
for s:group in filter(getcompletion('fence', 'highlight'), 'v:val =~# "Of"')
  execute 'highlight default link' s:group substitute(s:group, 'Of.*', '', '')
endfor
unlet! s:group

let b:current_syntax = 'fence'
