" Colours of Event-Driven FRP as efrp reads it: tokens, keywords, and the chip's names.
if exists("b:current_syntax")
  finish
endif

syntax case match

syntax keyword efrpDeclaration event priority setup let init in later input output table
syntax keyword efrpConditional if then else
syntax keyword efrpType bool u8 u16
syntax keyword efrpBoolean true false
syntax keyword efrpSource T0 INT PSP AD SSP CCP1 TMR2 TMR1 EE BCL CCP2
syntax keyword efrpPort PORTA PORTB PORTC PORTD PORTE
syntax match efrpRegister "\<\(TRIS[A-E]\|OPTION_REG\|TMR[02]\|TMR1[LH]\|T[12]CON\|PR2\|CCPR[12][LH]\|CCP[12]CON\|SSPBUF\|SSPCON2\?\|SSPADD\|SSPSTAT\|ADCON[01]\)\>"
syntax match efrpNumber "\<\d\+w\?\>"
syntax match efrpNumber "\<0x\x\+w\?\>"
syntax match efrpOperator "=>\|||\|&&\|==\|!=\|<=\|>=\|<<\|>>\|[-=<>|^&+*/%~!]"
syntax keyword efrpTodo TODO FIXME contained
syntax match efrpComment "//.*$" contains=efrpTodo,@Spell

highlight default link efrpDeclaration Keyword
highlight default link efrpConditional Conditional
highlight default link efrpType Type
highlight default link efrpBoolean Boolean
highlight default link efrpSource Constant
highlight default link efrpPort Identifier
highlight default link efrpRegister Identifier
highlight default link efrpNumber Number
highlight default link efrpOperator Operator
highlight default link efrpTodo Todo
highlight default link efrpComment Comment

let b:current_syntax = "efrp"
