// Operands, which may have the importing grammar's sums in brackets.
grammar Operands;
import Words;

operand : NUMBER | NAME call? | '(' sum ')' ;
call : '(' (sum (',' sum)*)? ')' ;
