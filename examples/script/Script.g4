// A small language in the manner of C. Blanks are skipped; comments and directives stay among the tokens, on channels of their own.
grammar Script;

channels { DIRECTIVES }

program : declaration* EOF ;

declaration : function | structure | variable ;
function : type ID '(' parameters? ')' block ;
parameters : parameter (',' parameter)* ;
parameter : type ID ;
structure : 'struct' ID '{' member* '}' ';' ;
member : type ID ';' ;
variable : type ID ('=' initializer)? ';' ;
initializer : expr | '{' expr (',' expr)* ','? '}' ;
type
    : type '*'         # PointerType
    | type '[' INT ']' # ArrayType
    | 'struct' ID      # StructType
    | basic            # BasicType
    ;
basic : 'int' | 'char' | 'float' | 'void' ;

block : '{' statement* '}' ;
statement
    : block
    | variable
    | 'if' '(' expr ')' statement ('else' statement)?
    | 'while' '(' expr ')' statement
    | 'for' '(' expr? ';' expr? ';' expr? ')' statement
    | 'return' expr? ';'
    | 'break' ';'
    | expr ';'
    | ';'
    ;

expr
    : expr '(' arguments? ')'                              # Call
    | expr '[' expr ']'                                    # Index
    | expr op=('.' | '->') ID                              # Access
    | op=('-' | '!' | '~' | '*' | '&') expr                # Prefix
    | expr op=('*' | '/' | '%') expr                       # Product
    | expr op=('+' | '-') expr                             # Sum
    | expr op=('<<' | '>>') expr                           # Shift
    | expr op=('<' | '<=' | '>' | '>=' | '==' | '!=') expr # Comparison
    | expr '&&' expr                                       # And
    | expr '||' expr                                       # Or
    | <assoc=right> expr '?' expr ':' expr                 # Choice
    | <assoc=right> expr op=('=' | '+=' | '-=') expr       # Assignment
    | '(' expr ')'                                         # Brackets
    | ID                                                   # Name
    | literal                                              # Value
    ;
arguments : expr (',' expr)* ;
literal : INT | FLOAT | CHAR | STRING+ ;

ID : [\p{L}_] [\p{L}\p{Nd}_]* ;
INT : DIGIT+ | '0x' HEX+ ;
FLOAT : DIGIT+ '.' DIGIT* EXPONENT? | '.' DIGIT+ EXPONENT? | DIGIT+ EXPONENT ;
CHAR : '\'' (ESCAPE | ~['\\\n]) '\'' ;
STRING : '"' (ESCAPE | ~["\\\n])* '"' ;

fragment DIGIT : [0-9] ;
fragment HEX : [0-9a-fA-F] ;
fragment EXPONENT : [eE] [+\-]? DIGIT+ ;
fragment ESCAPE : '\\' ([nrt0"'\\] | 'x' HEX HEX) ;

COMMENT : '/*' (COMMENT | .)*? '*/' -> channel(HIDDEN) ;
LINE_COMMENT : '//' ~[\n]* -> type(COMMENT), channel(HIDDEN) ;
DIRECTIVE : '#' ~[\n]* -> channel(DIRECTIVES) ;
WS : [ \t\r\n]+ -> skip ;
