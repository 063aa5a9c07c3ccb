/* Tokens of a shell: words in pieces, quotes with substitutions in them, here-texts, and arithmetic. */
lexer grammar ShellLexer;

tokens { WORD, PARAMETER }

COMMENT : '#' ~[\n]* -> skip ;
BLANK : ([ \t] | '\\' '\n')+ ;
NEWLINE : '\n' ;

IF : 'if' ;
THEN : 'then' ;
ELSE : 'else' ;
FI : 'fi' ;
WHILE : 'while' ;
FOR : 'for' ;
IN : 'in' ;
DO : 'do' ;
DONE : 'done' ;
BANG : '!' ;

BOTH : '&&' ;
EITHER : '||' ;
PIPE : '|' ;
BEHIND : '&' ;
NEXT : ';' ;
READ : '<' ;
WRITE : '>' ;
APPEND : '>>' ;
HERE_STRING : '<<<' ;
HERE_OPEN : '<<END' -> pushMode(HERE_TEXT) ;

ASSIGNMENT : Name '=' ;
NUMBER : [0-9]+ ;
PLAIN : (~[#!{}=&|;<>()"'$\\\p{White_Space}] | Escaped) (~[=&|;<>()"'$\\\p{White_Space}] | Escaped)* -> type(WORD) ;
LONE : [={}] -> type(WORD) ;

SINGLE_QUOTED : '\'' ~'\''* '\'' ;
QUOTE : '"' -> pushMode(QUOTED) ;
PLAIN_PARAMETER : '$' (Name | [0-9?#@*$!]) -> type(PARAMETER) ;
BRACED_OPEN : '${' (Name | [0-9]+) -> pushMode(BRACED) ;
COMMAND_OPEN : '$(' -> pushMode(DEFAULT_MODE) ;
SUM_OPEN : '$((' -> pushMode(SUM) ;
GROUP_OPEN : '(' -> pushMode(DEFAULT_MODE) ;
CLOSE : ')' -> popMode ;

fragment Escaped : '\\' ~'\n' ;
fragment Name : [a-zA-Z_] [a-zA-Z_0-9]* ;

mode QUOTED;

QUOTED_PARAMETER : PLAIN_PARAMETER -> type(PARAMETER) ;
QUOTED_BRACED : BRACED_OPEN -> type(BRACED_OPEN), pushMode(BRACED) ;
QUOTED_COMMAND : '$(' -> type(COMMAND_OPEN), pushMode(DEFAULT_MODE) ;
QUOTED_SUM : '$((' -> type(SUM_OPEN), pushMode(SUM) ;
TEXT : (~["\\$] | '\\' .)+ ;
DOLLAR : '$' -> type(TEXT) ;
END_QUOTE : '"' -> type(QUOTE), popMode ;

// After the name in ${name:-word}.
mode BRACED;

DEFAULT : ':'? [\-=?+] ;
CUT : '##' | '#' | '%%' | '%' ;
BRACED_PARAMETER : PLAIN_PARAMETER -> type(PARAMETER) ;
BRACED_QUOTE : '"' -> type(QUOTE), pushMode(QUOTED) ;
INNER_OPEN : BRACED_OPEN -> type(BRACED_OPEN), pushMode(BRACED) ;
BRACED_TEXT : (~["\\$}:\-=?+#%] | '\\' .)+ -> type(WORD) ;
COLON : ':' -> type(WORD) ;
BRACED_CLOSE : '}' -> popMode ;

mode SUM;

SUM_NUMBER : [0-9]+ -> type(NUMBER) ;
SUM_NAME : '$'? Name -> type(PARAMETER) ;
POWER : '**' ;
TIMES : [*/%] ;
PLUS : [+\-] ;
COMPARED : [<>] '='? | '==' | '!=' ;
SUM_BANG : '!' -> type(BANG) ;
LEFT : '(' ;
RIGHT : ')' ;
SUM_CLOSE : '))' -> popMode ;
SUM_SPACE : [ \t\n]+ -> skip ;

// A text of whole lines, up to one that is END alone. Each begins with the line end before it.
mode HERE_TEXT;

HERE_CLOSE : '\nEND' -> popMode ;
HERE_LINE : '\n' ~'\n'* ;
