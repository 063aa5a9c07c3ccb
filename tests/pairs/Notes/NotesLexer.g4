/* Tokens of notes in plain text with marks. At the start of a line a mark tells what the line is; after that come marks of words. */
lexer grammar NotesLexer;

// At the start of a line.
HEADING : '#' '#'? '#'? '#'? ' '+ -> mode(LINE) ;
BULLET : ' '* [*+\-] ' '+ -> mode(LINE) ;
ORDINAL : ' '* [0-9]+ [.)] ' '+ -> mode(LINE) ;
QUOTATION : '>' ' '? ;
RULE : ('---' '-'* | '***' '*'*) [ \t]* '\n' ;
FENCE_OPEN : '```' ~[`\n]* '\n' -> pushMode(FENCED) ;
CODE_LINE : ('    ' | '\t') ~[ \t\n] ~'\n'* '\n' ;
DEFINITION_OPEN : '[' ~[\]\n]+ ']:' ' '+ -> mode(ADDRESS) ;
EMPTY : [ \t]* '\n' ;

// Anything else begins a line of text.
FIRST_STRONG : '**' -> type(STRONG), mode(LINE) ;
FIRST_EMPHASIS : '*' -> type(EMPHASIS), mode(LINE) ;
FIRST_BRACKET : '[' -> type(LINK_OPEN), mode(LINE), pushMode(LINK) ;
FIRST_PICTURE : '![' -> type(PICTURE_OPEN), mode(LINE), pushMode(LINK) ;
FIRST_CODE : Code -> type(CODE), mode(LINE) ;
FIRST_ESCAPE : Escape -> type(ESCAPE), mode(LINE) ;
FIRST_BLANKS : ' '+ -> skip ;
FIRST_WORD : (Word | .) -> type(WORD), mode(LINE) ;

fragment Code : '`' ~[`\n]+ '`' | '``' ~'\n'+? '``' ;
fragment Escape : '\\' [\p{P}\p{S}] ;
fragment Word : ~[ \t\n*_`[\]\\!<>#+\-0-9]+ ;

// The rest of a line.
mode LINE;

STRONG : '**' ;
EMPHASIS : '*' ;
UNDERLINED : '_' ;
PICTURE_OPEN : '![' -> pushMode(LINK) ;
LINK_OPEN : '[' -> pushMode(LINK) ;
CODE : Code ;
ESCAPE : Escape ;
AUTOLINK : '<' [a-z]+ ':' ~[>\n]* '>' ;
BREAK : '  ' ' '* '\n' -> mode(DEFAULT_MODE) ;
LINE_END : '\n' -> mode(DEFAULT_MODE) ;
SPACE : ' '+ ;
WORD : Word ;
OTHER : . -> type(WORD) ;

// Between the brackets of a link, and then between its parentheses.
mode LINK;

LINK_WORD : ~[\]*`\\\n]+ -> type(WORD) ;
LINK_STRONG : '**' -> type(STRONG) ;
LINK_EMPHASIS : '*' -> type(EMPHASIS) ;
LINK_CODE : Code -> type(CODE) ;
LINK_ESCAPE : Escape -> type(ESCAPE) ;
LINK_MIDDLE : '](' -> mode(TARGET) ;
REFERENCE : '][' ~[\]\n]* ']' -> popMode ;
BRACKET_CLOSE : ']' -> popMode ;

mode TARGET;

TITLE : '"' (~["\n] | '\\"')* '"' ;
URL : (~[ \t\n()] | '(' ~[ \t\n()]* ')')+ ;
TARGET_BLANK : ' '+ -> skip ;
LINK_CLOSE : ')' -> popMode ;

// What is behind the name of a reference.
mode ADDRESS;

ADDRESS_TITLE : TITLE -> type(TITLE) ;
ADDRESS_URL : ~[ \t\n]+ -> type(URL) ;
ADDRESS_BLANK : ' '+ -> skip ;
ADDRESS_END : '\n' -> type(LINE_END), mode(DEFAULT_MODE) ;

// Lines of code, as they stand.
mode FENCED;

FENCE_CLOSE : '```' [ \t]* '\n' -> popMode ;
FENCED_LINE : ~'\n'* '\n' -> type(CODE_LINE) ;
