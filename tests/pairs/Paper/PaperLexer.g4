/* Tokens of papers: text with commands and environments, formulas between dollar signs, and listings that stay as they are. */
lexer grammar PaperLexer;

import PaperFormulas;

channels { REMARKS }

REMARK : '%' ~'\n'* ('\n' | EOF) -> channel(REMARKS) ;
BEGIN_LISTING : '\\begin{listing}' -> pushMode(LISTING) ;
BEGIN : '\\begin' ;
END : '\\end' ;
VERB_BEGIN : '\\verb|' -> more, pushMode(VERB_TEXT) ;
FORMULA_OPEN : '\\(' -> pushMode(FORMULA) ;
DISPLAY_OPEN : '\\[' -> pushMode(FORMULA) ;
DOLLAR : '$' -> pushMode(FORMULA) ;
ESCAPE : '\\' [%$&#_{}~^\\ ,] ;
NOEXPAND : '\\noexpand' ;
COMMAND : '\\' [a-zA-Z]+ '*'? ;
BRACE_OPEN : '{' ;
BRACE_CLOSE : '}' ;
BRACKET_OPEN : '[' ;
BRACKET_CLOSE : ']' ;
CELL : '&' ;
TIE : '~' ;
PARAGRAPH : Blank* '\n' (Blank* '\n')+ ;
SPACE : (Blank | '\n')+ -> channel(HIDDEN) ;
WORD : ~[\\%$&#_{}~^[\] \t\n]+ ;

fragment Blank : [ \t] ;

mode VERB_TEXT;

VERB_PART : ~[|\n] -> more ;
VERB : '|' -> type(VERBATIM), popMode ;

// A listing is lines; the words \end{listing} end it wherever they stand.
mode LISTING;

LISTING_END : '\\end{listing}' -> popMode ;
LISTING_LINE : ~[\\\n]* '\n' -> type(VERBATIM) ;
LISTING_TEXT : (~[\\\n]+ | '\\') -> type(VERBATIM) ;
