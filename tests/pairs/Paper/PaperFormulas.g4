/* Tokens of formulas. */
lexer grammar PaperFormulas;

tokens { VERBATIM }

// Outside of formulas these stand for nothing, and are words.
LONE : [#_^] -> type(WORD) ;

mode FORMULA;

FORMULA_CLOSE : '\\)' -> popMode ;
DISPLAY_CLOSE : '\\]' -> popMode ;
FORMULA_DOLLAR : '$' -> type(DOLLAR), popMode ;
TEXT_OPEN : '\\text{' -> pushMode(FORMULA_TEXT) ;
FRACTION : '\\frac' ;
ROOT : '\\sqrt' ;
LEFT : '\\left' [([|.] ;
RIGHT : '\\right' [)\]|.] ;
LARGE : '\\sum' | '\\prod' | '\\int' | '\\lim' ;
FUNCTION : '\\' ('sin' | 'cos' | 'log' | 'ln' | 'exp' | 'max' | 'min') ;
RELATION : [=<>] | '\\' ('leq' | 'geq' | 'neq' | 'in' | 'to' | 'approx' | 'subset') ;
TIMES : '*' | '\\cdot' | '\\times' ;
OVER : '/' ;
PLUS : '+' | '-' | '\\pm' | '\\cup' ;
LOW : '_' ;
HIGH : '^' ;
PRIME : '\''+ ;
BANG : '!' ;
COMMA : ',' ;
OPEN : '(' ;
CLOSE : ')' ;
GROUP_OPEN : '{' ;
GROUP_CLOSE : '}' ;
BAR : '|' ;
NUMBER : [0-9]+ ('.' [0-9]+)? ;
LETTER : [\p{Latin}\p{Greek}] ;
SYMBOL : '\\' [a-zA-Z]+ ;
DOTS : '...' ;
FORMULA_SPACE : ([ \t\n] | '\\' [,;:! ] | '~')+ -> skip ;
FORMULA_REMARK : REMARK -> type(REMARK), channel(REMARKS) ;

mode FORMULA_TEXT;

TEXT_CLOSE : '}' -> popMode ;
TEXT_FORMULA : '$' -> type(DOLLAR), pushMode(FORMULA) ;
TEXT_WORD : ~[{}$]+ -> type(WORD) ;
