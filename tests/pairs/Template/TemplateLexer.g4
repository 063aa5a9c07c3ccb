/* Tokens of templates: text as it is, and between {{ and }} or {% and %} the words of expressions and tags. */
lexer grammar TemplateLexer;

import TemplateWords;

// In place of the imported rule: a remark may have any character in it, and is kept aside.
REMARK : '{#' .*? '#}' -> channel(HIDDEN) ;

// Text, up to the next brace. One that opens nothing is text too.
VERBATIM : '{%' Blank* 'verbatim' Blank* '%}' .*? '{%' Blank* 'endverbatim' Blank* '%}' ;
OUTPUT_OPEN : '{{' Trim? -> pushMode(INSIDE) ;
TAG_OPEN : '{%' Trim? -> pushMode(INSIDE) ;
TEXT : ~'{'+ ;
LONE_BRACE : '{' -> type(TEXT) ;

fragment Trim : '-' ;

mode INSIDE;

OUTPUT_CLOSE : Trim? '}}' -> popMode ;
TAG_CLOSE : Trim? '%}' -> popMode ;
