// Text with tags inside of each other, by the tokens of MarkupLexer.g4.
parser grammar MarkupParser;

options { tokenVocab = MarkupLexer; }

document : content* EOF ;

content : TEXT | element ;

element
    : OPEN NAME attribute* CLOSE content* OPEN SLASH NAME CLOSE
    | OPEN NAME attribute* SLASH CLOSE
    ;

attribute : NAME EQUALS VALUE ;
