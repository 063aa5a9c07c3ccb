/* Papers: commands with arguments, environments, and text with formulas. */
parser grammar PaperParser;

options { tokenVocab = PaperLexer; }

import PaperMathematics;

paper : PARAGRAPH? preamble BEGIN name content END name PARAGRAPH? EOF ;

preamble : (command | PARAGRAPH)* ;

content : (piece | PARAGRAPH)* ;

piece
    : command                                          # Commanded
    | BEGIN name choices? argument* content END name   # Environment
    | BEGIN_LISTING VERBATIM* LISTING_END              # Listing
    | BRACE_OPEN content BRACE_CLOSE                   # Braced
    | formula                                          # Mathematics
    | (WORD | ESCAPE | VERBATIM | TIE | CELL)          # Plain
    | NOEXPAND any                                     # Unexpanded
    | BRACKET_OPEN                                     # Opened
    | BRACKET_CLOSE                                    # Closed
    ;

// Brackets and braces directly behind a command are its own, as many as there are.
command : COMMAND (choices | argument)* ;

argument : BRACE_OPEN content BRACE_CLOSE ;

choices : BRACKET_OPEN choice* BRACKET_CLOSE ;

// Anything but a closing bracket and what would begin something else.
choice : ~(BRACKET_CLOSE | BRACKET_OPEN | BEGIN | END | PARAGRAPH) ;

// The one token that is taken as it is.
any : ~(BRACE_OPEN | BRACE_CLOSE) ;

name : BRACE_OPEN WORD BRACE_CLOSE ;

formula
    : DOLLAR statement DOLLAR                       # Inline
    | FORMULA_OPEN statement FORMULA_CLOSE          # Parenthesized
    | DISPLAY_OPEN statement? DISPLAY_CLOSE         # Display
    ;
