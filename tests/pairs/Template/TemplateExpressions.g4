/* Expressions of templates, the operators that bind closest first. */
parser grammar TemplateExpressions;

options { tokenVocab = TemplateWords; }

expression
    : expression PIPE NAME arguments?                                          # Filter
    | expression DOT (NAME | NUMBER) arguments?                                # Member
    | expression BRACKET_OPEN expression BRACKET_CLOSE                         # Item
    | <assoc=right> expression POWER expression                                # Power
    | (MINUS | PLUS) expression                                                # Sign
    | expression operator = (TIMES | OVER | REST) expression                   # Product
    | expression operator = (PLUS | MINUS) expression                          # Sum
    | expression JOIN expression                                               # Join
    | expression RANGE expression                                              # Span
    | expression (LESS | LESS_EQUAL | GREATER | GREATER_EQUAL) expression      # Order
    | expression (EQUAL | UNEQUAL | NOT? IN) expression                        # Equality
    | expression IS test                                                       # Tested
    | NOT expression                                                           # Negation
    | expression AND expression                                                # Conjunction
    | expression OR expression                                                 # Disjunction
    | <assoc=right> expression QUESTION expression COLON expression            # Choice
    | NAME arguments                                                           # Call
    | PAREN_OPEN expression PAREN_CLOSE                                        # Group
    | constant                                                                 # Value
    ;

test : NOT? NAME ;

arguments : PAREN_OPEN (argument (COMMA argument)*)? PAREN_CLOSE ;

argument : (NAME ASSIGN)? expression ;

constant : NAME | NUMBER | STRING+ | TRUE | FALSE | list | map ;

list : BRACKET_OPEN (expression (COMMA expression)* COMMA?)? BRACKET_CLOSE ;

map : BRACKET_OPEN (COLON | entry (COMMA entry)*) BRACKET_CLOSE ;

entry : key = (NAME | STRING | NUMBER) COLON expression ;
