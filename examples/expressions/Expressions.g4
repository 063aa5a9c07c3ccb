// Expressions as they are usually written: the earlier an alternative, the closer its operator binds.
grammar Expressions;

lines : (expression ';')* ;

expression
    : '-' expression                                          # Negation
    | <assoc=right> expression '^' expression                 # Power
    | expression ('*' | '/') expression                       # Product
    | expression ('+' | '-') expression                       # Sum
    | expression '?' expression ':'<assoc=right> expression   # Choice
    | NAME '(' (expression (',' expression)*)? ')'            # Call
    | '(' expression ')'                                      # Brackets
    | expression '!'                                          # Factorial
    | NAME                                                    # Name
    | INT                                                     # Number
    ;

NAME : [a-z]+ ;
INT : [0-9]+ ;
BLANKS : [ \n]+ -> skip ;
