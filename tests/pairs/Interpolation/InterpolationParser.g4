/* Programs of a small language whose strings hold expressions. */
parser grammar InterpolationParser;

options { tokenVocab = InterpolationLexer; }

program : statement* EOF ;

statement
    : 'let' NAME '=' expression ';'                               # Binding
    | 'fun' NAME parameters (block | '=>' expression ';')         # Definition
    | 'if' condition block ('else' 'if' condition block)* ('else' block)?  # Choice
    | 'while' condition block                                     # Repetition
    | 'return' expression? ';'                                    # Result
    | target = expression '=' expression ';'                      # Assignment
    | expression ';'                                              # Effect
    | block                                                       # Group
    ;

condition : '(' expression ')' ;

block : '{' statement* '}' ;

parameters : '(' (NAME (',' NAME)*)? ')' ;

expression
    : expression '.' NAME                             # Field
    | expression '[' expression ']'                   # Item
    | callee = expression '(' (expression (',' expression)*)? ')'  # Call
    | <assoc=right> expression '^' expression         # Power
    | ('-' | '!') expression                          # Prefix
    | expression ('*' | '/') expression               # Product
    | expression ('+' | '-') expression               # Sum
    | expression COMPARISON expression                # Compared
    | expression '&&' expression                      # Both
    | expression '||' expression                      # Either
    | <assoc=right> expression '??' expression        # Fallback
    | parameters '=>' expression                      # Lambda
    | '(' expression ')'                              # Bracketed
    | '[' (expression (',' expression)* ','?)? ']'    # List
    | NAME                                            # Name
    | constant                                        # Simple
    ;

constant : NUMBER | 'null' | RAW_STRING | string ;

string : QUOTE piece* QUOTE ;

piece
    : TEXT                      # Plain
    | ESCAPE                    # Escaped
    | SHORT_NAME                # Short
    | HOLE_OPEN expression '}'  # Hole
    ;
