// A small language with soft keywords: `async`, `await`, `record`, `let`, `of` and others are keywords only where a predicate says so, and
// names everywhere else. Three flags switch parts of the language on: `tests`, `unions` and `pipes`.
grammar Keywords;

program : item* EOF ;

// A word begins such an item only before what follows it there. Else it is a name, with which a statement may begin.
item
    : {text(1) == 'async' && text(2) == 'fn'}? asynchronous
    | {text(1) == 'record' && text(3) == '{'}? record
    | {flag(tests) && text(1) == 'test' && text(3) == '{'}? test
    | function
    | statement
    ;
asynchronous : ID function ;
function : 'fn' ID '(' parameters? ')' (':' type)? block ;
parameters : parameter (',' parameter)* ;
parameter : ID (':' type)? ;
test : ID STRING block ;

// A field may be named `get` or `set`: before a name and a bracket these words begin a member with a body.
record : ID ID '{' member* '}' ;
member
    : {(text(1) == 'get' || text(1) == 'set') && text(3) == '('}? ID ID '(' parameters? ')' block # Accessor
    | ID ':' type ';'                                                                            # Field
    ;

// Types are put together by `|` with the flag alone: the predicate stands after the left operand.
type
    : type '[' ']'                  # List
    | type {flag(unions)}? '|' type # Union
    | ID                            # Named
    ;

block : '{' statement* '}' ;

// `stop` and `next` count inside a loop, `yield` inside an asynchronous function; `yield (a);` there is no call.
statement
    : {text(1) == 'let' && text(3) == '='}? ID ID '=' pipeline ';'                           # Let
    | {inside(loop) && (text(1) == 'stop' || text(1) == 'next') && text(2) == ';'}? ID ';'   # Jump
    | {inside(asynchronous) && text(1) == 'yield'}? ID pipeline ';'                          # Yield
    | loop                                                                                   # Repeat
    | 'if' '(' pipeline ')' block ('else' block)?                                            # If
    | 'return' pipeline? ';'                                                                 # Return
    | pipeline ';'                                                                           # Do
    ;
loop : 'for' ID {text(1) == 'of'}? ID pipeline block ;

pipeline : condition ({flag(pipes)}? '|>' condition)* ;
condition : expr ({text(1) == 'is'}? ID type)? ;
expr
    : expr '(' arguments? ')'                                   # Call
    | expr '.' ID                                               # Access
    | {inside(asynchronous) && text(1) == 'await'}? ID expr     # Await
    | '-' expr                                                  # Negation
    | expr op=('*' | '/') expr                                  # Product
    | expr op=('+' | '-') expr                                  # Sum
    | expr op=('<' | '==') expr                                 # Comparison
    | <assoc=right> expr '=' expr                               # Assignment
    | '(' pipeline ')'                                          # Brackets
    | '[' arguments? ']'                                        # Items
    | ID                                                        # Word
    | INT                                                       # Number
    | STRING                                                    # Text
    ;
arguments : pipeline (',' pipeline)* ;

ID : [a-z_] [a-z0-9_]* ;
INT : [0-9]+ ;
STRING : '"' ~["\n]* '"' ;
COMMENT : '#' ~[\n]* -> skip ;
WS : [ \n]+ -> skip ;
