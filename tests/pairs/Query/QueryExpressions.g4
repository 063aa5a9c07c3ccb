/* Expressions in questions to a database, the operators that bind closest first. */
parser grammar QueryExpressions;

expressions : expression (',' expression)* ;

expression
    : ('+' | '-') expression                                        # Signed
    | expression operator = ('*' | '/' | '%') expression            # Product
    | expression operator = ('+' | '-') expression                  # Sum
    | <assoc=right> expression '||' expression                      # Joined
    | expression NOT? IN bracket                                    # Member
    | expression NOT? BETWEEN expression AND expression             # Range
    | expression NOT? LIKE expression                               # Alike
    | expression ('=' | COMPARISON) expression                      # Compared
    | expression IS NOT? (NULL | truth)                             # Tested
    | NOT expression                                                # Negation
    | expression AND expression                                     # Both
    | expression OR expression                                      # Either
    | CASE expression? (WHEN conditions += expression THEN expression)+ (ELSE expression)? END  # Cases
    | EXISTS bracket                                                # Exists
    | NAME '(' ('*' | DISTINCT? expressions)? ')'                   # Call
    | bracket                                                       # Group
    | path                                                          # Field
    | (INTEGER | DECIMAL | STRING | BITS | NULL | truth | PARAMETER)  # Constant
    ;

bracket : '(' expressions ')' ;

path : NAME ('.' NAME)* ;

truth : TRUE | FALSE ;
