/* What formulas say. */
parser grammar PaperMathematics;

options { tokenVocab = PaperFormulas; }

statement : side (RELATION side)* (COMMA statement?)? ;

side : PLUS* expression ;

expression
    : expression (LOW | HIGH) script                     # Indexed
    | expression (PRIME | BANG)                          # Mark
    | <assoc=right> expression expression                # Juxtaposed
    | expression operator = (TIMES | OVER) expression    # Product
    | function expression                                # Applied
    | expression PLUS expression                         # Sum
    | primary                                            # Simple
    ;

function : (LARGE | FUNCTION) ((LOW | HIGH) script)* ;

script : GROUP_OPEN statement GROUP_CLOSE | letter | NUMBER | SYMBOL ;

primary
    : NUMBER
    | letter
    | SYMBOL
    | DOTS
    | OPEN statement CLOSE
    | LEFT statement RIGHT
    | BAR statement BAR
    | GROUP_OPEN statement GROUP_CLOSE
    | FRACTION GROUP_OPEN statement GROUP_CLOSE GROUP_OPEN statement GROUP_CLOSE
    | ROOT GROUP_OPEN statement GROUP_CLOSE
    | TEXT_OPEN (WORD | DOLLAR statement DOLLAR)* TEXT_CLOSE
    ;

letter : LETTER ;
