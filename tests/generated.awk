# Makes grammar `number` of a hundred, of 50 to some 3,900 rules, in the file X.g4, and what `check` says of it in the file wanted.
# Each rule calls a later one before anything is read, and one of any place after a token. Four of five have a fault at the rule
# in the middle: a rule that is not there, a loop that can be empty, an empty operator, or left recursion through all the rules
# that call each other from there to the last.
function later(rule,   first) {
    first = rule + 1
    return first + (rule * 7919 + rules) % (rules - first)
}
BEGIN {
    rules = number * 39 + 50
    faulty = int(rules / 2)
    last = rules - 1
    fault = number % 5
    print "grammar X;" > "X.g4"
    for (rule = 0; rule < last; rule++) {
        called = later(rule)
        text = "r" rule " : 'k' r" (called * 31) % rules " | r" called "? T"
        if (rule == faulty && fault == 1) text = text " | T r" rules
        if (rule == faulty && fault == 2) text = text " | T (T?)*"
        if (rule == faulty && fault == 3) text = text " | r" rule " {}"
        print text " ;" > "X.g4"
    }
    print "r" last " : T" (fault == 4 ? " | r" faulty " T" : "") " ;" > "X.g4"
    print "T : 't' ;" > "X.g4"
    if (fault == 0) wanted = "rules " rules " tokens 2"
    if (fault == 1) wanted = "X.g4: rule r" rules " is not defined"
    if (fault == 2) wanted = "X.g4: rule r" faulty " has a loop that can be empty"
    if (fault == 3) wanted = "X.g4: rule r" faulty " alternative 3 is an empty operator"
    if (fault == 4) {
        wanted = "X.g4: left recursion through r" faulty
        for (rule = faulty; rule < last; wanted = wanted ", r" rule) rule = later(rule)
    }
    print wanted > "wanted"
}
