# Makes a graph for `dot` of a listing by `g4 atn`: g4 atn G.g4 rule | awk -f docs/listing-to-dot.awk | dot -Tsvg > rule.svg
NR == 1 { print "digraph \"" $0 "\" {"; print "    rankdir = LR;"; next }
$2 == "end" { print "    " $1 " [shape = doublecircle];"; next }
$2 == "decision" {
    print "    " $1 " [shape = diamond];"
    for (i = 3; i <= NF; i++) print "    " $1 " -> " $i " [label = \"" i - 2 "\"];"
    next
}
{
    label = $0
    sub(/^[0-9]+ /, "", label)
    sub(/ [0-9]+$/, "", label)
    gsub(/["\\]/, "\\\\&", label)
    print "    " $1 " -> " $NF " [label = \"" label "\"];"
}
END { print "}" }
