# Makes a graph for `dot` of the events of a file: g4 parse -g X.g4 -s r --events f | awk -f docs/events-to-dot.awk | dot -Tsvg > f.svg
# A name of a file must have no ": " in it. Of several files each has a tree of its own in the one graph.
function show(text) { gsub(/["\\]/, "\\\\&", text); return text }
function node(text, shape) {
    count++
    print "    n" count " [label = \"" show(text) "\", shape = " shape "];"
    if (depth > 0) print "    n" parent[depth] " -> n" count ";"
}
BEGIN { print "digraph tree {" }
/^files / { next }
{
    event = substr($0, index($0, ": ") + 2)
    split(event, words, " ")
}
words[1] == "enter" { node(words[2] " " words[3], "plain"); parent[++depth] = count }
words[1] == "token" { node(substr(event, 7), "box") }
words[1] == "exit" { depth-- }
END { print "}" }
