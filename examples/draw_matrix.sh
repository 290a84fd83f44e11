#!/usr/bin/env bash
# Draws the Harris matrix of the contexts of an archive, by their stratigraphy alone, as archaeologists draw it: a box for
# each context, or for those that were made together; the latest on top; right angles; one rank for each level.
#
# usage: draw_matrix.sh FILE OUT.svg
#
# Wants crm_cli (or the variable CRM_CLI), awk and Graphviz' dot. Phases and dates play no part: only what is said of two
# contexts is drawn. Where the file is refused or contradicts itself, dates and all, that is said with the program's status,
# and where there is no dot, `draw_matrix: no dot` with status 3; OUT.svg stays as it was.
set -euo pipefail
if [ $# -ne 2 ]; then
    sed -n '2,9s/^# \?//p' "$0" >&2
    exit 3
fi
if ! command -v dot > /dev/null; then
    echo "draw_matrix: no dot: install Graphviz" >&2
    exit 3
fi
program=${CRM_CLI:-crm_cli}
room=$(mktemp -d)
trap 'rm -rf "$room"' EXIT

refuse() { # refuse STATUS LISTING
    if [ "$1" -eq 1 ]; then echo "draw_matrix: $file contradicts itself" >&2; else cat "$2" >&2; fi
    exit "$1"
}
file=$1
"$program" convert "$file" > "$room/all.nt" || refuse $? "$room/all.nt"
"$program" matrix "$file" > "$room/matrix" || refuse $? "$room/matrix"
# what relates two events, what they produced, and which produced contexts
grep -E ' <(urn:crmtime:[^>]*|[^>]*/AP7i?(_[^>]*)?)> | <(urn:crmtime:Relation|[^>]*/A4(_[^>]*)?)> \.$' "$room/all.nt" > "$room/some.nt" || true
"$program" matrix "$room/some.nt" > "$room/matrix" || refuse $? "$room/matrix"
awk '
    # labels by node, from the triples; then the lines of the matrix
    FNR == NR {
        if ($2 == "<http://www.w3.org/2000/01/rdf-schema#label>") {
            text = $0; sub(/^[^"]*"/, "", text); sub(/"[^"]*$/, "", text); label[$1] = text
        }
        next
    }
    FNR == 1 { print "digraph matrix {\n  rankdir=BT; splines=ortho; nodesep=0.3; ranksep=0.25;\n  node [shape=box, height=0.3, fontname=\"sans-serif\", fontsize=10];\n  edge [dir=none];" }
    /^x[0-9]+ unit / { unit[$1] = unit[$1] (unit[$1] == "" ? "" : "\\n") named($3) }
    /^x[0-9]+ period / { name[$1] = $3 }
    /^c[0-9]+ level / {
        box = ""
        for (i = 4; i <= NF; i++) box = box (box == "" ? "" : "\\n") (unit[$i] == "" ? named(name[$i]) : unit[$i])
        print "  " $1 " [label=\"" box "\"];"
        level[$3] = level[$3] " " $1 ";"
    }
    /^c[0-9]+ c[0-9]+$/ { print "  " $1 " -> " $2 ";" }
    END { for (k in level) print "  { rank=same;" level[k] " }"; print "}" }
    function named(term) {
        if (term in label) return label[term]
        sub(/^<.*[\/#]/, "", term); sub(/>$/, "", term)
        return term
    }
' "$room/all.nt" "$room/matrix" > "$room/matrix.dot"
dot -Tsvg "$room/matrix.dot" > "$room/matrix.svg"
mv "$room/matrix.svg" "$2"
