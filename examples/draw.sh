#!/usr/bin/env bash
# Draws a round: reads a statement and writes a picture of it as SVG.
#   examples/draw.sh < examples/triangle.statement > triangle.svg
# Firms are nodes and claims are arrows from the debtor to the creditor. What is discharged of a claim is a dark arrow, the thicker
# the more it is; what is left is a thin grey one. A firm with a window of a FUNDED round is marked by what it may spend.
# Needs `dot` of graphviz. The statement is taken as it is: whether it is sound, `check` tells.
set -eu -o pipefail

command -v dot >/dev/null || {
  echo 'draw: dot of graphviz is not installed' >&2
  exit 1
}

tr -d '\r' | awk '
  BEGIN {
    print "digraph round {"
    print "  node [shape=box style=\"rounded,filled\" fillcolor=\"#f4f1ea\" color=\"#8a8270\" fontname=\"Helvetica\" fontsize=11 margin=\"0.08,0.04\"]"
    print "  edge [fontname=\"Helvetica\" fontsize=9 arrowsize=0.7]"
  }
  $1 == "ROUND" { printf "  graph [label=\"Round %s, %s\" labelloc=t fontname=\"Helvetica\" fontsize=14 nodesep=0.35 ranksep=0.6 overlap=false splines=true]\n", $2, $3 }
  $1 == "PARTY" && $3 != "0.00" { printf "  \"%s\" [label=\"%s\\nspends up to %s\" fillcolor=\"#fbe3b0\" color=\"#b7791f\" penwidth=2]\n", $2, $2, $3 }
  $1 == "PARTY" && $3 == "0.00" { printf "  \"%s\"\n", $2 }
  $1 == "CLAIM" { claims++; creditor[claims] = $2; debtor[claims] = $4; amount[claims] = $5; discharged[claims] = $6; if ($6 + 0 > most) most = $6 + 0 }
  END {
    for (i = 1; i <= claims; i++) {
      left = amount[i] - discharged[i]
      if (discharged[i] + 0 > 0)
        printf "  \"%s\" -> \"%s\" [label=\"%s of %s\" color=\"#1f5f8b\" fontcolor=\"#1f5f8b\" penwidth=%.1f]\n", debtor[i], creditor[i], discharged[i], amount[i], 1 + 4 * discharged[i] / most
      if (left > 0)
        printf "  \"%s\" -> \"%s\" [label=\"%.2f left\" color=\"#a8a8a8\" fontcolor=\"#808080\" penwidth=0.6]\n", debtor[i], creditor[i], left
    }
    print "}"
  }
' | dot -Tsvg
