# What the clients saw, as a graph for dot: from the report as JSON, as `faust json` prints it.
#
#   faust json < SCRIPT | jq -r -f examples/fork.jq | dot -Tsvg > fork.svg
#
# A circle is an operation, and a path from the start is what a client saw, in its order. Where two clients saw the
# same operations in the same order they share the path; where the server showed them two histories it forks.
# A box is a client at the end of its view, a red one a client that was told of a failure.

# What is seen up to a place, as the name of a node.
def node: if length == 0 then "start" else join(" ") end | tojson;

def failure_of($client): [.failures[] | select(.client == $client)] | first;

. as $report
| [.views[] | range(1; length + 1) as $k | .[:$k]] | unique as $seen
| "digraph views {",
  "  rankdir=LR; node [fontname=\"Helvetica\", fontsize=12]; edge [fontname=\"Helvetica\", fontsize=10];",
  "  label=\(if $report.departure == null then "no departure" else "the server departs in entry \($report.departure)" end | tojson); fontname=\"Helvetica\"; fontsize=11;",
  "  \([] | node) [shape=point];",
  ($seen[] | "  \(node) [shape=circle, label=\(last | tojson)];"),
  ($seen[] | "  \(.[:-1] | node) -> \(node);"),
  ($report.views | to_entries[]
   | (.key + 1) as $client
   | ($report | failure_of($client)) as $failure
   | "  \("client \($client)" | tojson) [shape=box, label=\("client \($client)" + (if $failure == null then "" else "\ncheck \($failure.check), entry \($failure.entry)" end) | tojson)\(if $failure == null then "" else ", color=red, fontcolor=red" end)];",
     "  \(.value | node) -> \("client \($client)" | tojson) [style=dashed, arrowhead=none];"),
  "}"
