# Compares a picture with the run: what it must show is worked out from the text, the listing and the trace. Files in this
# order, each with its part in front: part=text, part=listing, part=trace, then the picture as part=marks and again as
# part=arrows. With -v from=I -v last=J it is the picture of these actions. Prints what differs; the exit status is then 1.
BEGIN {
  split("submit label send summary form enter place receive safe confirm deliver", words)
  if (!from) from = 1
}

function fault(what) { print what; faults++ }
# What stands between two strings, the first found and the next behind it.
function between(line, before, after) {
  line = substr(line, index(line, before) + length(before))
  return substr(line, 1, index(line, after) - 1)
}
function begin_stay(r, action) { bands += begun[r] && action >= from; begun[r] = 1; received[r] = 0 }

part == "text" { text[FNR - 1] = $0 }

part == "listing" && FNR == 1 {
  n = $2
  split(text[0], opening)
  founders = opening[3] == "founders" ? opening[4] : "{1}"
  for (r = 1; r <= n; r++)
    if (founders == "whole" || index(founders, r)) { view[r] = 1; begin_stay(r, 0) }
}

# The k-th accepted place of a view is the k-th message that its members receive.
part == "listing" && FNR > 1 && $1 != "end" {
  count = $1
  shown[$1] = $3 == "refused" ? "refused" : words[$2]
  number[$1] = $3 == "refused" ? $4 : ""
  if ($3 == "refused") next
  split(text[$1], action)
  r = action[2]
  if (action[1] == "enter" && (!last || $1 <= last)) { view[r] = action[3]; begin_stay(r, $1) }
  if (action[1] == "place") placed[action[3], ++queued[action[3]]] = $1
  if (action[1] == "receive") source[$1] = placed[view[r], ++received[r]]
}

# The place of what is confirmed or delivered is the last change of the page.
part == "trace" { trace[FNR] = $0; if (shown[FNR] ~ /^(confirm|deliver)$/) number[FNR] = $NF }

part == "marks" && /^<g class="mark/ {
  i = between($0, "<title>", " ")
  title = between($0, "<title>", "</title>")
  gsub(/&gt;/, ">", title)
  if (title != trace[i]) fault("title " i ": " title)
  if (between($0, "class=\"mark ", "\"") != shown[i]) fault("mark " i ": not " shown[i])
  if (number[i] != "" && between($0, "<text class=\"place\" y=\"19\">", "<") != number[i]) fault("number " i ": not " number[i])
  if (i != next_mark + from) fault("mark " i " after " next_mark " others")
  next_mark++
  at[between($0, "translate(", ")")] = i
}

part == "arrows" && /class="arrow/ {
  path = between($0, " d=\"M", "\"")
  gsub(/[LQ]/, " ", path)
  points = split(path, point, " ")
  i = at[point[points - 1] " " point[points]]
  if (shown[i] != "receive") fault("an arrow to " i ", which is no receive")
  if (source[i] >= from && at[point[1] " " point[2]] != source[i]) fault("an arrow to " i ", not from " source[i])
  if (source[i] < from && (point[1] " " point[2]) in at) fault("an arrow to " i ", not from the left edge")
  if (drawn[i]++) fault("two arrows to " i)
}

# The bands of a lane join each other and end at one edge; a primary one has a margin above 0.
part == "arrows" && /<title>recorder .*<rect class="band/ {
  drawn_bands++
  lane = between($0, " y=\"", "\"")
  x = between($0, " x=\"", "\"")
  margin = between($0, "margin ", "<") + 0
  if (lane in end && end[lane] != x) fault("a band at " x " behind one to " end[lane])
  if ((margin > 0) != (index($0, "class=\"band primary\"") > 0)) fault("a band with margin " margin)
  end[lane] = x + between($0, "width=\"", "\"")
}

END {
  if (!last) last = count
  if (next_mark + from != last + 1) fault(next_mark " marks")
  for (r = 1; r <= n; r++) bands += begun[r]
  if (drawn_bands != bands) fault(drawn_bands " bands, not " bands)
  for (lane in end) {
    if (edge && end[lane] != edge) fault("a band to " end[lane] ", another to " edge)
    edge = end[lane]
  }
  for (i = from; i <= last; i++)
    if (shown[i] == "receive" && !drawn[i]) fault("no arrow to " i)
  exit faults > 0
}
