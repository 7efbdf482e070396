# What docs/formats.md says of a text and of each small change of it. Nothing here comes from the program.
#
# The input is the bytes of the text as numbers, from `od`. Variables: `word` is script or audit, and `few` is 1 for a
# selection. A line of the output is a case and what is due: the status, and then the first line of the answer where it is
# no report, or else how many entries the report has.
#
#   cut P -    the first P bytes                  set P V    byte P, counted from 0, becomes V
#   out P -    byte P is taken out                twice P -  byte P stands twice
#   whole 0 -  the text as it is
#
# Clients and server are a model that is enough for these texts: at most one SUBMIT arrives, so its reply has the initial
# version and nothing pending. Where more would be needed, what is due is `?`, which no program answers.

# A byte as a character. All bytes that may stand nowhere are alike.
function character(byte) { return byte == 10 ? "\n" : byte >= 32 && byte <= 126 ? sprintf("%c", byte) : "\177" }

function is_number(token) { return token ~ /^(0|[1-9][0-9]*)$/ }

# The tokens of a line, in `token`; `tokens` is how many.
function take_tokens(line,   end) {
  tokens = 0
  for (;;) {
    tokens++
    if (substr(line, 1, 1) == "\"") {
      end = index(substr(line, 2), "\"")
      end = end == 0 ? length(line) : end + 1
      token[tokens] = substr(line, 1, end)
      line = substr(line, end + 1)
      if (line == "") return
      if (substr(line, 1, 1) == " ") line = substr(line, 2)
    } else {
      end = index(line, " ")
      if (end == 0) { token[tokens] = line; return }
      token[tokens] = substr(line, 1, end - 1)
      line = substr(line, end + 1)
    }
  }
}

function number(spelled, least, most) {
  if (!is_number(spelled)) return "word"
  return length(spelled) > 14 || spelled + 0 < least || spelled + 0 > most ? "number" : ""
}

function are_digits(spelled, most) { return spelled ~ /^[0-9a-f]*$/ && length(spelled) % 2 == 0 && length(spelled) <= 2 * most }

function value(spelled,   inner) {
  if (substr(spelled, 1, 2) == "0x") return are_digits(substr(spelled, 3), 4096) ? "" : "value"
  if (substr(spelled, 1, 1) != "\"") return "word"
  if (length(spelled) < 2 || substr(spelled, length(spelled)) != "\"") return "value"
  inner = substr(spelled, 2, length(spelled) - 2)
  return index(inner, "\\") || index(inner, "\177") || length(inner) > 4096 ? "value" : ""
}

function bytes(spelled) {
  if (substr(spelled, 1, 2) == "0x") return are_digits(substr(spelled, 3), 16384) ? "" : "value"
  return substr(spelled, 1, 1) == "\"" ? "value" : "word"
}

# Why a token may not stand where the field is due; nothing where it may. A field in small letters is that word.
function field(kind, spelled) {
  if (kind == "CLIENT") return number(spelled, 1, clients)
  if (kind == "COUNT") return number(spelled, 1, 20000)
  if (kind == "BRANCH") return number(spelled, 0, 7)
  if (kind == "MOMENT") return number(spelled, 0, LAST)
  if (kind == "TIME") return number(spelled, 1, LAST)
  if (kind == "WIRE") return number(spelled, 1, 2)
  if (kind == "CLIENTS") return number(spelled, 2, 32)
  if (kind == "ANY") return is_number(spelled) ? "" : "word"
  if (kind == "VALUE") return value(spelled)
  if (kind == "BYTES") return bytes(spelled)
  if (kind == "KEY") return spelled != "" && are_digits(spelled, 128) ? "" : "value"
  if (kind == "OPERATION") return spelled == "write" || spelled == "read" ? "" : "word"
  return spelled == kind ? "" : "word"
}

# Why the tokens from the one at `from` on aren't these fields and nothing else.
function fields(kinds, from,   kind, count, i, why) {
  count = split(kinds, kind, " ")
  for (i = 1; i <= count; i++) {
    if (from + i - 1 > tokens) return "word"
    why = field(kind[i], token[from + i - 1])
    if (why != "") return why
  }
  return tokens > from + count - 1 ? "word" : ""
}

# The head: its lines stand in `head`, and `stage` is the one that is due. The word of the first line begins it.
function head_line(line, first,   why) {
  take_tokens(line)
  if (stage == 1) {
    if (token[1] != first || tokens != 2 || (token[2] != "1" && token[2] != "2")) return "word"
    format = token[2]
    wire = 1
    stage = format == 2 ? 2 : 3
    return ""
  }
  why = fields(head[stage], 1)
  if (why != "") return why
  if (stage == 2) wire = token[2]
  if (stage == 3) clients = token[2] + 0
  if (stage == 4) key = token[2]
  if (stage == 5) delta = token[2] + 0
  if (stage == 6) dummy = token[2] + 0
  stage++
  return ""
}

# A line of a script behind its head.
function event_line(line, place,   why) {
  take_tokens(line)
  if (token[1] == "end") {
    if (tokens == 1) stage = "behind"
    return tokens == 1 ? "" : "word"
  }
  if (token[1] == "edit" || token[1] == "forge") {
    if (tokens < 2) return "word"
    why = field("CLIENT", token[2])
    if (why != "") return why
    if (tokens < 3 || !(token[3] in edits)) return "word"
    why = fields(edits[token[3]], 4)
  } else if (token[1] in events) {
    why = fields(events[token[1]], 2)
  } else {
    why = "word"
  }
  if (why == "") { played[++plays] = line; place_of[plays] = place }
  return why
}

# A line of a record behind its head, which is also played.
function entry_line(line,   why) {
  take_tokens(line)
  if (token[1] == "end") {
    why = fields("ANY", 2)
    if (why != "") return why
    if (token[2] != entries "") return "order"
    stage = "behind"
    return ""
  }
  if (!is_number(token[1]) || tokens < 2) return "word"
  if (token[2] == "begin") why = begin_fields()
  else if (token[2] == "arrive") why = fields(format == 1 ? "CLIENT" : "CLIENT BYTES", 3)
  else if (token[2] == "reply" || token[2] == "peer") why = fields("CLIENT BYTES", 3)
  else if (token[2] == "tick") why = fields("CLIENT MOMENT", 3)
  else why = "word"
  if (why != "") return why
  if (token[1] != entries "") return "order"
  why = entry(token[2], token[3], token[4], token[5])
  entries++
  return why
}

function begin_fields(   why) {
  if (tokens < 3) return "word"
  why = field("CLIENT", token[3])
  if (why != "") return why
  if (tokens < 4) return "word"
  if (token[4] == "write") return fields("VALUE", 5)
  if (token[4] == "read") return fields("CLIENT", 5)
  return "word"
}

function entry(what, i, more, argument) {
  if (what == "begin") return begin(i, more, argument)
  if (what == "arrive") {
    if (arrived[i] >= sent[i]) return "nothing"
    if (format == 2 && more != message(i, arrived[i] + 1)) return "frame"
    arrive(i)
  }
  if (what == "reply") hand(i, substr(more, 3) == REPLY && clients == 2 && wire == 1 ? "honest" : "other")
  if (what == "tick") tick(i, more + 0)
  return ""
}

# The K-th message of client i, as far as it is known: the SUBMIT of the whole text.
function message(i, k) { return i == 1 && k == 1 && submit[1, 1] == SUBMITTED && wire == 2 && key == KEY ? SUBMIT : "unknown" }

# The state of a run at its begin.
function start_run(   i, j) {
  entries = branches = 0
  submits = 0
  premise = ""
  for (i = 1; i <= 32; i++) {
    sent[i] = arrived[i] = put[i] = taken[i] = now[i] = begun[i] = 0
    pending[i] = notice[i] = held[i] = 0
    for (j = 1; j <= 32; j++) posted[i, j] = news[i, j] = 0
  }
}

function send(i, what) { kind_of[i, ++sent[i]] = what }

function begin(i, what, argument) {
  if (notice[i] == "?") return "?"
  if (notice[i]) return "failed"
  if (pending[i]) return "busy"
  pending[i] = 1
  held[i] = 0
  send(i, "SUBMIT")
  submit[i, sent[i]] = what " " (what == "write" ? i : argument)
  return ""
}

# The next message of i arrives. A SUBMIT gets a reply.
function arrive(i) {
  arrived[i]++
  if (kind_of[i, arrived[i]] != "SUBMIT") return
  submits++
  put[i]++
  is_read[i] = submit[i, arrived[i]] ~ /^read/
}

# A check broke, or that isn't known.
function fail(i, how,   j) {
  notice[i] = how
  for (j = 1; j <= clients; j++) if (j != i) posted[i, j] = how == "?" || posted[i, j] == "?" ? "?" : posted[i, j] + 1
}

# A reply comes to client i: the honest one, or one that its client refuses, or one of which that isn't known.
function hand(i, what) {
  if (notice[i] == 1) return
  if (!pending[i]) { fail(i, 1); return }
  if (what == "other") { fail(i, "?"); return }
  if (what == "bad") { fail(i, 1); return }
  pending[i] = 0
  if (wire == 2) held[i] = 1
  else send(i, "COMMIT")
}

function tick(i, m,   j) {
  if (notice[i] == 1 || m < now[i]) return
  if (notice[i] == "?") { for (j = 1; j <= clients; j++) posted[i, j] = "?"; return }
  now[i] = m
  for (j = 1; j <= clients; j++) {
    if (j == i || m - news[i, j] < delta) continue
    posted[i, j]++
    news[i, j] = m
  }
  if (!pending[i] && m - begun[i] >= dummy) {
    begin(i, "read", "by itself")
    begun[i] = m
  }
  if (!pending[i] && held[i]) {
    held[i] = 0
    send(i, "COMMIT")
  }
}

# Whether an edit can be made of the reply of i, which has the initial version, no tuple, no proof and nothing in memory.
function can_edit(i, forged) {
  if (token[3] == "add") return 1
  return !forged && (token[3] == "c" || (token[3] == "unread" && is_read[i]))
}

# A tuple that is forged has a right tag, and no client made its body, but for the SUBMIT that arrived.
function edit(i, forged,   body) {
  if (taken[i] >= put[i]) return "nothing"
  if (submits > 1) return "?"
  if (!can_edit(i, forged)) return "field"
  taken[i]++
  if (forged && (token[4] != i || submit[i, 1] != token[5] " " token[6])) {
    body = sprintf("01%02x%s%02x%016x", token[4], token[5] == "write" ? "01" : "02", token[6], 1)
    premise = "forged: entry " entries " body " body
  }
  hand(i, forged ? "bad" : "other")
  return ""
}

# One event of a script. An event of no entry takes its number back.
function event(   i) {
  i = token[2]
  entries++
  if (token[1] == "write" || token[1] == "read") return begin(i, token[1], token[3])
  if (token[1] == "arrive") {
    if (arrived[i] >= sent[i]) return "nothing"
    arrive(i)
  }
  if (token[1] == "reply") {
    if (taken[i] >= put[i]) return "nothing"
    if (submits > 1) return "?"
    taken[i]++
    hand(i, "honest")
  }
  if (token[1] == "tick") tick(i, token[3] + 0)
  if (token[1] == "peer") return peer(i, token[3], token[4])
  if (token[1] == "again") {
    if (token[3] + 0 > put[i]) return "nothing"
    if (pending[i] && !notice[i]) return "?"
    hand(i, "other")
    notice[i] = 1
  }
  if (token[1] == "raw") hand(i, "bad")
  if (token[1] == "edit" || token[1] == "forge") { entries--; i = edit(i, token[1] == "forge"); entries++; return i }
  if (token[1] == "branch" || token[1] == "route" || token[1] == "echo") { entries--; return branching(i) }
  return ""
}

function peer(i, j, k) {
  if (posted[i, j] == "?") return "?"
  if (i == j || k + 0 > posted[i, j]) return "nothing"
  if (kind_posted(i) == "FAILURE") { if (!notice[j]) fail(j, 1); return "" }
  posted[j, i]++
  return ""
}

# What client i posted first.
function kind_posted(i) { return notice[i] && now[i] == 0 ? "FAILURE" : "PROBE" }

function branching(i) {
  if (token[1] == "branch") {
    if (i + 0 > branches || token[3] + 0 != branches + 1) return "branch"
    branches++
    return ""
  }
  if (token[1] == "echo" && token[3] + 0 > arrived[i]) return "nothing"
  return token[tokens] + 0 > branches ? "branch" : ""
}

function refused(line, cause) { return cause == "?" ? "?" : "2 refused: line " line ": " cause }

# What is due of a text.
function due(text,   line, count, i, why) {
  count = split(text, line, "\n")
  if (count == 0) { count = 1; line[1] = "" }
  stage = 1
  plays = 0
  start_run()
  for (i = 1; i < count; i++) {
    if (stage == "behind") why = "after end"
    else if (stage < 7) why = head_line(line[i], word == "script" ? "faust" : "faust-record")
    else if (word == "script") why = event_line(line[i], i)
    else why = entry_line(line[i])
    if (why != "") return refused(i, why)
  }
  if (line[count] != "" || stage != "behind") return refused(count, "cut off")
  for (i = 1; i <= plays; i++) {
    take_tokens(played[i])
    why = event()
    if (why != "") return refused(place_of[i], why)
  }
  return premise == "" ? "0 entries " entries : "6 " premise
}

function tell(what, place, byte, text) {
  printf "%s %s %s %s\n", what, place, byte, due(text)
}

# Whether byte P is to become V.
function is_tried(place, new) {
  if (new == byte[place]) return 0
  return !few || new in tried || new == byte[place] + (byte[place] % 2 ? -1 : 1)
}

BEGIN {
  LAST = 1099511627775
  split("-,wire WIRE,clients CLIENTS,key KEY,delta TIME,dummy TIME", head, ",")
  count = split("write=CLIENT VALUE,read=CLIENT CLIENT,arrive=CLIENT,reply=CLIENT,tick=CLIENT MOMENT,peer=CLIENT CLIENT COUNT," \
    "post=CLIENT BYTES,branch=BRANCH BRANCH,route=CLIENT BRANCH,echo=CLIENT COUNT BRANCH,again=CLIENT COUNT,raw=CLIENT BYTES", forms, ",")
  for (i = 1; i <= count; i++) { split(forms[i], form, "="); events[form[1]] = form[2] }
  count = split("c=CLIENT,v=CLIENT TIME,m=CLIENT,ctag=,add=CLIENT OPERATION CLIENT,drop=COUNT,swap=COUNT,ltag=COUNT,proof=CLIENT," \
    "noproof=CLIENT,jv=CLIENT TIME,jtag=,t=TIME,value=VALUE,dtag=,unread=", forms, ",")
  for (i = 1; i <= count; i++) { split(forms[i], form, "="); edits[form[1]] = form[2] }
  count = split("0 10 32 34 48 97 128", list, " ")
  for (i = 1; i <= count; i++) tried[list[i]] = 1
}

{ for (i = 1; i <= NF; i++) { byte[size] = $i; text = text character($i); size++ } }

# What the whole text has, from which the changes are judged: its SUBMIT and its honest reply.
END {
  REPLY = "0102010000000000"
  SUBMITTED = "read 1"
  KEY = "a0"
  if (match(text, /1 arrive 1 0x[0-9a-f]*/)) SUBMIT = substr(text, RSTART + 11, RLENGTH - 11)
  tell("whole", 0, "-", text)
  for (p = 0; p < size; p++) {
    before = substr(text, 1, p)
    behind = substr(text, p + 2)
    here = substr(text, p + 1, 1)
    tell("cut", p, "-", before)
    tell("out", p, "-", before behind)
    tell("twice", p, "-", before here here behind)
    for (v = 0; v < 256; v++) if (is_tried(p, v)) tell("set", p, v, before character(v) behind)
  }
}
