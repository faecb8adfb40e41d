# Each answer on standard input behind its line's number and its call, which stands in the file `calls`, and what isn't ok in
# words, and what an audit found (tools/words.sh runs it). `reasons` is embed/sheetdesk_reason.h, `before` the number of lines before the first, `prompt`
# isn't empty if someone may wait for each line. Words of the user page, and of pages too (tools/history/words.rs).

# The rows of the table of reasons, by number: row[N, I] begins with the calls that it is for.
function read_reasons(    line, part) {
  while ((getline line < reasons) > 0) {
    if (line !~ /^ *\{[0-9]+, ".*", ".*"\},$/) continue
    split(line, part, "\"")
    line = part[1]
    gsub(/[^0-9]/, "", line)
    rows[line]++
    calls_of[line, rows[line]] = part[2]
    reason_of[line, rows[line]] = part[4]
  }
}

# Whether a row is for the call, as sheetdesk_is_for says.
function is_for(of, call,    names, count, i) {
  if (of == "" || of == "*") return 1
  count = split(of, names, ",")
  for (i = 1; i <= count; i++) if (index(call " ", names[i] " ") == 1) return 1
  return 0
}

# The cause of a refusal; nothing for a number that isn't in the table. A place may have zeros in front.
function refusal(call, number,    i) {
  sub(/^look 0+/, "look 0", call)
  sub(/^look 0[1-9]/, "look " substr(call, 7, 1), call)
  for (i = 1; i <= rows[number]; i++) if (is_for(calls_of[number, i], call)) return reason_of[number, i]
  return ""
}

# Whether a number of the line has more than 32 bits.
function is_large(line,    word, count, i) {
  count = split(line, word, " ")
  for (i = 2; i <= count; i++) {
    if (word[i] !~ /^[0-9]+$/) continue
    sub(/^0+/, "", word[i])
    if (length(word[i]) > 10 || (length(word[i]) == 10 && word[i] "" > "4294967295")) return 1
  }
  return 0
}

# Why a line is no call.
function unread(line) {
  if (length(line) > 400) return "the line has over 400 bytes"
  if (line ~ /\r$/) return "the line ends with a carriage return; see LINE ENDS in --man"
  if (line ~ /^(ok|broken|refused|clear|path|nothing|through|breaks|turned|unread)( [0-9]+)*$/)
    return "the line is an answer, as logs have them; see --replay in --man"
  if (line ~ /^#/) return "the line is a comment, which the program doesn't know; see COMMENTS in --man"
  if (line ~ / $/) return "the line ends with a space"
  if (line ~ /^ |  /) return "words and numbers stand one space apart"
  if (is_large(line)) return "a number is over 4294967295"
  return "the line is none of the calls' forms"
}

# What an audit has found.
function audited(number) {
  if (number == 0) return "each issue has read a snapshot"
  return "issue " number ", counted from 1, is the first whose reads are no snapshot"
}

# What an answer says that isn't ok, or is an audit's.
function said(call, answer) {
  if (call ~ /^audit/ && answer ~ /^ok/) return audited(substr(answer, 4))
  if (answer ~ /^refused/) return refusal(call, substr(answer, 9))
  if (answer ~ /^broken/) {
    if (call ~ /^join/) return "a line has read these sheets, and the join would move them: drop the run, open it, prepare it, fork it"
    return "the run has read these sheets, and the step would move them: drop it, open it, prepare it"
  }
  if (answer ~ /^clear/) return "the step would be ok"
  if (answer ~ /^nothing/) return "no open run has a job that could be stepped"
  if (answer ~ /^path/) return "the step would break the run: each sheet draws in the next, and the last was read already"
  if (answer ~ /^through/) return "the jobs that are not done would be ok, stepped in their order"
  if (answer ~ /^breaks/)
    return "this job would break the run, which would have read these sheets: prepare the run, or if a job is done drop it, open it, prepare it"
  if (sub(/^turned [0-9]+ /, "", answer)) return "this job would be refused: " refusal("step", answer)
  if (answer ~ /^unread/) return unread(call)
  return ""
}

# A comment may give names: "# names sheets Plan Schedule". Of a kind the last such line counts.
function take_names(comment,    word, count, i) {
  count = split(comment, word, " ")
  if (word[1] != "#" || word[2] != "names" || word[3] !~ /^(sheets|offices|writers)$/) return
  for (i = 0; i < named[word[3]]; i++) delete names[word[3], i]
  named[word[3]] = count - 3
  for (i = 4; i <= count; i++) names[word[3], i - 4] = word[i]
}

# A number's name, or the number.
function name(kind, number) {
  return number ~ /^[0-9]+$/ && (kind, number + 0) in names ? names[kind, number + 0] : number
}

# The names of a mask's sheets. One without a name is told as a sheet: its number alone would read as another mask.
function sheets(mask,    k, text) {
  if (!named["sheets"] || mask !~ /^[0-9]+$/ || mask + 0 == 0) return mask
  for (k = 0; k < 32; k++) if (int(mask / 2 ^ k) % 2)
    text = text (text == "" ? "" : "+") (("sheets", k) in names ? names["sheets", k] : "sheet " k)
  return text
}

# What the numbers behind a call's word are: o an office, k a sheet, w a writer, m a mask of sheets, - another number.
function kinds(word, place) {
  if (word == "fetch" || word == "evict") return "ok"
  if (word == "issue") return "-wm"
  if (word == "look") return place == 1 ? "-ok" : "--k"
  if (word == "stale" || word == "allow") return "o-"
  if (word == "mayhold") return "om"
  if (word == "maysave") return "wm"
  if (word == "open") return "-om-om-om-om-om-om-om-om-"
  return ""
}

function with_name(kind, number) {
  if (kind == "o") return name("offices", number)
  if (kind == "w") return name("writers", number)
  if (kind == "k") return name("sheets", number)
  return kind == "m" ? sheets(number) : number
}

# A call with names instead of numbers.
function named_call(call,    word, count, kind, i) {
  count = split(call, word, " ")
  kind = kinds(word[1], word[2])
  call = word[1]
  for (i = 2; i <= count; i++) call = call " " with_name(substr(kind, i - 1, 1), word[i])
  return call
}

# An answer with the names of its sheets.
function named_answer(call, answer,    word, count, kind, i) {
  count = split(answer, word, " ")
  kind = word[1] == "broken" ? "m" : word[1] == "path" ? "k" : ""
  if (word[1] == "ok" && call ~ /^(fetch|evict|stale|step|prepare) /) kind = "m"
  answer = word[1]
  for (i = 2; i <= count; i++) answer = answer " " with_name(word[1] == "breaks" && i == 3 ? "m" : kind, word[i])
  return answer
}

function report(number, call, answer,    words) {
  words = said(call, answer)
  if (call ~ /^#/) take_names(call)
  else if (answer !~ /^unread/ && named["sheets"] + named["offices"] + named["writers"]) {
    answer = named_answer(call, answer)
    call = named_call(call)
  }
  if (length(call) > 400) call = substr(call, 1, 60) ".."
  gsub(/\r/, "\\r", call)
  gsub(/[^ -~]/, "?", call)
  print number ": " call " -> " answer (words == "" ? "" : ": " words)
}

# The call is read first: a long one would else fill its pipe, and the program would wait for the rest of it.
BEGIN {
  read_reasons()
  for (number = before + 1; ; number++) {
    if ((getline call < calls) <= 0) call = ""
    if ((getline answer) <= 0) break
    report(number, call, answer)
    if (prompt) fflush()
  }
}
