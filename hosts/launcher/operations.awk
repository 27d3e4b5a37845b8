# The operations as `./speltmallet help write` lists them: awk -f operations.awk crates/rules/src/lib.rt crates/rules/specs/Requests.antt.
# `Request` of the first file has the names of an operation's fields, and `operations` of the second its number and which fields of a
# record it uses. Status 1, and nothing is printed, where a request does not stand in both or with other fields.
{ sub(/(\/\/|--).*/, "") }

/^pub enum Request /, /^[}]/ {
  if ($1 ~ /^[A-Z]/) { request = $1; sub(/,$/, "", request); fields[request] = 0 }
  for (i = 1; i <= NF; i++) if ($i ~ /^[a-z_]+:$/) field[request, ++fields[request]] = toupper(substr($i, 1, length($i) - 1))
}

# a line: uses ✓ ✗ ✓ ✓ (λ o p n d. Ask.Send o n d); one that has no request, as gone, keeps its number free
/^operations =/, /\[\]/ {
  gsub(/[().]/, " ")
  if (NF == 0 || $1 == "operations") next
  number++
  for (uses = 1; uses <= NF && $uses != "uses"; uses++);
  if (uses < NF) list(number - 1, $(uses + 11))
}

END {
  for (request in fields) unfit = 1
  if (unfit || !last) exit 1
  for (i = 1; i <= last; i++) printf "  %3d%-" width "s   %s\n", numbers[i], used[i], spoken(names[i])
}

# NUMBER REQUEST: notes the operation, with the names of the fields that it uses in the order of a record.
function list(n, request, of, k, i, at) {
  if (!(request in fields) || fields[request] != NF - uses - 11) unfit = 1
  for (k = 1; k <= 4; k++) {
    at = 0
    for (i = uses + 12; i <= NF; i++) if ($i == $(uses + 5 + k)) at = i - uses - 11
    if ($(uses + k) != (at ? "✓" : "✗")) unfit = 1
    if (at) of = of " " field[request, at]
  }
  delete fields[request]
  numbers[++last] = n
  names[last] = request
  used[last] = of
  if (length(of) > width) width = length(of)
}

# A name of several words as it is said: SendFromInterrupt is "Send from interrupt".
function spoken(name) {
  while (match(substr(name, 2), /[A-Z]/)) name = substr(name, 1, RSTART) " " tolower(substr(name, RSTART + 1, 1)) substr(name, RSTART + 2)
  return name
}
